//! Where segments that touch are joined: by pushes, and so in the vectors of a script; not by a begin.

use oracle::document::{self, LONGEST_VECTOR};
use oracle::document_parts::DocumentVectors;
use oracle::document_side::DocumentSide;
use oracle::event::{row_opening, Event};
use oracle::imago_parts::ImagoVectors;
use oracle::imago_side::ImagoSide;
use oracle::lists::SCRIPTS;
use oracle::random::Random;
use oracle::replay::imago_trace;
use oracle::script::parse;
use oracle::side::{Begin, Begun, Due, Job, Segment, Side, Vectors};
use oracle::trace;

/// What imago's side gives for an event after opening row 1: the answer, and what is due.
fn traced(line: &str) -> String {
    let events: Vec<Event> = ["open 1 4096", line].map(|l| parse(l).expect("an event")).into();
    let lines = imago_trace(&events, None).lines;
    let text = lines[1].strip_prefix(line).expect("the event stands as it is written");
    text[..text.find("  store").expect("the sums come last")].to_owned()
}

/// 16 segments of a byte each with a byte between them, and one more.
fn seventeen(last: &str) -> String {
    let apart: String = (0..16).map(|i| format!(" {} 1", 2 * i)).collect();
    format!("write 0{apart} {last}")
}

#[test]
fn a_script_s_vectors_are_pushed() {
    for (line, due) in [
        ("write 512 0 256 256 256", "write 512+512 from data 0+512"),
        ("write 512 256 256 0 256", "write 512+512 from scratch 0+512"),
        ("read 512 0 512 512 512 2048 512", "read 512+1536 into data 0+1024 data 2048+512"),
        (&seventeen("31 1"), "read 0+512 into scratch 0+512"),
    ] {
        assert_eq!(traced(line), format!(": slot 0\n  slot 0: due {due}\n"), "{line}");
    }
    for line in [&seventeen("32 1"), "write 0 0 10 10 0", "write 0 10 0 10 10", "write 0 4090 6 4096 1"] {
        assert_eq!(traced(line), ": refused 202\n", "{line}");
    }
}

/// The request that a write of row 1 at 512 begins with.
fn first_request(mut side: impl Side, begin: &Begin) -> String {
    assert_eq!(side.open(&row_opening(1, 4096)), 0);
    assert_eq!(side.begin(begin), Begun::Slot(0));
    match side.next(0) {
        Due::Make(request) => trace::request(&request),
        due => panic!("{due:?}"),
    }
}

fn check_begin(begin: &Begin, expected: &str) {
    let content = SCRIPTS.content();
    assert_eq!(first_request(ImagoSide::new(&content), begin), expected, "imago");
    assert_eq!(first_request(DocumentSide::new(&content), begin), expected, "the rules");
    #[cfg(dock)]
    assert_eq!(first_request(oracle::dock_side::DockSide::new(&content), begin), expected, "the dock");
}

#[test]
fn a_begin_joins_nothing() {
    let halves = [(0, 256), (256, 256)].map(|(start, length)| Segment { start, length });
    let blocks = [(0, 512), (512, 512)].map(|(start, length)| Segment { start, length });
    for (job, request, to) in [(Job::Write, "write", "from"), (Job::Read, "read", "into")] {
        let begin = Begin::vector(job, 512, halves.to_vec());
        check_begin(&begin, &format!("{request} 512+512 {to} scratch 0+512"));
        check_begin(&begin.pushed(), &format!("{request} 512+512 {to} data 0+512"));
        let begin = Begin::vector(job, 512, blocks.to_vec());
        check_begin(&begin, &format!("{request} 512+1024 {to} data 0+512 data 512+512"));
        check_begin(&begin.pushed(), &format!("{request} 512+1024 {to} data 0+1024"));
    }
}

const LONG: u64 = LONGEST_VECTOR + 262_144;

/// Up to 20 segments, which often touch; now and then one is empty, outside the data or near 2^64.
fn any_segments(random: &mut Random) -> Vec<Segment> {
    let longest = random.pick(&[4, 600, 200_000]);
    let mut segments: Vec<Segment> = Vec::new();
    for _ in 0..random.below(21) {
        let (near, any) = (random.below(3), random.below(LONG));
        let end = segments.last().map_or(any, |s| s.start.wrapping_add(s.length));
        let start = random.pick(&[end, end, end, end.wrapping_add(1), any, any]);
        let start = if random.once_in(100) { random.pick(&[LONG - near, u64::MAX - near]) } else { start };
        let length = 1 + random.below(longest);
        let length = if random.once_in(60) { random.pick(&[0, LONG, u64::MAX - near]) } else { length };
        segments.push(Segment { start, length });
    }
    segments
}

fn push_all(side: &mut impl Vectors, segments: &[Segment]) -> Result<Vec<Segment>, u8> {
    segments.iter().try_fold(Vec::new(), |v, s| side.push(&v, *s))
}

/// What `document::pushed` says of the joined list: a vector over the data exactly where every push is accepted.
#[test]
fn pushes_one_by_one_leave_the_joined_list() {
    let data = vec![0; LONG as usize];
    let (mut imago, mut rules) = (ImagoVectors::new(&data), DocumentVectors::new(&data));
    let mut random = Random::new(11, 4);
    let (mut accepted, mut shorter) = (0, 0);
    for _ in 0..20_000 {
        let segments = any_segments(&mut random);
        let joined = document::pushed(&segments);
        let expected = match document::vector(&joined, LONG) {
            0 => Ok(joined),
            refusal => Err(refusal),
        };
        accepted += u64::from(expected.is_ok());
        shorter += u64::from(expected.as_ref().is_ok_and(|v| v.len() < segments.len()));
        assert_eq!(push_all(&mut imago, &segments), expected, "imago, {segments:?}");
        assert_eq!(push_all(&mut rules, &segments), expected, "the rules, {segments:?}");
    }
    assert!(accepted < 19_000 && shorter > 1000, "{accepted} accepted, {shorter} of them joined");
}
