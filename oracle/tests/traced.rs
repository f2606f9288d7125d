//! Document 01's traced jobs, on imago's side and by its rules.

use oracle::document_side::DocumentSide;
use oracle::event::row_opening;
use oracle::imago_side::ImagoSide;
use oracle::lists::SCRIPTS;
use oracle::side::{Act, Begin, Begun, Due, Job, Segment, Side};
use oracle::trace;

const TOP: u64 = u64::MAX; // 2^64 - 1

/// What a job does, told 0 but for the first code: begin's answer where it takes no slot, otherwise its requests.
fn requests(side: &mut impl Side, row: u64, bounce: u64, begin: &Begin, first: u8) -> Vec<String> {
    assert_eq!(side.open(&row_opening(row, bounce)), 0);
    let slot = match side.begin(begin) {
        Begun::Slot(slot) => slot,
        Begun::Done => return vec!["done".to_owned()],
        Begun::Refused(number) => return vec![format!("refused {number}")],
    };
    let mut made = Vec::new();
    while let Due::Make(mut r) = side.next(slot) {
        r.pieces.clear();
        made.push(trace::request(&r).replace(" into", "").replace(" from", ""));
        let code = if made.len() == 1 { first } else { 0 };
        side.carry(slot, Act { code, choice: None });
        assert_eq!(side.tell(slot, code), 0);
    }
    assert_eq!(side.collect(slot), Ok(0));
    made
}

fn check(row: u64, bounce: u64, begin: Begin, first: u8, expected: &[&str]) {
    let imago = requests(&mut ImagoSide::new(&SCRIPTS.content()), row, bounce, &begin, first);
    let rules = requests(&mut DocumentSide::new(&SCRIPTS.content()), row, bounce, &begin, first);
    assert_eq!(imago, expected, "imago, {begin:?}");
    assert_eq!(rules, expected, "rules, {begin:?}");
    #[cfg(dock)]
    {
        let mut dock = oracle::dock_side::DockSide::new(&SCRIPTS.content());
        let made = requests(&mut dock, row, bounce, &begin, first);
        assert_eq!((made, dock.fault()), (expected.iter().map(|e| (*e).to_owned()).collect(), None), "dock, {begin:?}");
    }
}

fn write(offset: u64, segments: &[(u64, u64)]) -> Begin {
    vector(Job::Write, offset, segments)
}

fn vector(job: Job, offset: u64, segments: &[(u64, u64)]) -> Begin {
    let segments = segments.iter().map(|(start, length)| Segment { start: *start, length: *length }).collect();
    Begin::vector(job, offset, segments)
}

#[test]
fn writes() {
    check(1, 4096, write(100, &[(0, 10)]), 0, &["read 0+512", "read 0+512", "write 0+512"]);
    check(1, 4096, write(100, &[(0, 412)]), 0, &["read 0+512", "write 0+512"]);
    check(1, 4096, write(512, &[(0, 512)]), 0, &["write 512+512"]);
    check(1, 4096, write(512, &[(0, 256), (300, 256)]), 0, &["write 512+512"]);
    check(1, 4096, write(100, &[(0, 900)]), 0, &["read 0+1024", "write 0+1024"]);
    check(1, 4096, write(100, &[(0, 1500)]), 0, &["read 0+512", "read 1536+512", "write 0+2048"]);
    check(4, 12_288, write(700, &[(1, 10)]), 0, &["read 512+4096", "read 512+4096", "write 512+4096"]);
}

#[test]
fn zeroes_and_discards() {
    let zero = Begin::range(Job::Zeroes, 100, 1000);
    let head = ["read 0+512", "write 0+512"];
    let tail = ["read 1024+512", "write 1024+512"];
    check(1, 4096, zero.clone(), 0, &["zero 512+512", head[0], head[1], tail[0], tail[1]]);
    check(1, 4096, zero, 1, &["zero 512+512", head[0], head[1], "read 1024+512", "write 512+1024"]);
    check(1, 4096, Begin::range(Job::Zeroes, 1, 1022), 0, &["read 0+1024", "write 0+1024"]);
    check(1, 4096, Begin::range(Job::Discard, 100, 400), 0, &["done"]);
    check(1, 4096, Begin::range(Job::Discard, TOP - 510, 0), 0, &["refused 207"]);
    check(1, 4096, Begin::range(Job::Discard, TOP - 511, 0), 0, &["done"]);
}

#[test]
fn near_the_largest_offset() {
    check(1, 4096, write(TOP - 511, &[(0, 1)]), 0, &["refused 207"]);
    let block = TOP - 1023;
    let (read, written) = (format!("read {block}+512"), format!("write {block}+512"));
    check(1, 4096, write(TOP - 512, &[(0, 1)]), 0, &[&read, &written]);
    check(1, 4096, vector(Job::Read, TOP, &[]), 0, &["done"]);
    check(1, 4096, vector(Job::Read, TOP, &[(0, 1)]), 0, &["refused 207"]);
}
