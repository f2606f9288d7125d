use super::*;
use crate::draw::Draw;
use crate::{raw, Begun, Dock, Refusal};
use std::collections::BTreeMap;

#[test]
fn words_are_count_total_and_segments() {
    let mut vector = Vector::of(7, 3);
    vector.push(100, 20);
    assert_eq!(vector.words()[..8], [2, 23, 7, 3, 100, 20, 0, 0]);
    assert_eq!(vector.total(), 23);
}

#[test]
fn a_segment_that_starts_where_the_last_ends_lengthens_it() {
    let mut vector = Vector::of(7, 3);
    for (start, words) in [
        (10, [1, 8, 7, 8, 0, 0, 0, 0]),     // touches
        (16, [2, 13, 7, 8, 16, 5, 0, 0]),   // a byte behind the end
        (20, [3, 18, 7, 8, 16, 5, 20, 5]),  // a byte before it
        (25, [3, 23, 7, 8, 16, 5, 20, 10]), // touches
    ] {
        vector.push(start, 5);
        assert_eq!(vector.words()[..8], words);
    }
}

#[test]
fn a_seventeenth_segment_shows_in_the_count_alone() {
    let mut vector = Vector::new();
    for i in 0..SEGMENTS {
        vector.push(2 * i, 1);
    }
    let full = vector;
    for start in [50, 31, 50] {
        vector.push(start, 1);
        assert_eq!(vector.words()[0], 17);
        assert_eq!(vector.words()[1..], full.words()[1..]);
    }
}

#[test]
fn one_that_touches_the_sixteenth_is_no_seventeenth() {
    let mut vector = Vector::new();
    for i in 0..SEGMENTS {
        vector.push(2 * i, 1);
    }
    vector.push(31, 5);
    assert_eq!((vector.words()[0], vector.total()), (16, 21));
    assert_eq!(vector.words()[32..], [30, 6]);
}

#[test]
fn an_empty_segment_joins_no_other() {
    let mut vector = Vector::of(7, 3);
    vector.push(10, 0);
    vector.push(10, 4);
    vector.push(14, 1);
    assert_eq!(vector.words()[..8], [3, 8, 7, 3, 10, 0, 10, 5]);
}

#[test]
fn a_sum_past_the_last_number_stays_there() {
    let mut vector = Vector::of(0, usize::MAX);
    vector.push(0, 2);
    assert_eq!(vector.total(), u64::MAX);
}

/// Neither an end nor a length of both that is no number.
#[test]
fn segments_whose_sums_are_no_numbers_stay_apart() {
    for (last, next) in [((usize::MAX, 2), (1, 5)), ((4, usize::MAX - 4), (usize::MAX, 5))] {
        let mut vector = Vector::of(last.0, last.1);
        vector.push(next.0, next.1);
        assert_eq!(vector.words()[0], 2);
        assert_eq!(vector.words()[2..6], [last.0, last.1, next.0, next.1].map(|word| word as u64));
    }
}

#[test]
fn a_range_meets_the_segments_whose_bytes_it_shares() {
    let mut vector = Vector::of(10, 5);
    vector.push(20, 1);
    for (range, meets) in [
        (0..10, false),
        (0..11, true),
        (14..15, true),
        (15..20, false),
        (20..21, true),
        (21..99, false),
        (12..12, false),
    ] {
        assert_eq!(vector.meets(&range), meets, "{range:?}");
    }
}

const DATA: usize = 1_310_720;
const SEQUENCES: u64 = 20_000;
const PUSHES: usize = 32;

/// Why the library takes or refuses a push on a right vector, as the rules have it; or a push after a refusal.
#[derive(Clone, Copy, Debug, PartialEq, Eq, PartialOrd, Ord)]
enum Reason {
    Apart,
    Joined,
    JoinedToSixteenth,
    Empty,
    EmptyTouching,
    Outside,
    OutsideTouching,
    TooLong,
    TooLongTouching,
    Seventeenth,
    Later,
    LaterTouching,
}

/// Where the last segment ends that is kept.
fn end(vector: &Vector) -> usize {
    match (vector.words()[0] as usize).min(SEGMENTS) {
        0 => 0,
        count => vector.words()[2 * count].wrapping_add(vector.words()[1 + 2 * count]) as usize,
    }
}

fn touches(vector: &Vector, start: usize) -> bool {
    vector.words()[0] != 0 && end(vector) == start
}

fn reason(vector: &Vector, (start, length): (usize, usize)) -> Reason {
    let by_touch = |reasons: [Reason; 2]| reasons[usize::from(touches(vector, start))];
    if length == 0 {
        by_touch([Reason::Empty, Reason::EmptyTouching])
    } else if start > DATA || length > DATA - start {
        by_touch([Reason::Outside, Reason::OutsideTouching])
    } else if vector.total() + length as u64 > LONGEST_VECTOR {
        by_touch([Reason::TooLong, Reason::TooLongTouching])
    } else if vector.words()[0] == SEGMENTS as u64 {
        by_touch([Reason::Seventeenth, Reason::JoinedToSixteenth])
    } else {
        by_touch([Reason::Apart, Reason::Joined])
    }
}

/// Half of them start where the last one ends; now and then one is empty, outside the data, or about as long as can be.
fn any_segment(draw: &mut Draw, vector: &Vector, longest: u64) -> (usize, usize) {
    let near = draw.below(3) as usize;
    let start = match draw.below(16) {
        0..=7 => end(vector),
        8 => end(vector).wrapping_add(1),
        9 => end(vector).wrapping_sub(1),
        _ if draw.one_in(20) => [DATA - near, usize::MAX - near][draw.below(2) as usize],
        _ => draw.below(DATA as u64) as usize,
    };
    let room = LONGEST_VECTOR.saturating_sub(vector.total()) as usize;
    let length = match draw.below(80) {
        0 | 1 => 0,
        2 => (DATA + 1).wrapping_sub(start),
        3 => usize::MAX - near,
        4..=6 => room + near.min(1),
        _ => 1 + draw.below(longest) as usize,
    };
    (start, length)
}

/// Whether begin takes the vector; where not, it refuses it for its segments. Alignments are 1, so any job is direct.
fn is_taken(dock: &mut Dock<'_>, vector: &Vector) -> bool {
    match dock.begin_write(0, vector) {
        Ok(begun) => {
            assert_eq!(begun, Begun::Slot(0));
            dock.tell(0, 0).unwrap();
            dock.collect(0).unwrap();
            true
        }
        Err(refusal) => {
            assert_eq!(refusal, Refusal::Segment);
            false
        }
    }
}

/// Pushes of one sequence, on a vector and on the library's words; what they reached.
fn push_sequence(dock: &mut Dock<'_>, sequence: u64, reached: &mut BTreeMap<Reason, u64>) {
    let mut draw = Draw::new(sequence);
    let longest = [4, 600, 100_000, DATA as u64 / 2][draw.below(4) as usize];
    let (mut vector, mut words, mut is_right) = (Vector::new(), *Vector::new().words(), true);
    for _ in 0..PUSHES {
        let (start, length) = any_segment(&mut draw, &vector, longest);
        let later = [Reason::Later, Reason::LaterTouching][usize::from(touches(&vector, start))];
        let why = if is_right { reason(&vector, (start, length)) } else { later };
        *reached.entry(why).or_default() += 1;
        let place = format!("sequence {sequence}: {why:?}, {start}+{length}");
        vector.push(start, length);
        if is_right {
            is_right = why <= Reason::JoinedToSixteenth;
            let number = raw::push_segment(&mut words, start, length, DATA);
            assert_eq!(number, if is_right { 0 } else { 202 }, "{place}");
        }
        assert_eq!(is_taken(dock, &vector), is_right, "{place}");
        assert!(!is_right || vector.words() == &words, "{place}: {vector:?}, the library's {words:?}");
    }
}

/// As long as the library takes each push, both have the same words; from the first that it refuses on, begin refuses.
#[test]
fn pushes_are_the_library_s() {
    let (mut data, mut scratch) = (vec![0; DATA], [0; 32]);
    let mut dock = Dock::open_row(0, 4, &mut data, &mut scratch).unwrap();
    let mut reached = BTreeMap::new();
    for sequence in 0..SEQUENCES {
        push_sequence(&mut dock, sequence, &mut reached);
    }
    println!("{reached:?}");
    assert_eq!(reached.len(), 12, "something was never reached: {reached:?}");
}
