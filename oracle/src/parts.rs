//! Vectors, write blockers and the planner of two sides, compared on random cases.

use crate::departures;
use crate::document;
use crate::lists::MEMORY;
use crate::random::Random;
use crate::side::{Alignments, Blockers, Lent, Opening, Planner, Segment, Vectors, ROWS, SLOTS};
use std::fmt::Debug;

/// What was called, and what the sides answered, where they differ.
pub type Found = Option<String>;

fn unlike<T: PartialEq + Debug>(call: &str, left: T, right: T) -> Found {
    (left != right).then(|| format!("{call}: {left:?} and {right:?}"))
}

/// A blocker is entered or leaves, or empty ranges are; then who waits.
pub fn blockers(random: &mut Random, left: &mut impl Blockers, right: &mut impl Blockers, calls: u64) -> Found {
    let mut entered = [false; SLOTS];
    let mut list = String::new();
    for _ in 0..calls {
        let slot = random.below(SLOTS as u64) as usize;
        if entered[slot] {
            left.leave(slot);
            right.leave(slot);
            list += &format!("leave {slot}; ");
        } else {
            let start = random.below(12);
            let range = start..start + random.below(5);
            let strong = random.once_in(2);
            left.enter(slot, range.clone(), strong);
            right.enter(slot, range.clone(), strong);
            list += &format!("enter {slot} {range:?} strong {strong}; ");
        }
        entered[slot] = !entered[slot];
        let waiting = |b: &dyn Fn(usize) -> bool| (0..SLOTS).filter(|s| b(*s)).collect::<Vec<_>>();
        let found = unlike("waiting", waiting(&|s| left.waits(s)), waiting(&|s| right.waits(s)))
            .or_else(|| left.fault())
            .or_else(|| right.fault());
        if let Some(what) = found {
            return Some(list + &what);
        }
    }
    None
}

fn segment(random: &mut Random) -> Segment {
    let unit = random.pick(&[1, 16, 512]);
    let start = random.below(MEMORY.data + 10) / unit * unit;
    let length = random.below(600) / unit * unit;
    Segment { start, length }
}

fn end(s: &Segment) -> u64 {
    s.start + s.length
}

/// A segment that starts where another ends, now and then a byte off; now and then an empty one.
fn segment_behind(random: &mut Random, other: &Segment) -> Segment {
    let at = end(other);
    let start = random.pick(&[at, at, at, at, at + 1, at.saturating_sub(1)]);
    let length = if random.once_in(8) { 0 } else { 1 + random.below(64) };
    Segment { start, length }
}

/// A segment that ends where another starts, or one before.
fn segment_before(random: &mut Random, right: &Segment) -> Segment {
    let length = random.below(64).min(right.start);
    Segment { start: right.start - length - u64::from(right.start > length && random.once_in(8)), length }
}

/// A segment for the place before `index`: one that touches what stands before it, or after it, or both; or any.
fn segment_between(random: &mut Random, v: &[Segment], index: usize) -> Segment {
    let neighbours = (index.checked_sub(1).and_then(|i| v.get(i)), v.get(index));
    match (random.below(4), neighbours) {
        (0, (Some(left), _)) => segment_behind(random, left),
        (1, (_, Some(right))) => segment_before(random, right),
        // at the end of a vector this joins nothing
        (1, (Some(left), None)) => segment_before(random, left),
        (2, (Some(left), Some(right))) if end(left) <= right.start => {
            Segment { start: end(left), length: right.start - end(left) }
        }
        _ => segment(random),
    }
}

/// A vector of so many segments, or a few less where they do not fit. Where segments may touch, every third is to.
fn vector(random: &mut Random, count: usize, touching: bool) -> Vec<Segment> {
    let mut v: Vec<Segment> = Vec::new();
    for _ in 0..8 * count {
        let behind = touching && random.once_in(3);
        let s = match v.last() {
            Some(last) if behind => segment_behind(random, last),
            _ => segment(random),
        };
        if v.len() < count && document::vector(&[&v[..], &[s]].concat(), MEMORY.data) == 0 {
            v.push(s);
        }
    }
    v
}

/// What is appended to a vector: few segments, or as many as have room, one or two more; every second time the first of
/// them starts where the vector ends, which may be outside the data.
fn other_vector(random: &mut Random, v: &[Segment]) -> Vec<Segment> {
    let room = document::MOST_SEGMENTS - v.len();
    let count = random.pick(&[1, 2, room, room + 1, room + 2]).min(document::MOST_SEGMENTS);
    let touching = random.once_in(2);
    let mut other = vector(random, count, touching);
    if let (true, Some(last), Some(first)) = (random.once_in(2), v.last(), other.first_mut()) {
        first.start = end(last);
    }
    other
}

/// Whether no two segments share a byte: imago's mutable vectors cannot be built otherwise.
fn is_apart(v: &[Segment]) -> bool {
    v.iter().enumerate().all(|(i, s)| !v[i + 1..].iter().any(|t| document::overlap(s, t)))
}

/// The calls that take segments in; the first of them that differs.
fn vector_edits(random: &mut Random, v: &[Segment], left: &mut impl Vectors, right: &mut impl Vectors) -> Found {
    let index = random.below(v.len() as u64 + 2) as usize;
    let (last, s) = (segment_between(random, v, v.len()), segment_between(random, v, index));
    let (rest, other) = (&v[index.min(v.len())..], other_vector(random, v));
    let mut append = |v: &[Segment], other: &[Segment]| {
        unlike(&format!("{v:?} append {other:?}"), left.append(v, other), right.append(v, other))
    };
    let appended = append(v, v).or_else(|| append(v, rest)).or_else(|| append(v, &other));
    appended
        .or_else(|| unlike(&format!("{v:?} push {last:?}"), left.push(v, last), right.push(v, last)))
        .or_else(|| unlike(&format!("{v:?} insert {index} {s:?}"), left.insert(v, index, s), right.insert(v, index, s)))
}

/// Anywhere, at either end or past it, at half or about it, or between two segments.
fn split_point(random: &mut Random, v: &[Segment]) -> u64 {
    let total = document::total(v);
    let anywhere = random.below(total + 3);
    let clean = document::total(&v[..random.below(v.len() as u64 + 1) as usize]);
    random.pick(&[anywhere, 0, total, u64::MAX, total / 2, total / 2 + 1, clean, clean])
}

/// The splits, and the parts of one appended to each other again.
fn vector_splits(random: &mut Random, v: &[Segment], left: &mut impl Vectors, right: &mut impl Vectors) -> Found {
    let mid = split_point(random, v);
    let parts = left.split_at(v, mid);
    let (head, tail) = (&parts.head, &parts.tail);
    unlike(&format!("{v:?} split_at {mid}"), parts.clone(), right.split_at(v, mid))
        .or_else(|| {
            unlike(&format!("{v:?} split_tail_at {mid}"), left.split_tail_at(v, mid), right.split_tail_at(v, mid))
        })
        .or_else(|| unlike(&format!("{head:?} append {tail:?}"), left.append(head, tail), right.append(head, tail)))
}

/// The calls that move bytes.
fn vector_bytes(random: &mut Random, v: &[Segment], left: &mut impl Vectors, right: &mut impl Vectors) -> Found {
    let length = (document::total(v) + u64::from(random.once_in(8))) as usize;
    let (mut a, mut b) = (vec![7; length], vec![7; length]);
    let answers = (left.copy_into_slice(v, &mut a), right.copy_into_slice(v, &mut b));
    let copied = unlike(&format!("{v:?} copy_into_slice"), (answers.0, a), (answers.1, b));
    if copied.is_some() || !is_apart(v) {
        return copied;
    }
    let (value, word) = (random.below(256) as u8, random.word());
    let bytes: Vec<u8> = (0..length as u64).map(|i| (word >> (i % 57)) as u8).collect();
    let answers = (left.copy_from_slice(v, &bytes), right.copy_from_slice(v, &bytes));
    let found = unlike(&format!("{v:?} copy_from_slice"), answers.0, answers.1)
        .or_else(|| unlike(&format!("{v:?} copy_from_slice, the data"), left.data(), right.data()));
    left.fill(v, value);
    right.fill(v, value);
    found.or_else(|| unlike(&format!("{v:?} fill, the data"), left.data(), right.data()))
}

/// Every call on a random vector, as pushes leave it or with segments that touch.
pub fn vectors(random: &mut Random, left: &mut impl Vectors, right: &mut impl Vectors) -> Found {
    let (count, touching) = (random.pick(&[0, 1, 2, 3, 5, 8, 15, 16]), random.once_in(2));
    let v = vector(random, count, touching);
    let v = if random.once_in(2) { document::pushed(&v) } else { v };
    let (mem, req) = (1 << random.below(11), 1 << random.below(11));
    let aligned = (left.is_aligned(&v, mem, req), right.is_aligned(&v, mem, req));
    unlike(&format!("{v:?} is_aligned {mem} {req}"), aligned.0, aligned.1)
        .or_else(|| vector_edits(random, &v, left, right))
        .or_else(|| vector_splits(random, &v, left, right))
        .or_else(|| vector_bytes(random, &v, left, right))
        .or_else(|| left.fault())
        .or_else(|| right.fault())
}

/// A plan, where imago can be asked for one.
pub fn planner(random: &mut Random, left: &mut impl Planner, right: &mut impl Planner) -> Found {
    let align = random.pick(&ROWS);
    let align = if random.once_in(20) { Alignments { mem: 3, ..align } } else { align };
    let bounce = random.pick(&[document::LONGEST_BOUNCE, document::LONGEST_BOUNCE, 65_536]);
    let none = Lent { address: 0, length: 0 };
    let opening = Opening { align, bounce, data: none, scratch: none };
    let offset = random.below(9) * align.req + u64::from(random.once_in(5));
    let blocks = random.pick(&[0, 1, 2, 127, 2048, 2049, 4096, 5000]);
    let length = (blocks * align.req).min(4 << 20) + u64::from(random.once_in(6));
    let offset = if random.once_in(4) { u64::MAX - (align.req - 1) - offset - length } else { offset };
    if !departures::can_plan(&opening, offset, length) {
        return None;
    }
    let call = format!("{align:?} bounce {bounce} offset {offset} length {length}");
    unlike(&call, left.chunks(&opening, offset, length), right.chunks(&opening, offset, length))
}
