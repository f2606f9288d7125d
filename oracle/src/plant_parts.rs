//! Planted faults of vectors, blockers and the planner alone: each is wrong in one thing.

use crate::document;
use crate::imago_parts::joined_at;
use crate::side::{Blockers, Halves, Opening, Planner, Segment, Tail, Vectors};
use std::ops::Range;

/// What `WrongVectors` can be wrong in: a call; or, after its name, how it joins or looks for the split.
pub const VECTOR_FAULTS: [&str; 34] = [
    "push",
    "insert",
    "append",
    "append before",
    "split_at",
    "split_tail_at",
    "copy_into_slice",
    "copy_from_slice",
    "fill",
    "is_aligned",
    "push joins nothing",
    "push joins across a gap",
    "push joins an empty one",
    "push joins all that touch",
    "push counts before joining",
    "insert joins nothing",
    "insert joins across a gap",
    "insert joins an empty one",
    "insert joins on the left alone",
    "insert joins on the right alone",
    "insert joins all that touch",
    "insert counts before joining",
    "append joins nothing",
    "append joins across a gap",
    "append joins all that touch",
    "append counts before joining",
    "split_at looks from half on",
    "split_at looks from the first",
    "split_at looks past a clean cut",
    "split_at looks at one more",
    "split_tail_at looks from half on",
    "split_tail_at looks from the first",
    "split_tail_at looks past a clean cut",
    "split_tail_at looks at one more",
];

/// The list, where it has no more segments than a vector takes.
fn counted(list: Vec<Segment>) -> Result<Vec<Segment>, u8> {
    if list.len() <= document::MOST_SEGMENTS {
        Ok(list)
    } else {
        Err(document::SEGMENT)
    }
}

/// How many bytes lie between the end of the last segment and the start of the first.
fn gap(before: &[Segment], after: &[Segment]) -> Option<u64> {
    let (last, first) = (before.last()?, after.first()?);
    first.start.checked_sub(last.start + last.length)
}

/// What a call gives that is right but for its joining, with `new` between two parts of the vector.
fn joined_wrongly(how: &str, right: Result<Vec<Segment>, u8>, parts: [&[Segment]; 3]) -> Result<Vec<Segment>, u8> {
    let [before, new, after] = parts;
    let (apart, seam) = (parts.concat(), before.len());
    match how {
        "joins nothing" => right.and_then(|_| counted(apart)),
        "joins across a gap" if gap(before, new) == Some(1) => right.map(|_| {
            let mut list = apart;
            list[seam].start -= 1;
            joined_at(list, seam)
        }),
        "joins an empty one" if gap(before, new) == Some(0) && document::total(new) == 0 => {
            Ok([before, after].concat())
        }
        "joins on the left alone" => right.and_then(|_| counted(joined_at(apart, seam))),
        "joins on the right alone" => right.and_then(|_| counted(joined_at(apart, seam + 1))),
        "joins all that touch" => right.map(|list| document::pushed(&list)),
        "counts before joining" => counted(apart).and(right),
        _ => right,
    }
}

/// How many segments a split looks at that is right but for that.
fn looked_wrongly(how: &str, right: &Halves, v: &[Segment], mid: u64) -> u64 {
    let total = document::total(v);
    let (head, tail) = (right.head.len() as u64, right.tail.len() as u64);
    let is_inside = 0 < mid && mid < total;
    // a clean cut: the parts have no segment more than the whole
    let is_clean = head + tail == v.len() as u64;
    match how {
        "looks from half on" if 2 * mid == total => tail,
        "looks from the first" => head,
        "looks past a clean cut" if is_inside && is_clean => right.looked + 1,
        "looks at one more" if is_inside => right.looked + 1,
        _ => right.looked,
    }
}

/// Vectors that are wrong in one of `VECTOR_FAULTS`.
pub struct WrongVectors<V>(pub V, pub &'static str);

impl<V> WrongVectors<V> {
    /// How a call of that name does it, where that is what is wrong.
    fn how(&self, call: &str) -> &'static str {
        self.1.strip_prefix(call).map_or("", str::trim_start)
    }
}

impl<V: Vectors> Vectors for WrongVectors<V> {
    fn push(&mut self, v: &[Segment], s: Segment) -> Result<Vec<Segment>, u8> {
        let right = if self.1 == "push" { self.0.insert(v, 0, s) } else { self.0.push(v, s) };
        joined_wrongly(self.how("push"), right, [v, &[s], &[]])
    }

    fn insert(&mut self, v: &[Segment], index: usize, s: Segment) -> Result<Vec<Segment>, u8> {
        let right = if self.1 == "insert" { self.0.push(v, s) } else { self.0.insert(v, index, s) };
        let (before, after) = v.split_at(index.min(v.len()));
        joined_wrongly(self.how("insert"), right, [before, &[s], after])
    }

    fn append(&mut self, v: &[Segment], other: &[Segment]) -> Result<Vec<Segment>, u8> {
        let right = match self.1 {
            "append" => Ok(joined_at([v, other].concat(), v.len())),
            "append before" => self.0.append(other, v),
            _ => self.0.append(v, other),
        };
        joined_wrongly(self.how("append"), right, [v, other, &[]])
    }

    fn split_at(&mut self, v: &[Segment], mid: u64) -> Halves {
        let right = self.0.split_at(v, if self.1 == "split_at" { mid + 1 } else { mid });
        let looked = looked_wrongly(self.how("split_at"), &right, v, mid);
        Halves { looked, ..right }
    }

    fn split_tail_at(&mut self, v: &[Segment], mid: u64) -> Tail {
        let parts = self.0.split_at(v, mid);
        let looked = looked_wrongly(self.how("split_tail_at"), &parts, v, mid);
        let tail = self.0.split_tail_at(v, mid);
        Tail { segments: if self.1 == "split_tail_at" { parts.head } else { tail.segments }, looked }
    }

    fn copy_into_slice(&mut self, v: &[Segment], slice: &mut [u8]) -> u8 {
        if self.1 == "copy_into_slice" {
            0
        } else {
            self.0.copy_into_slice(v, slice)
        }
    }

    fn copy_from_slice(&mut self, v: &[Segment], slice: &[u8]) -> u8 {
        let reversed: Vec<u8> = slice.iter().rev().copied().collect();
        let slice = if self.1 == "copy_from_slice" { &reversed } else { slice };
        self.0.copy_from_slice(v, slice)
    }

    fn fill(&mut self, v: &[Segment], value: u8) {
        let all_but_last = &v[..v.len().saturating_sub(1)];
        self.0.fill(if self.1 == "fill" { all_but_last } else { v }, value);
    }

    fn is_aligned(&mut self, v: &[Segment], mem: u64, req: u64) -> bool {
        self.0.is_aligned(v, mem, if self.1 == "is_aligned" { 1 } else { req })
    }

    fn data(&self) -> &[u8] {
        self.0.data()
    }

    fn fault(&self) -> Option<String> {
        self.0.fault()
    }
}

#[derive(Clone, Copy, Debug, PartialEq, Eq)]
pub enum BlockerFault {
    /// An empty range overlaps none.
    NoEmpty,
    /// Every blocker is weak.
    AllWeak,
    /// Every blocker is strong.
    AllStrong,
    /// Ranges that touch overlap.
    Touching,
    /// The blocker of slot 3 never waits.
    NoWait,
}

pub const BLOCKER_FAULTS: [BlockerFault; 5] = [
    BlockerFault::NoEmpty,
    BlockerFault::AllWeak,
    BlockerFault::AllStrong,
    BlockerFault::Touching,
    BlockerFault::NoWait,
];

/// Blockers with a fault.
pub struct WrongBlockers<B>(pub B, pub BlockerFault);

impl<B: Blockers> Blockers for WrongBlockers<B> {
    fn enter(&mut self, slot: usize, range: Range<u64>, strong: bool) {
        match self.1 {
            BlockerFault::NoEmpty if range.is_empty() => self.0.enter(slot, 0..0, strong),
            BlockerFault::AllWeak => self.0.enter(slot, range, false),
            BlockerFault::AllStrong => self.0.enter(slot, range, true),
            BlockerFault::Touching => self.0.enter(slot, range.start..range.end + 1, strong),
            _ => self.0.enter(slot, range, strong),
        }
    }

    fn waits(&self, slot: usize) -> bool {
        self.0.waits(slot) && !(self.1 == BlockerFault::NoWait && slot == 3)
    }

    fn leave(&mut self, slot: usize) {
        self.0.leave(slot);
    }

    fn fault(&self) -> Option<String> {
        self.0.fault()
    }
}

/// A planner that leaves out the last chunk.
pub struct OneChunkLess<P>(pub P);

impl<P: Planner> Planner for OneChunkLess<P> {
    fn chunks(&mut self, opening: &Opening, offset: u64, length: u64) -> Result<Vec<(u64, u64)>, u8> {
        let mut chunks = self.0.chunks(opening, offset, length)?;
        chunks.pop();
        Ok(chunks)
    }
}
