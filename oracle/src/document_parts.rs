//! Document 01's vectors, with document 02's joining, and its planner; its blockers are those of `document_side.rs`.
//!
//! Joining is told from the bytes, not as in `imago_parts.rs`: a vector's bytes have flat positions, its segments are
//! the runs between cuts, and a call takes away the cut at a seam where one byte follows the other in the data.

use crate::document;
use crate::side::{Alignments, Halves, Opening, Planner, Segment, Tail, Vectors};

pub struct DocumentVectors {
    data: Vec<u8>,
}

impl DocumentVectors {
    pub fn new(bytes: &[u8]) -> Self {
        DocumentVectors { data: bytes.to_vec() }
    }

    /// With `new` between two parts of a vector, and without the cuts there between bytes that follow each other. Both
    /// must be vectors over the data, and so must be what comes of them.
    fn with(&self, v: &[Segment], index: usize, new: &[Segment]) -> Result<Vec<Segment>, u8> {
        let fits = |v: &[Segment]| document::vector(v, self.data.len() as u64) == 0;
        if index > v.len() || !fits(v) || !fits(new) {
            return Err(document::SEGMENT);
        }
        let (before, after) = v.split_at(index);
        let first = document::total(before);
        let made = without_cuts(&[before, new, after].concat(), [first, first + document::total(new)]);
        if fits(&made) {
            Ok(made)
        } else {
            Err(document::SEGMENT)
        }
    }
}

/// The position in the data of the byte at a flat position.
fn position(v: &[Segment], at: u64) -> u64 {
    between(v, at, at + 1)[0].start
}

/// The runs of a vector's bytes with its cuts, but for those at seams between a byte and the one after it in the data.
fn without_cuts(v: &[Segment], seams: [u64; 2]) -> Vec<Segment> {
    let end = document::total(v);
    let follows = |at: u64| 0 < at && at < end && position(v, at) == position(v, at - 1) + 1;
    let mut runs = Vec::new();
    let (mut start, mut cut) = (0, 0);
    for s in v {
        cut += s.length;
        if !(seams.contains(&cut) && follows(cut)) {
            runs.push(Segment { start: position(v, start), length: cut - start });
            start = cut;
        }
    }
    runs
}

/// The segments of the bytes at flat positions `from` up to `to` of a vector.
fn between(v: &[Segment], from: u64, to: u64) -> Vec<Segment> {
    let mut position = 0;
    let mut parts = Vec::new();
    for s in v {
        let (first, last) = (from.max(position), to.min(position + s.length));
        if first < last {
            parts.push(Segment { start: s.start + (first - position), length: last - first });
        }
        position += s.length;
    }
    parts
}

/// How many segments a walk over so many bytes looks at: none once there are no bytes left.
fn walked<'a>(segments: impl Iterator<Item = &'a Segment>, bytes: u64) -> u64 {
    let mut left = bytes;
    let mut count = 0;
    for s in segments {
        if left == 0 {
            break;
        }
        left = left.saturating_sub(s.length);
        count += 1;
    }
    count
}

/// "Past half the total, walk from the last piece instead."
fn looked(v: &[Segment], mid: u64) -> u64 {
    let total = document::total(v);
    if 2 * u128::from(mid) > u128::from(total) {
        walked(v.iter().rev(), total.saturating_sub(mid))
    } else {
        walked(v.iter(), mid)
    }
}

/// The positions in the data of a vector's bytes, in order.
fn positions(v: &[Segment]) -> impl Iterator<Item = usize> + '_ {
    v.iter().flat_map(|s| s.start as usize..(s.start + s.length) as usize)
}

impl Vectors for DocumentVectors {
    fn push(&mut self, v: &[Segment], s: Segment) -> Result<Vec<Segment>, u8> {
        self.with(v, v.len(), &[s])
    }

    fn insert(&mut self, v: &[Segment], index: usize, s: Segment) -> Result<Vec<Segment>, u8> {
        self.with(v, index, &[s])
    }

    fn append(&mut self, v: &[Segment], other: &[Segment]) -> Result<Vec<Segment>, u8> {
        self.with(v, v.len(), other)
    }

    fn split_at(&mut self, v: &[Segment], mid: u64) -> Halves {
        Halves { head: between(v, 0, mid), tail: between(v, mid, u64::MAX), looked: looked(v, mid) }
    }

    fn split_tail_at(&mut self, v: &[Segment], mid: u64) -> Tail {
        Tail { segments: between(v, mid, u64::MAX), looked: looked(v, mid) }
    }

    fn copy_into_slice(&mut self, v: &[Segment], slice: &mut [u8]) -> u8 {
        if slice.len() as u64 != document::total(v) {
            return document::SEGMENT;
        }
        positions(v).zip(slice).for_each(|(at, byte)| *byte = self.data[at]);
        0
    }

    fn copy_from_slice(&mut self, v: &[Segment], slice: &[u8]) -> u8 {
        if slice.len() as u64 != document::total(v) {
            return document::SEGMENT;
        }
        positions(v).zip(slice).for_each(|(at, byte)| self.data[at] = *byte);
        0
    }

    fn fill(&mut self, v: &[Segment], value: u8) {
        positions(v).for_each(|at| self.data[at] = value);
    }

    fn is_aligned(&mut self, v: &[Segment], mem: u64, req: u64) -> bool {
        document::is_aligned(v, 0, &Alignments::new(mem, req, 1, 1))
    }

    fn data(&self) -> &[u8] {
        &self.data
    }
}

pub struct DocumentPlanner;

impl Planner for DocumentPlanner {
    fn chunks(&mut self, opening: &Opening, offset: u64, length: u64) -> Result<Vec<(u64, u64)>, u8> {
        match document::planner(opening, offset, length) {
            0 => {
                let count = length.div_ceil(opening.bounce);
                Ok((0..count).map(|i| document::planned_chunk(opening, offset, length, i)).collect())
            }
            refusal => Err(refusal),
        }
    }
}
