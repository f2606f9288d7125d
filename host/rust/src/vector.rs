//! Vectors: which bytes of the data a job reads into or writes from.

use std::ops::Range;

/// How many segments a vector has at most.
pub const SEGMENTS: usize = 16;
/// How many bytes a vector has at most.
pub const LONGEST_VECTOR: u64 = 1_048_576;

/// The words of a vector: count, total, start and length of each segment.
const WORDS: usize = 2 + 2 * SEGMENTS;

/// Up to 16 segments of the data, used one after the other; those that touch as they are pushed are one. Begin tests
/// it: [`crate::Refusal::Segment`] where it does not fit.
#[derive(Clone, Copy, Debug, PartialEq, Eq)]
pub struct Vector {
    words: [u64; WORDS],
}

impl Vector {
    /// A vector without segments.
    pub fn new() -> Vector {
        Vector { words: [0; WORDS] }
    }

    /// A vector of one segment: `length` bytes of the data from `start` on.
    pub fn of(start: usize, length: usize) -> Vector {
        let mut vector = Vector::new();
        vector.push(start, length);
        vector
    }

    /// Appends a segment. One that starts where the last one ends lengthens that one. A 17th is not kept, but the
    /// vector is one with too many from then on. What begin refuses as [`crate::Refusal::Segment`] it goes on refusing
    /// so, whatever is pushed.
    pub fn push(&mut self, start: usize, length: usize) {
        let (start, length) = (start as u64, length as u64);
        let count = self.words[0] as usize;
        let joined = self.joined(start, length);
        if count >= SEGMENTS && joined.is_none() {
            self.words[0] = SEGMENTS as u64 + 1;
            return;
        }
        self.words[1] = self.words[1].saturating_add(length);
        if let Some(longer) = joined {
            self.words[1 + 2 * count] = longer;
            return;
        }
        self.words[0] = count as u64 + 1;
        self.words[2 + 2 * count] = start;
        self.words[3 + 2 * count] = length;
    }

    /// The last segment's length with that of one which starts where it ends. None where they do not join: then they do
    /// not touch, or their length is no number, or one is empty, which stays an empty one for begin to see.
    fn joined(&self, start: u64, length: u64) -> Option<u64> {
        let count = self.words[0] as usize;
        if count == 0 || count > SEGMENTS {
            return None;
        }
        let (last, last_length) = (self.words[2 * count], self.words[1 + 2 * count]);
        let touches = last.checked_add(last_length) == Some(start);
        if touches && last_length != 0 && length != 0 {
            last_length.checked_add(length)
        } else {
            None
        }
    }

    /// How many bytes its segments have.
    pub fn total(&self) -> u64 {
        self.words[1]
    }

    pub(crate) fn words(&self) -> &[u64; WORDS] {
        &self.words
    }

    /// Whether a segment shares a byte with a range of the data.
    pub(crate) fn meets(&self, range: &Range<usize>) -> bool {
        let count = (self.words[0] as usize).min(SEGMENTS);
        let segments = self.words[2..2 + 2 * count].chunks_exact(2);
        segments.into_iter().any(|s| {
            let start = s[0].max(range.start as u64);
            let end = s[0].saturating_add(s[1]).min(range.end as u64);
            start < end
        })
    }
}

impl Default for Vector {
    fn default() -> Vector {
        Vector::new()
    }
}

#[cfg(test)]
mod tests;
