//! The stand-in store of both sides: bytes in memory at the lowest and the highest offsets, zero elsewhere.
//!
//! Writes outside the two windows are dropped. What a code leaves open is chosen by the carry's choice, for each byte by its
//! offset o on the store: bit o mod 64 says whether the byte of a failed write or zero request is new, byte o mod 8 what a byte
//! is where it may be anything.
//!
//! A store knows where it was changed since it was last settled. Its bytes change by its own functions only, so two stores that were
//! the same when settled are the same where neither was changed, and only the rest is compared.

use crate::document::VectorTest;
use crate::side::Act;
use std::ops::Range;

#[derive(Clone, Debug)]
pub struct Store {
    low: Vec<u8>,
    /// The window that ends at 2^64.
    high: Vec<u8>,
    /// Of each window a run that has every byte changed since the store was settled.
    changed: [Range<usize>; 2],
}

/// What the store and the data hold before a list, and when its vectors are refused.
#[derive(Clone)]
pub struct Content {
    pub store: Store,
    pub data: Vec<u8>,
    pub test: VectorTest,
}

/// Whether a choice makes the byte at offset o new.
fn is_new(choice: u64, o: u64) -> bool {
    (choice >> (o % 64)) & 1 == 1
}

/// The byte of a choice at offset o.
fn chosen(choice: u64, o: u64) -> u8 {
    (choice >> (o % 8 * 8)) as u8
}

/// Where a range meets a window of `len` bytes from `start` on: the first offset that they share, and the window's part.
fn meet(at: u64, length: u64, start: u64, len: usize) -> Option<(u64, Range<usize>)> {
    let from = at.max(start);
    let end = (at as u128 + length as u128).min(start as u128 + len as u128);
    ((from as u128) < end).then(|| (from, (from - start) as usize..(end - start as u128) as usize))
}

fn high_start(high: &[u8]) -> u64 {
    (u64::MAX - high.len() as u64).wrapping_add(1)
}

/// The least run that has both.
pub fn hull(a: &Range<usize>, b: &Range<usize>) -> Range<usize> {
    match (a.is_empty(), b.is_empty()) {
        (true, _) => b.clone(),
        (_, true) => a.clone(),
        _ => a.start.min(b.start)..a.end.max(b.end),
    }
}

/// Where in the run two windows first differ.
fn unlike(a: &[u8], b: &[u8], run: &Range<usize>) -> Option<u64> {
    let (a, b) = (&a[run.clone()], &b[run.clone()]);
    if a == b {
        return None;
    }
    a.iter().zip(b).position(|(x, y)| x != y).map(|i| (run.start + i) as u64)
}

impl Act {
    /// Where a write or a zero request makes bytes new: all with code 0, those of the choice with another.
    pub fn makes_new(&self, o: u64) -> bool {
        self.code == 0 || is_new(self.choice.unwrap_or(0), o)
    }

    /// What a discard, whatever its code, leaves at offset o; as it was without a choice.
    pub fn discarded(&self, o: u64) -> Option<u8> {
        self.choice.map(|choice| chosen(choice, o))
    }
}

impl Store {
    pub fn new(low: usize, high: usize) -> Self {
        Store { low: vec![0; low], high: vec![0; high], changed: [0..0, 0..0] }
    }

    fn high_start(&self) -> u64 {
        high_start(&self.high)
    }

    /// The runs of the range that lie in a window, each with the offset of its first byte.
    fn runs(&mut self, at: u64, length: u64, mut f: impl FnMut(u64, &mut [u8])) {
        let windows = [(0, &mut self.low), (high_start(&self.high), &mut self.high)];
        for ((start, window), changed) in windows.into_iter().zip(&mut self.changed) {
            if let Some((from, part)) = meet(at, length, start, window.len()) {
                *changed = hull(changed, &part);
                f(from, &mut window[part]);
            }
        }
    }

    /// From now on changes are told from here.
    pub fn settle(&mut self) {
        self.changed = [0..0, 0..0];
    }

    /// Each byte of the range that lies in a window, with its offset.
    pub fn each(&mut self, at: u64, length: u64, mut f: impl FnMut(u64, &mut u8)) {
        self.runs(at, length, |from, run| run.iter_mut().enumerate().for_each(|(i, byte)| f(from + i as u64, byte)));
    }

    pub fn byte(&self, o: u64) -> u8 {
        if o < self.low.len() as u64 {
            return self.low[o as usize];
        }
        if self.high.is_empty() || o < self.high_start() {
            return 0;
        }
        self.high[(o - self.high_start()) as usize]
    }

    /// What a read leaves in its piece, whose bytes lie from `at` on.
    pub fn read(&self, at: u64, act: Act, piece: &mut [u8]) {
        if act.code != 0 {
            let choice = act.choice.unwrap_or(0);
            return piece.iter_mut().enumerate().for_each(|(i, byte)| *byte = chosen(choice, at + i as u64));
        }
        piece.fill(0);
        for (start, window) in [(0, &self.low), (self.high_start(), &self.high)] {
            if let Some((from, part)) = meet(at, piece.len() as u64, start, window.len()) {
                let to = (from - at) as usize;
                piece[to..to + part.len()].copy_from_slice(&window[part]);
            }
        }
    }

    pub fn write(&mut self, at: u64, act: Act, piece: &[u8]) {
        if act.code == 0 {
            return self.runs(at, piece.len() as u64, |from, run| {
                let first = (from - at) as usize;
                run.copy_from_slice(&piece[first..first + run.len()]);
            });
        }
        self.each(at, piece.len() as u64, |o, byte| {
            if act.makes_new(o) {
                *byte = piece[(o - at) as usize];
            }
        });
    }

    pub fn zero(&mut self, at: u64, length: u64, act: Act) {
        if act.code == 0 {
            return self.fill(at, length, 0);
        }
        self.each(at, length, |o, byte| {
            if act.makes_new(o) {
                *byte = 0;
            }
        });
    }

    pub fn discard(&mut self, at: u64, length: u64, act: Act) {
        self.each(at, length, |o, byte| *byte = act.discarded(o).unwrap_or(*byte));
    }

    pub fn fill(&mut self, at: u64, length: u64, value: u8) {
        self.runs(at, length, |_, run| run.fill(value));
    }

    /// The lower window.
    pub fn low(&self) -> &[u8] {
        &self.low
    }

    /// The first offset at which two stores differ that were the same when settled.
    pub fn difference(&self, other: &Store) -> Option<u64> {
        let changed = [0, 1].map(|w| hull(&self.changed[w], &other.changed[w]));
        let low = unlike(&self.low, &other.low, &changed[0]);
        low.or_else(|| unlike(&self.high, &other.high, &changed[1]).map(|i| self.high_start() + i))
    }
}
