//! Scratch for the dock: eight of the longest shares, kept from list to list and cleared where it was used.

use crate::document::LONGEST_BOUNCE;
use crate::side::SLOTS;
use crate::store::hull;
use std::alloc::{alloc_zeroed, dealloc, Layout};
use std::cell::RefCell;
use std::ops::Range;
use std::slice;

/// A multiple of every memory alignment; as many bytes lie before and after the lent ones.
const ALIGN: usize = 65_536;
const LONGEST: usize = SLOTS * LONGEST_BOUNCE as usize;
const ALL: usize = LONGEST + 3 * ALIGN;

/// The whole memory is looked at before and after one call in so many.
const LOOK_EVERY: u64 = 4096;

pub struct Scratch {
    base: *mut u8,
    shift: usize,
    length: usize,
    /// By slot, from the lent bytes' start: outside these runs all bytes are zero.
    used: [Range<usize>; SLOTS],
    calls: u64,
}

thread_local! {
    static POOL: RefCell<Vec<Scratch>> = const { RefCell::new(Vec::new()) };
}

fn layout() -> Layout {
    Layout::from_size_align(ALL, ALIGN).expect("the scratch is short")
}

impl Scratch {
    /// One that was given back, or a new one. All bytes are zero.
    pub fn take() -> Self {
        POOL.with(|pool| pool.borrow_mut().pop()).unwrap_or_else(|| {
            // SAFETY: the layout's size is not 0.
            let base = unsafe { alloc_zeroed(layout()) };
            assert!(!base.is_null(), "no memory for the scratch");
            Scratch { base, shift: ALIGN, length: 0, used: Default::default(), calls: 0 }
        })
    }

    pub fn give_back(mut self) {
        self.clear();
        POOL.with(|pool| pool.borrow_mut().push(self));
    }

    fn clear(&mut self) {
        for used in std::mem::take(&mut self.used) {
            self.bytes_mut()[used].fill(0);
        }
    }

    /// It lies at an address that is `address` modulo 65,536, with `length` bytes, all zero.
    pub fn place(&mut self, address: u64, length: u64) {
        assert!(length as usize <= LONGEST, "the scratch has eight shares");
        self.clear();
        self.shift = ALIGN + (address % ALIGN as u64) as usize;
        self.length = length as usize;
    }

    pub fn address(&self) -> u64 {
        self.base.wrapping_add(self.shift) as u64
    }

    pub fn bytes(&self) -> &[u8] {
        // SAFETY: the allocation has these bytes, and they were initialised.
        unsafe { slice::from_raw_parts(self.base.wrapping_add(self.shift), self.length) }
    }

    pub fn bytes_mut(&mut self) -> &mut [u8] {
        // SAFETY: as above.
        unsafe { slice::from_raw_parts_mut(self.base.wrapping_add(self.shift), self.length) }
    }

    /// A job in `slot` may have changed these bytes.
    pub fn note(&mut self, slot: usize, run: Range<usize>) {
        let run = run.start.min(self.length)..run.end.min(self.length);
        self.used[slot] = hull(&self.used[slot], &run);
    }

    fn all(&self) -> &[u8] {
        // SAFETY: the allocation has these bytes.
        unsafe { slice::from_raw_parts(self.base, ALL) }
    }

    /// Before a call: now and then a copy of the whole memory.
    pub fn look(&mut self) -> Option<Vec<u8>> {
        self.calls += 1;
        self.calls.is_multiple_of(LOOK_EVERY).then(|| self.all().to_vec())
    }

    /// Whether only lent bytes of `share` differ from that copy.
    pub fn kept_outside(&self, share: Range<usize>, copy: &[u8]) -> bool {
        let (from, to) = (self.shift + share.start, self.shift + share.end);
        self.all()[..from] == copy[..from] && self.all()[to..] == copy[to..]
    }
}

impl Drop for Scratch {
    fn drop(&mut self) {
        // SAFETY: allocated in `take` with this layout.
        unsafe { dealloc(self.base, layout()) };
    }
}
