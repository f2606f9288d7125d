//! Memory at a chosen address modulo 65,536, to which imago's vectors point while the runner changes it between events.

use crate::side::Segment;
use imago::io_buffers::{IoVector, IoVectorMut};
use std::alloc::{alloc_zeroed, dealloc, Layout};
use std::slice;

/// A multiple of every memory alignment.
const ALIGN: usize = 65_536;

pub struct Data {
    base: *mut u8,
    shift: usize,
    length: usize,
}

impl Data {
    pub fn new(bytes: &[u8]) -> Self {
        let length = bytes.len();
        // SAFETY: the layout's size is not 0.
        let base = unsafe { alloc_zeroed(Data::layout(length)) };
        assert!(!base.is_null(), "no memory for the data");
        let mut data = Data { base, shift: 0, length };
        data.bytes_mut().copy_from_slice(bytes);
        data
    }

    fn layout(length: usize) -> Layout {
        Layout::from_size_align(length + ALIGN, ALIGN).expect("the data is short")
    }

    /// The data lies, with its bytes, at an address that is `address` modulo 65,536. No vector may point to it.
    pub fn move_to(&mut self, address: u64) {
        let shift = (address % ALIGN as u64) as usize;
        let (from, to) = (self.start(), self.base.wrapping_add(shift));
        // SAFETY: both runs lie in the allocation, which has `length` + ALIGN bytes.
        unsafe { std::ptr::copy(from, to, self.length) };
        self.shift = shift;
    }

    fn start(&self) -> *mut u8 {
        self.base.wrapping_add(self.shift)
    }

    pub fn bytes(&self) -> &[u8] {
        // SAFETY: the allocation has these bytes, and they were initialised.
        unsafe { slice::from_raw_parts(self.start(), self.length) }
    }

    pub fn bytes_mut(&mut self) -> &mut [u8] {
        // SAFETY: as above; imago touches its vectors only inside a poll, and no poll runs meanwhile.
        unsafe { slice::from_raw_parts_mut(self.start(), self.length) }
    }

    /// Where in the data an address lies.
    pub fn position(&self, address: usize) -> Option<u64> {
        let from = address.checked_sub(self.start() as usize)?;
        (from < self.length).then_some(from as u64)
    }

    fn address_of(&self, s: &Segment) -> *mut u8 {
        assert!(s.start + s.length <= self.length as u64, "the segment lies in the data");
        self.start().wrapping_add(s.start as usize)
    }

    /// The bytes of a segment, for imago. They must be given up before the data is dropped.
    pub fn slice(&self, s: &Segment) -> &'static [u8] {
        // SAFETY: the segment lies in the allocation, which outlives the slice.
        unsafe { slice::from_raw_parts(self.address_of(s), s.length as usize) }
    }

    /// The segments as imago's vector. It must be dropped before the data is.
    pub fn vector(&self, segments: &[Segment]) -> IoVector<'static> {
        let mut v = IoVector::new();
        segments.iter().for_each(|s| v.push(self.slice(s)));
        v
    }

    /// The segments as imago's mutable vector; they must not overlap. It must be dropped before the data is.
    pub fn vector_mut(&self, segments: &[Segment]) -> IoVectorMut<'static> {
        let mut v = IoVectorMut::new();
        for s in segments {
            // SAFETY: as above, and no two of the vector's segments share a byte.
            v.push(unsafe { slice::from_raw_parts_mut(self.address_of(s), s.length as usize) });
        }
        v
    }
}

impl Drop for Data {
    fn drop(&mut self) {
        // SAFETY: allocated in `new` with this layout.
        unsafe { dealloc(self.base, Data::layout(self.length)) };
    }
}
