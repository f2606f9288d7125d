//! A request and its bytes, lent to whoever carries it out.

use super::{Sight, Words};
use crate::answer::{Kind, Request};
use std::marker::PhantomData;
use std::{ptr, slice};

/// A request that is out, with its piece. It may go to another thread, and comes back by [`Words::take_back`].
pub(crate) struct Loan<'buf> {
    slot: usize,
    request: Request,
    /// Address and length of the piece; empty where the request has none.
    piece: (*mut u8, usize),
    /// Where the scratch of the dock starts that lent it: no other dock has the same.
    lender: *mut u8,
    borrowed: PhantomData<&'buf mut [u8]>,
}

// SAFETY: a loan has the use of its piece as a reference to it would, which may go to another thread.
unsafe impl Send for Loan<'_> {}

impl Loan<'_> {
    /// The slot whose request it is.
    pub fn slot(&self) -> usize {
        self.slot
    }

    /// The request.
    pub fn request(&self) -> Request {
        self.request
    }

    /// The bytes of a read, to be filled.
    pub fn bytes_to_fill(&mut self) -> &mut [u8] {
        assert!(self.request.kind == Kind::Read, "only a read's bytes are filled");
        // SAFETY: the piece is a part of a buffer that is borrowed for 'buf, and while it is out nobody else touches
        // its bytes, as the head of raw.rs says. `self` is borrowed alone for as long as they are used.
        unsafe { slice::from_raw_parts_mut(self.piece.0, self.piece.1) }
    }

    /// The bytes of a write, to be taken.
    pub fn bytes_to_take(&self) -> &[u8] {
        // SAFETY: the piece is a part of a buffer that is borrowed for 'buf, and while it is out nobody else changes
        // its bytes, as the head of raw.rs says; bytes_to_fill, which could, borrows `self` alone.
        unsafe { slice::from_raw_parts(self.piece.0, self.piece.1) }
    }
}

impl<'buf> Words<'buf> {
    /// Lends the request that a combined call has shown for a slot and that is out since. Its job has at most one
    /// segment, and so its requests at most one piece. None where no request was shown.
    pub fn lend(&mut self, slot: usize) -> Option<Loan<'buf>> {
        let out = (*self.out.get(slot)?)?;
        self.must_be_here(slot);
        debug_assert_eq!(self.request(slot), Ok(out.request), "a request stays out until its code is handed in");
        let piece = match out.request.pieces {
            0 => (ptr::NonNull::dangling().as_ptr(), 0),
            1 => self.part_at(&out.first),
            more => panic!("a request with {more} pieces is not lent"),
        };
        debug_assert!(out.request.pieces == 0 || self.piece_part(slot, 0) == Ok(piece), "nor does its piece move");
        self.lent[slot] = true;
        Some(Loan { slot, request: out.request, piece, lender: self.scratch.start, borrowed: PhantomData })
    }

    /// Takes a loan back and hands in the store's code for its request: what its slot shows then.
    pub fn take_back(&mut self, loan: Loan<'buf>, code: u8) -> Sight {
        assert!(loan.lender == self.scratch.start, "the loan is another dock's");
        self.lent[loan.slot] = false;
        self.complete_library(loan.slot, code)
    }
}
