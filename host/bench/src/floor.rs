//! What the store itself does for a case: the copies and fills of its requests, and nothing else.

use std::ops::Range;

/// A part of the data (0) or of the scratch (1).
pub type Part = (u64, Range<usize>);

/// One copy of a request, or its fill.
pub enum Copy {
    /// A piece of a read: into the part, from this offset of the store on.
    FromStore(Part, usize),
    /// A piece of a write.
    ToStore(Part, usize),
    /// A zero request.
    Zeroes(Range<usize>),
}

/// The buffers that they lie in.
pub struct Copies<'a> {
    pub data: &'a mut [u8],
    pub scratch: &'a mut [u8],
    pub store: &'a mut [u8],
}

impl Copies<'_> {
    fn part(&mut self, (buffer, range): &Part, at: usize) -> (&mut [u8], &mut [u8]) {
        let bytes = if *buffer == 0 { &mut *self.data } else { &mut *self.scratch };
        (&mut bytes[range.clone()], &mut self.store[at..at + range.len()])
    }

    pub fn make(&mut self, copies: &[Copy]) {
        for copy in copies {
            match copy {
                Copy::FromStore(part, at) => {
                    let (piece, stored) = self.part(part, *at);
                    piece.copy_from_slice(stored);
                }
                Copy::ToStore(part, at) => {
                    let (piece, stored) = self.part(part, *at);
                    stored.copy_from_slice(piece);
                }
                Copy::Zeroes(range) => self.store[range.clone()].fill(0),
            }
        }
    }
}
