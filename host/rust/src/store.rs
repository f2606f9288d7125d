//! What a store must be able to do.

use crate::code::Code;
use std::io::{IoSlice, IoSliceMut};

/// A drive, a file, memory: what carries out requests. A runner calls it from several threads at once where it is told
/// to, and then with requests on overlapping ranges too, where document 01's waiting rule lets them be out together.
///
/// Offsets, lengths and addresses are aligned as the settings say with which the dock was opened. A request that fails
/// may have changed any bytes of its range to what they should have become, and no other.
pub trait Store: Sync {
    /// Fills the pieces one after the other with the bytes from `offset` on, all of them: past the store's end with
    /// zeroes.
    fn read(&self, offset: u64, pieces: &mut [IoSliceMut<'_>]) -> Code;

    /// Writes the pieces one after the other from `offset` on, all of them.
    fn write(&self, offset: u64, pieces: &[IoSlice<'_>]) -> Code;

    /// Makes the range read as zeroes. Unsupported unless said otherwise: then zeroes are written.
    fn zero(&self, _offset: u64, _length: u64) -> Code {
        Code::UNSUPPORTED
    }

    /// Makes the range read as zeroes and keeps it allocated. Unsupported unless said otherwise: then zeroes are
    /// written.
    fn allocated_zero(&self, _offset: u64, _length: u64) -> Code {
        Code::UNSUPPORTED
    }

    /// Forgets the range's content. Unsupported unless said otherwise: then nothing is done.
    fn discard(&self, _offset: u64, _length: u64) -> Code {
        Code::UNSUPPORTED
    }
}

/// A store behind a reference is a store.
impl<S: Store + ?Sized> Store for &S {
    fn read(&self, offset: u64, pieces: &mut [IoSliceMut<'_>]) -> Code {
        (**self).read(offset, pieces)
    }

    fn write(&self, offset: u64, pieces: &[IoSlice<'_>]) -> Code {
        (**self).write(offset, pieces)
    }

    fn zero(&self, offset: u64, length: u64) -> Code {
        (**self).zero(offset, length)
    }

    fn allocated_zero(&self, offset: u64, length: u64) -> Code {
        (**self).allocated_zero(offset, length)
    }

    fn discard(&self, offset: u64, length: u64) -> Code {
        (**self).discard(offset, length)
    }
}
