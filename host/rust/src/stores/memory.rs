//! A store in memory.

use crate::code::Code;
use crate::store::Store;
use std::io::{IoSlice, IoSliceMut};
use std::sync::{Mutex, MutexGuard, PoisonError};

const EFBIG: u8 = 27;
const ENOSPC: u8 = 28;

/// A store in memory. Reads past its end give zeroes, writes past it lengthen it, as far as there is memory. It can
/// zero, and a discard makes zeroes too; neither lengthens it.
#[derive(Debug, Default)]
pub struct MemoryStore {
    bytes: Mutex<Vec<u8>>,
}

impl MemoryStore {
    /// A store with this content.
    pub fn new(bytes: Vec<u8>) -> MemoryStore {
        MemoryStore { bytes: Mutex::new(bytes) }
    }

    /// Its content, copied.
    pub fn bytes(&self) -> Vec<u8> {
        self.lock().clone()
    }

    /// Its content.
    pub fn into_bytes(self) -> Vec<u8> {
        self.bytes.into_inner().unwrap_or_else(PoisonError::into_inner)
    }

    fn lock(&self) -> MutexGuard<'_, Vec<u8>> {
        self.bytes.lock().unwrap_or_else(PoisonError::into_inner)
    }
}

/// The part of `bytes` from `offset` on, of at most `length`: less at the end, none past it.
pub(super) fn part_mut(bytes: &mut [u8], offset: u64, length: u64) -> &mut [u8] {
    let end = bytes.len() as u64;
    let start = offset.min(end);
    let stop = offset.saturating_add(length).min(end);
    &mut bytes[start as usize..stop as usize]
}

/// Fills the pieces with the bytes from `offset` on, and with zeroes past their end.
pub(super) fn read_bytes(bytes: &mut [u8], offset: u64, pieces: &mut [IoSliceMut<'_>]) {
    let mut at = offset;
    for piece in pieces {
        let stored = part_mut(bytes, at, piece.len() as u64);
        piece[..stored.len()].copy_from_slice(stored);
        piece[stored.len()..].fill(0);
        at = at.saturating_add(piece.len() as u64);
    }
}

/// Lengthens `bytes` with zeroes to hold `length` from `offset` on, where it does not.
pub(super) fn lengthen(bytes: &mut Vec<u8>, offset: u64, length: usize) -> Code {
    let end = usize::try_from(offset).ok().and_then(|start| start.checked_add(length));
    let Some(end) = end else { return Code::failed(EFBIG) };
    if end > bytes.len() {
        if bytes.try_reserve(end - bytes.len()).is_err() {
            return Code::failed(ENOSPC);
        }
        bytes.resize(end, 0);
    }
    Code::DONE
}

impl Store for MemoryStore {
    fn read(&self, offset: u64, pieces: &mut [IoSliceMut<'_>]) -> Code {
        read_bytes(&mut self.lock(), offset, pieces);
        Code::DONE
    }

    fn write(&self, offset: u64, pieces: &[IoSlice<'_>]) -> Code {
        let mut bytes = self.lock();
        let length = pieces.iter().map(|piece| piece.len()).sum();
        let code = lengthen(&mut bytes, offset, length);
        if code != Code::DONE {
            return code;
        }
        let mut at = offset as usize;
        for piece in pieces {
            bytes[at..at + piece.len()].copy_from_slice(piece);
            at += piece.len();
        }
        Code::DONE
    }

    fn zero(&self, offset: u64, length: u64) -> Code {
        part_mut(&mut self.lock(), offset, length).fill(0);
        Code::DONE
    }

    fn allocated_zero(&self, offset: u64, length: u64) -> Code {
        self.zero(offset, length)
    }

    fn discard(&self, offset: u64, length: u64) -> Code {
        self.zero(offset, length)
    }
}

#[cfg(test)]
mod tests {
    use super::*;

    fn read(store: &MemoryStore, offset: u64, lengths: [usize; 2]) -> Vec<u8> {
        let (mut a, mut b) = (vec![9; lengths[0]], vec![9; lengths[1]]);
        assert_eq!(store.read(offset, &mut [IoSliceMut::new(&mut a), IoSliceMut::new(&mut b)]), Code::DONE);
        [a, b].concat()
    }

    #[test]
    fn pieces_follow_each_other_and_past_the_end_are_zeroes() {
        let store = MemoryStore::new(vec![1, 2, 3, 4, 5]);
        assert_eq!(read(&store, 1, [2, 1]), [2, 3, 4]);
        assert_eq!(read(&store, 3, [1, 3]), [4, 5, 0, 0]);
        assert_eq!(read(&store, u64::MAX, [1, 1]), [0, 0]);
        assert_eq!(store.write(4, &[IoSlice::new(&[7]), IoSlice::new(&[8, 9])]), Code::DONE);
        assert_eq!(store.write(9, &[IoSlice::new(&[1])]), Code::DONE);
        assert_eq!(store.into_bytes(), [1, 2, 3, 4, 7, 8, 9, 0, 0, 1]);
    }

    #[test]
    fn what_does_not_fit_into_memory_fails_and_changes_nothing() {
        let store = MemoryStore::new(vec![1]);
        assert_eq!(store.write(u64::MAX, &[IoSlice::new(&[7])]), Code::failed(27));
        assert_eq!(store.write(u64::MAX / 4, &[IoSlice::new(&[7])]), Code::failed(28));
        assert_eq!(store.bytes(), [1]);
    }

    #[test]
    fn zeroes_and_discards_stay_inside() {
        let store = MemoryStore::new(vec![1; 6]);
        assert_eq!((store.zero(1, 2), store.allocated_zero(4, 1)), (Code::DONE, Code::DONE));
        assert_eq!((store.discard(5, u64::MAX), store.zero(100, 5)), (Code::DONE, Code::DONE));
        assert_eq!(store.bytes(), [1, 0, 0, 1, 0, 0]);
    }
}
