//! A store for tests that fails, delays and tears as a seed says.

use super::memory::{lengthen, part_mut, read_bytes};
use crate::answer::Kind;
use crate::code::Code;
use crate::draw::{mixed, Draw};
use crate::store::Store;
use std::io::{IoSlice, IoSliceMut};
use std::sync::{Mutex, MutexGuard, PoisonError};
use std::thread;
use std::time::Duration;

/// How a [`FaultyStore`] fails. In place a run depends on the seed alone; with threads also on who comes first.
#[derive(Clone, Copy, Debug, Default, PartialEq, Eq)]
pub struct Faults {
    /// What is drawn is drawn from this.
    pub seed: u64,
    /// One request in so many fails, with a code from 2 to 199; none where it is 0.
    pub failing: u64,
    /// One zero or discard request in so many is unsupported; none where it is 0.
    pub unsupported: u64,
    /// One request in so many is delayed; none where it is 0.
    pub delayed: u64,
    /// By how long. Requests that are out together are delayed together.
    pub delay: Duration,
}

/// A request that a [`FaultyStore`] has carried out.
#[derive(Clone, Copy, Debug, PartialEq, Eq)]
pub struct Carried {
    /// What it asked for.
    pub kind: Kind,
    /// Where on the store it starts.
    pub offset: u64,
    /// How many bytes of the store it is about.
    pub length: u64,
    /// What it came to.
    pub code: Code,
    /// The address of the first byte of a read's or a write's pieces; of other kinds 0.
    pub address: usize,
}

/// What is called with each request that was carried out, and all bytes of the store after it.
pub type Watcher = Box<dyn Fn(&Carried, &[u8]) + Send + Sync>;

/// A store in memory that fails, delays and tears as a seed says, for tests. It does what document 01 lets a store do,
/// but for "unsupported" to reads and writes: of a failed or unsupported write or zero request each byte of its range
/// is old or new, a failed read leaves junk, a discard leaves junk whatever its code. Each request is carried out at
/// one time, while no other is, so that a [`Watcher`] can follow.
pub struct FaultyStore {
    inner: Mutex<Inner>,
    faults: Faults,
    watcher: Watcher,
}

struct Inner {
    bytes: Vec<u8>,
    draw: Draw,
}

/// The store's choice for byte `i` of a request.
fn chosen(choice: u64, i: u64) -> u8 {
    mixed(choice.wrapping_add(i)) as u8
}

impl FaultyStore {
    /// A store with this content.
    pub fn new(bytes: Vec<u8>, faults: Faults) -> FaultyStore {
        FaultyStore::watched(bytes, faults, Box::new(|_, _| ()))
    }

    /// A store with this content, and someone who is told of each request. A watcher must not call the store.
    pub fn watched(bytes: Vec<u8>, faults: Faults, watcher: Watcher) -> FaultyStore {
        let inner = Inner { bytes, draw: Draw::new(faults.seed) };
        FaultyStore { inner: Mutex::new(inner), faults, watcher }
    }

    /// Calls `look` with its content, while no request is carried out.
    pub fn look<T>(&self, look: impl FnOnce(&[u8]) -> T) -> T {
        look(&self.lock().bytes)
    }

    fn lock(&self) -> MutexGuard<'_, Inner> {
        self.inner.lock().unwrap_or_else(PoisonError::into_inner)
    }

    fn wait(&self) {
        let delayed = self.lock().draw.one_in(self.faults.delayed);
        if delayed {
            thread::sleep(self.faults.delay);
        }
    }

    /// The code of a request, as drawn.
    fn draw_code(&self, kind: Kind, draw: &mut Draw) -> Code {
        let optional = !matches!(kind, Kind::Read | Kind::Write);
        if draw.one_in(self.faults.failing) {
            Code::failed(2 + draw.below(198) as u8)
        } else if optional && draw.one_in(self.faults.unsupported) {
            Code::UNSUPPORTED
        } else {
            Code::DONE
        }
    }

    /// Carries out a request by `act`, which is given the bytes, the code and the store's choice, and may fail for
    /// itself.
    fn carry(&self, mut carried: Carried, act: impl FnOnce(&mut Vec<u8>, Code, u64) -> Code) -> Code {
        self.wait();
        let mut inner = self.lock();
        let Inner { bytes, draw } = &mut *inner;
        let (code, choice) = (self.draw_code(carried.kind, draw), draw.any());
        carried.code = act(bytes, code, choice);
        (self.watcher)(&carried, bytes);
        carried.code
    }

    fn zero_range(&self, kind: Kind, offset: u64, length: u64) -> Code {
        self.carry(Carried { kind, offset, length, code: Code::DONE, address: 0 }, |bytes, code, choice| {
            let old = part_mut(bytes, offset, length);
            if code == Code::DONE {
                old.fill(0);
            } else {
                tear(old, std::iter::repeat(&0), choice);
            }
            code
        })
    }
}

/// Makes each byte new or leaves it old, as the store chooses.
fn tear<'a>(old: &mut [u8], new: impl Iterator<Item = &'a u8>, choice: u64) {
    for ((at, byte), new) in (0..).zip(old).zip(new) {
        if chosen(choice, at) & 1 == 0 {
            *byte = *new;
        }
    }
}

/// Puts pieces one after the other.
fn put(bytes: &mut [u8], pieces: &[IoSlice<'_>]) {
    let mut at = 0;
    for piece in pieces {
        bytes[at..at + piece.len()].copy_from_slice(piece);
        at += piece.len();
    }
}

impl Store for FaultyStore {
    fn read(&self, offset: u64, pieces: &mut [IoSliceMut<'_>]) -> Code {
        let address = pieces.first().map_or(0, |piece| piece.as_ptr() as usize);
        let length = pieces.iter().map(|piece| piece.len() as u64).sum();
        let carried = Carried { kind: Kind::Read, offset, length, code: Code::DONE, address };
        self.carry(carried, |bytes, code, choice| {
            if code == Code::DONE {
                read_bytes(bytes, offset, pieces);
            } else {
                let left = pieces.iter_mut().flat_map(|piece| piece.iter_mut());
                (0..).zip(left).for_each(|(at, byte)| *byte = chosen(choice, at));
            }
            code
        })
    }

    fn write(&self, offset: u64, pieces: &[IoSlice<'_>]) -> Code {
        let address = pieces.first().map_or(0, |piece| piece.as_ptr() as usize);
        let length = pieces.iter().map(|piece| piece.len()).sum();
        let carried = Carried { kind: Kind::Write, offset, length: length as u64, code: Code::DONE, address };
        self.carry(carried, |bytes, code, choice| {
            let room = lengthen(bytes, offset, length);
            if room != Code::DONE {
                return room;
            }
            let old = part_mut(bytes, offset, length as u64);
            if code == Code::DONE {
                put(old, pieces);
            } else {
                tear(old, pieces.iter().flat_map(|piece| piece.iter()), choice);
            }
            code
        })
    }

    fn zero(&self, offset: u64, length: u64) -> Code {
        self.zero_range(Kind::Zero, offset, length)
    }

    fn allocated_zero(&self, offset: u64, length: u64) -> Code {
        self.zero_range(Kind::AllocatedZero, offset, length)
    }

    fn discard(&self, offset: u64, length: u64) -> Code {
        let carried = Carried { kind: Kind::Discard, offset, length, code: Code::DONE, address: 0 };
        self.carry(carried, |bytes, code, choice| {
            let left = part_mut(bytes, offset, length);
            (0..).zip(left).for_each(|(at, byte)| *byte = chosen(choice, at));
            code
        })
    }
}

#[cfg(test)]
mod tests;
