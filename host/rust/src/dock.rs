//! The dock and its calls.

use crate::answer::{Answer, Begun, Chunk, Due, Kind, Piece, Shown};
use crate::raw::{Loan, Reply, Sight, Words};
use crate::refusal::Refusal;
use crate::table::Table;
use crate::vector::Vector;
use std::error::Error;
use std::fmt;
use std::ops::Range;

/// How many jobs are in flight at most.
pub const SLOTS: usize = 8;

/// Alignments of the drive, powers of two from 1 to 65,536, and the length of one job's bounce buffer (document 01:
/// share): a multiple of the greater of `mem` and `req` (L), at least 2 `zero` + 2 L, at most 1,048,576.
#[derive(Clone, Copy, Debug, PartialEq, Eq)]
pub struct Settings {
    /// Of addresses of memory.
    pub mem: u64,
    /// Of offsets and lengths of reads and writes.
    pub req: u64,
    /// Of zero requests.
    pub zero: u64,
    /// Of discard requests.
    pub discard: u64,
    /// Length of one job's bounce buffer.
    pub bounce: u64,
}

impl Settings {
    /// Document 01's drive rows: alignments of memory, requests, zero requests and discards. A [`Table`] has others.
    pub const ROWS: [[u64; 4]; 6] = [
        [1, 1, 1, 1],
        [1, 512, 512, 512],
        [512, 512, 4096, 4096],
        [4096, 4096, 4096, 65536],
        [4096, 512, 512, 512],
        [4096, 512, 4096, 65536],
    ];

    /// The settings of a drive row, with a bounce buffer of this length; None where there is no such row.
    pub fn of_row(row: usize, bounce: u64) -> Option<Settings> {
        let [mem, req, zero, discard] = *Settings::ROWS.get(row)?;
        Some(Settings { mem, req, zero, discard, bounce })
    }
}

/// Why bytes of the data were not handed out to be changed.
#[derive(Clone, Copy, Debug, PartialEq, Eq)]
pub enum DataError {
    /// The range does not lie in the data.
    Outside,
    /// A job in flight has a segment there: these bytes stay as they are until it is collected.
    InFlight,
}

/// A dock over data and scratch, which it borrows for as long as it is used.
pub struct Dock<'buf> {
    words: Words<'buf>,
}

/// The part of a buffer that starts at the first multiple of `align` in it; empty where there is none.
pub fn aligned_part(buffer: &mut [u8], align: usize) -> &mut [u8] {
    let past = (buffer.as_ptr() as usize).checked_rem(align).unwrap_or(0);
    let skip = if past == 0 { 0 } else { align - past };
    buffer.get_mut(skip..).unwrap_or_default()
}

/// A number without values: 0, or the refusal's.
pub(crate) fn done(number: u8) -> Result<(), Refusal> {
    match number {
        0 => Ok(()),
        refused => Err(Refusal::answered(refused.into())),
    }
}

/// What a begin comes to.
fn begun(reply: Reply) -> Result<Begun, Refusal> {
    match reply.number {
        0 => Ok(Begun::Done),
        _ => reply.values().map(|[slot, ..]| Begun::Slot(slot as usize)),
    }
}

/// Opening, beginning, stepping and collecting jobs.
impl<'buf> Dock<'buf> {
    /// Opens a dock with no job in flight. Scratch has at least 8 bounce buffers and starts at a multiple of `mem`
    /// ([`aligned_part`]). [`Refusal::Unfit`], [`Refusal::Buffer`].
    pub fn open(settings: &Settings, data: &'buf mut [u8], scratch: &'buf mut [u8]) -> Result<Dock<'buf>, Refusal> {
        let (words, number) = Words::open(settings, data, scratch);
        done(number).map(|()| Dock { words })
    }

    /// The same with the alignments of document 01's drive row 0 to 5.
    pub fn open_row(
        row: usize,
        bounce: u64,
        data: &'buf mut [u8],
        scratch: &'buf mut [u8],
    ) -> Result<Dock<'buf>, Refusal> {
        let (words, number) = Words::open_row(row, bounce, data, scratch);
        done(number).map(|()| Dock { words })
    }

    /// The same with the alignments of a row of a loaded table.
    pub fn open_table(
        table: &Table,
        row: usize,
        bounce: u64,
        data: &'buf mut [u8],
        scratch: &'buf mut [u8],
    ) -> Result<Dock<'buf>, Refusal> {
        let (words, number) = Words::open_table(table, row, bounce, data, scratch);
        done(number).map(|()| Dock { words })
    }

    /// Begins a read at `offset` of the store into the vector's segments.
    pub fn begin_read(&mut self, offset: u64, vector: &Vector) -> Result<Begun, Refusal> {
        begun(self.words.begin_read(offset, vector))
    }

    /// Begins a write of the vector's bytes at `offset` of the store.
    pub fn begin_write(&mut self, offset: u64, vector: &Vector) -> Result<Begun, Refusal> {
        begun(self.words.begin_write(offset, vector))
    }

    /// Begins zeroes over `length` bytes at `offset`, which the store is to keep allocated if `allocate`.
    pub fn begin_zeroes(&mut self, allocate: bool, offset: u64, length: u64) -> Result<Begun, Refusal> {
        begun(self.words.begin_zeroes(allocate, offset, length))
    }

    /// Begins a discard of the whole discard blocks within `length` bytes at `offset`.
    pub fn begin_discard(&mut self, offset: u64, length: u64) -> Result<Begun, Refusal> {
        begun(self.words.begin_discard(offset, length))
    }

    /// What the job in `slot` needs now. Says the same until the next begin, tell or collect. [`Refusal::Slot`].
    pub fn next(&self, slot: usize) -> Result<Due, Refusal> {
        Due::answered(self.words.next(slot))
    }

    /// Piece `i` of the request that is out for `slot`, lent until the next call. [`Refusal::Slot`] where there is
    /// none.
    pub fn piece(&mut self, slot: usize, i: usize) -> Result<Piece<'_>, Refusal> {
        self.words.piece(slot, i)
    }

    /// Hands in the store's code for the request that is out: 0 done, 1 unsupported, 2 to 199 failed.
    /// [`Refusal::Slot`], [`Refusal::NoAnswer`].
    pub fn tell(&mut self, slot: usize, code: u8) -> Result<(), Refusal> {
        done(self.words.tell(slot, code))
    }

    /// Takes the final answer; the slot is free again, and the job's bytes of the data are the caller's.
    /// [`Refusal::Slot`].
    pub fn collect(&mut self, slot: usize) -> Result<Answer, Refusal> {
        let number = self.words.collect(slot);
        Answer::of(number.into()).ok_or_else(|| Refusal::answered(number.into()))
    }
}

/// The same in fewer calls: one for each request. A job begun by one form may go on by the other.
impl Dock<'_> {
    /// Begins a read as [`Dock::begin_read`] does, and shows what it needs. Where there is nothing to do, the answer is
    /// [`Answer::Done`], and no slot is taken.
    pub fn submit_read(&mut self, offset: u64, vector: &Vector) -> Shown<'_> {
        let sight = self.words.submit_read(offset, vector);
        self.words.shown(sight)
    }

    /// Begins a write as [`Dock::begin_write`] does, and shows what it needs.
    pub fn submit_write(&mut self, offset: u64, vector: &Vector) -> Shown<'_> {
        let sight = self.words.submit_write(offset, vector);
        self.words.shown(sight)
    }

    /// Begins zeroes as [`Dock::begin_zeroes`] does, and shows what they need.
    pub fn submit_zeroes(&mut self, allocate: bool, offset: u64, length: u64) -> Shown<'_> {
        let sight = self.words.submit_zeroes(allocate, offset, length);
        self.words.shown(sight)
    }

    /// Begins a discard as [`Dock::begin_discard`] does, and shows what it needs.
    pub fn submit_discard(&mut self, offset: u64, length: u64) -> Shown<'_> {
        let sight = self.words.submit_discard(offset, length);
        self.words.shown(sight)
    }

    /// Hands in the store's code as [`Dock::tell`] does, and shows what the job needs then: its next request, that it
    /// waits, or its answer, which is collected. [`Refusal::Slot`], [`Refusal::NoAnswer`].
    pub fn complete(&mut self, slot: usize, code: u8) -> Shown<'_> {
        let sight = self.words.complete(slot, code);
        self.words.shown(sight)
    }

    /// Shows what the job in `slot` needs now, as [`Dock::next`] says it; an answer is collected, and the slot is free
    /// again. [`Refusal::Slot`].
    pub fn show(&mut self, slot: usize) -> Shown<'_> {
        let sight = self.words.show(slot);
        self.words.shown(sight)
    }
}

/// The planner, by the dock's settings: [`Refusal::Unaligned`], [`Refusal::Overflow`].
impl Dock<'_> {
    /// In how many chunks a range of whole request blocks is written, each of the bounce buffer's length but the last.
    pub fn chunks(&self, offset: u64, length: u64) -> Result<u64, Refusal> {
        self.words.chunks(offset, length).values().map(|[count, ..]| count)
    }

    /// Chunk `i` of them; from the count on, length 0 at the range's end.
    pub fn chunk(&self, offset: u64, length: u64, i: u64) -> Result<Chunk, Refusal> {
        self.words.chunk(offset, length, i).values().map(|[offset, length, ..]| Chunk { offset, length })
    }
}

/// The data.
impl<'buf> Dock<'buf> {
    /// All data. The bytes of a read are there once it is answered 0.
    pub fn data(&self) -> &[u8] {
        self.words.data()
    }

    /// A range of the data to be changed: none that has bytes of a job in flight.
    pub fn data_mut(&mut self, range: Range<usize>) -> Result<&mut [u8], DataError> {
        self.words.data_part(range)
    }

    /// Puts `bytes` into the data from `start` on, where no job in flight has a segment.
    pub fn write_data(&mut self, start: usize, bytes: &[u8]) -> Result<(), DataError> {
        let end = start.checked_add(bytes.len()).ok_or(DataError::Outside)?;
        self.data_mut(start..end)?.copy_from_slice(bytes);
        Ok(())
    }

    /// Gives data and scratch back, and the dock up with the jobs in flight.
    pub fn into_buffers(self) -> (&'buf mut [u8], &'buf mut [u8]) {
        self.words.into_buffers()
    }
}

/// Combined calls without pieces, and requests that are carried out elsewhere: for the runner.
impl<'buf> Dock<'buf> {
    /// Begins a job that has bytes of the data in this vector, which is empty for a job without.
    pub(crate) fn submit(&mut self, kind: Kind, range: (u64, u64), vector: &Vector) -> Sight {
        let (offset, length) = range;
        match kind {
            Kind::Read => self.words.submit_read(offset, vector),
            Kind::Write => self.words.submit_write(offset, vector),
            Kind::Zero => self.words.submit_zeroes(false, offset, length),
            Kind::AllocatedZero => self.words.submit_zeroes(true, offset, length),
            Kind::Discard => self.words.submit_discard(offset, length),
        }
    }

    /// What the job in `slot` needs now; an answer is collected.
    pub(crate) fn sight(&mut self, slot: usize) -> Sight {
        self.words.show(slot)
    }

    /// The request that was shown for `slot`, with its piece, to be carried out by whoever holds it.
    pub(crate) fn lend(&mut self, slot: usize) -> Option<Loan<'buf>> {
        self.words.lend(slot)
    }

    /// Takes the piece back and hands in the store's code: what the job needs then.
    pub(crate) fn take_back(&mut self, loan: Loan<'buf>, code: u8) -> Sight {
        self.words.take_back(loan, code)
    }
}

impl fmt::Display for DataError {
    fn fmt(&self, f: &mut fmt::Formatter<'_>) -> fmt::Result {
        f.write_str(match self {
            DataError::Outside => "the range does not lie in the data",
            DataError::InFlight => "a job in flight has a segment there",
        })
    }
}

impl Error for DataError {}

#[cfg(test)]
mod combined_tests;
#[cfg(test)]
mod tests;
