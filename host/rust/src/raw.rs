//! The calls of `libdock_c.a`, as it has them, behind functions that are safe to call, and the buffers that they work
//! on. All that is unsafe in this crate is here, in `raw/combined.rs` and in `raw/loan.rs`.
//!
//! The library is proved to return for any words, and to touch nothing outside its arrays and the lent bytes. What its
//! calls ask for in turn: arrays of the declared lengths, and for data and scratch a pointer that is not null to as
//! many bytes as the call is told. The arrays are fields of [`Words`], and of [`Table`] where a call takes one. Data and
//! scratch are borrowed for `'buf` at opening and held as pointers from then on, so that pieces can be out with other
//! threads while calls run: a reference to a whole buffer would claim those bytes too. What a sheet is joined of and
//! into is no dock's, and borrowed for that one call.
//!
//! **Who touches which bytes when.** A piece that is out ([`Loan`]) is its holder's: filled for a read, looked at for a
//! write. Meanwhile calls for other slots run, and pieces of other slots are out. No two of these touch the same byte
//! where one changes it:
//!
//! - Scratch: slot p has the bytes from p × share on, share many. A piece in the scratch lies in its own slot's, and
//!   begin and tell touch no scratch but that of the slot they are for. A begin takes a free slot, and no piece of a
//!   free slot is out. Here and below a submit is a begin, and a complete is a tell.
//! - Data: a piece in the data lies in a segment of its job. A begin reads its own vector's segments, a tell reads or
//!   fills those of its own slot's job, and neither touches others. Segments of two jobs in flight share bytes only
//!   where both write from them, and then nobody changes them: any other begin is refused with 203 before a byte is
//!   touched.
//! - A slot whose pieces are out is not told, and they are not handed out again, until they have come back: `lent` sees
//!   to that.
//! - Other data is handed out to be changed by [`Words::data_part`] alone, and only where no job in flight has a
//!   segment.
//!
//! That a call leaves the bytes of other slots as they are is in its contract. That it does not even read them, or
//! write their old values back, is how its code is: it copies and fills within its own slot's parts. `tests/lent.rs`
//! and `races/run` try it.

use crate::answer::{Due, Kind, Piece, Request};
use crate::dock::{DataError, Settings, SLOTS};
use crate::refusal::Refusal;
use crate::sheet::{SheetWrite, SHEET_WRITES};
use crate::table::{Table, TABLE_ROWS};
use crate::vector::Vector;
use std::marker::PhantomData;
use std::ops::Range;
use std::slice;

mod combined;
mod loan;

use combined::Out;
pub(crate) use combined::Sight;
pub(crate) use loan::Loan;

/// The number of a reply that has values alone.
pub(crate) const NO_NUMBER: u64 = 256;

/// What most calls return. Declared as `reply` in the library's boundary.
#[repr(C)]
#[derive(Clone, Copy)]
pub(crate) struct Reply {
    pub number: u64,
    pub count: u64,
    pub value: [u64; 4],
}

/// Address and length of a buffer that is borrowed for `'buf`.
#[derive(Clone, Copy)]
struct Buffer<'buf> {
    start: *mut u8,
    length: usize,
    borrowed: PhantomData<&'buf mut [u8]>,
}

/// A dock in words, each array of the length that the library declares for it, and its buffers.
pub(crate) struct Words<'buf> {
    settings: SettingsWords,
    blockers: BlockerWords,
    states: StateWords,
    vectors: VectorWords,
    data: Buffer<'buf>,
    scratch: Buffer<'buf>,
    /// The vectors of the jobs in flight, by slot; empty for jobs without one.
    in_flight: [Option<Vector>; SLOTS],
    /// The slots whose pieces are out as a loan.
    lent: [bool; SLOTS],
    /// The requests that combined calls have shown, by slot: each is out until its code is handed in.
    out: [Option<Out>; SLOTS],
}

// SAFETY: Words has the use of its buffers as two `&'buf mut [u8]` would, which may go to another thread.
unsafe impl Send for Words<'_> {}
// SAFETY: what takes `&self` changes nothing, and reads bytes only while no loan is out.
unsafe impl Sync for Words<'_> {}

type SettingsWords = [u64; 9];
type BlockerWords = [u64; 88];
type StateWords = [u64; 144];
type VectorWords = [u64; 272];
/// The words of a drive table: count, and the alignments of each row; 0 past the count.
pub(crate) type TableWords = [u64; TABLE_WORDS];
pub(crate) const TABLE_WORDS: usize = 1 + 4 * TABLE_ROWS;
/// How many words a write of a sheet has.
const WRITE_WORDS: usize = 3;
/// Room for all writes that a sheet can be joined to, of three words each.
pub(crate) type JoinedWrites = [SheetWrite; SHEET_WRITES];

#[rustfmt::skip]
extern "C" {
    fn dock_words_open(settings: &mut SettingsWords, blockers: &mut BlockerWords, states: &mut StateWords,
        vectors: &mut VectorWords, mem: u64, req: u64, zero: u64, discard: u64, share: u64, data_address: u64,
        data_length: u64, scratch_address: u64, scratch_length: u64) -> u8;
    fn dock_words_open_row(settings: &mut SettingsWords, blockers: &mut BlockerWords, states: &mut StateWords,
        vectors: &mut VectorWords, row: usize, share: u64, data_address: u64, data_length: u64, scratch_address: u64,
        scratch_length: u64) -> u8;
    fn dock_words_open_table(settings: &mut SettingsWords, blockers: &mut BlockerWords, states: &mut StateWords,
        vectors: &mut VectorWords, table: &TableWords, row: usize, share: u64, data_address: u64, data_length: u64,
        scratch_address: u64, scratch_length: u64) -> u8;
    fn dock_words_load_table(table: &mut TableWords, bytes: *const u8, bytes_len: usize) -> u8;
    fn dock_words_table_row(table: &TableWords, row: usize) -> Reply;
    fn dock_words_begin_read(settings: &SettingsWords, blockers: &mut BlockerWords, states: &mut StateWords,
        vectors: &mut VectorWords, offset: u64, vector: &[u64; 34], data: *const u8, data_len: usize, scratch: *mut u8,
        scratch_len: usize) -> Reply;
    fn dock_words_begin_write(settings: &SettingsWords, blockers: &mut BlockerWords, states: &mut StateWords,
        vectors: &mut VectorWords, offset: u64, vector: &[u64; 34], data: *const u8, data_len: usize, scratch: *mut u8,
        scratch_len: usize) -> Reply;
    fn dock_words_begin_zeroes(settings: &SettingsWords, blockers: &mut BlockerWords, states: &mut StateWords,
        vectors: &mut VectorWords, allocate: u8, offset: u64, length: u64, data: *const u8, data_len: usize,
        scratch: *mut u8, scratch_len: usize) -> Reply;
    fn dock_words_begin_discard(settings: &SettingsWords, blockers: &mut BlockerWords, states: &mut StateWords,
        vectors: &mut VectorWords, offset: u64, length: u64, data: *const u8, data_len: usize, scratch: *mut u8,
        scratch_len: usize) -> Reply;
    fn dock_words_next(settings: &SettingsWords, blockers: &BlockerWords, states: &StateWords, vectors: &VectorWords,
        slot: usize, data_len: usize, scratch_len: usize) -> Reply;
    fn dock_words_piece(settings: &SettingsWords, blockers: &BlockerWords, states: &StateWords, vectors: &VectorWords,
        slot: usize, i: usize, data_len: usize, scratch_len: usize) -> Reply;
    fn dock_words_tell(settings: &SettingsWords, blockers: &mut BlockerWords, states: &mut StateWords,
        vectors: &VectorWords, slot: usize, code: u8, data: *mut u8, data_len: usize, scratch: *mut u8,
        scratch_len: usize) -> u8;
    fn dock_words_collect(settings: &SettingsWords, blockers: &BlockerWords, states: &mut StateWords,
        vectors: &mut VectorWords, slot: usize, data_len: usize, scratch_len: usize) -> u8;
    fn dock_words_chunks(settings: &SettingsWords, offset: u64, length: u64) -> Reply;
    fn dock_words_chunk(settings: &SettingsWords, offset: u64, length: u64, i: u64) -> Reply;
    fn dock_words_join(writes: *const SheetWrite, writes_len: usize, data: *const u8, data_len: usize, output: *mut u8,
        output_len: usize, joined: &mut JoinedWrites) -> Reply;
    #[cfg(test)]
    fn dock_words_vector_push(vector: &mut [u64; 34], start: usize, length: usize, data_len: usize) -> u8;
}

impl<'buf> Buffer<'buf> {
    fn of(bytes: &'buf mut [u8]) -> Buffer<'buf> {
        Buffer { start: bytes.as_mut_ptr(), length: bytes.len(), borrowed: PhantomData }
    }

    fn address(&self) -> u64 {
        self.start as usize as u64
    }

    /// The part of `length` bytes from `start` on, which lies in the buffer.
    fn part(&self, start: u64, length: u64) -> (*mut u8, usize) {
        let (start, length) = (start as usize, length as usize);
        assert!(
            start <= self.length && length <= self.length - start,
            "the library answered a piece outside the buffers"
        );
        (self.start.wrapping_add(start), length)
    }
}

#[rustfmt::skip]
impl<'buf> Words<'buf> {
    fn over(data: &'buf mut [u8], scratch: &'buf mut [u8]) -> Words<'buf> {
        Words {
            settings: [0; 9], blockers: [0; 88], states: [0; 144], vectors: [0; 272],
            data: Buffer::of(data), scratch: Buffer::of(scratch), in_flight: [None; SLOTS], lent: [false; SLOTS],
            out: [None; SLOTS],
        }
    }

    pub fn open(s: &Settings, data: &'buf mut [u8], scratch: &'buf mut [u8]) -> (Words<'buf>, u8) {
        let mut w = Words::over(data, scratch);
        // SAFETY: the four arrays are this function's own; the rest are numbers.
        let number = unsafe {
            dock_words_open(&mut w.settings, &mut w.blockers, &mut w.states, &mut w.vectors, s.mem, s.req, s.zero,
                s.discard, s.bounce, w.data.address(), w.data.length as u64, w.scratch.address(),
                w.scratch.length as u64)
        };
        (w, number)
    }

    pub fn open_row(row: usize, bounce: u64, data: &'buf mut [u8], scratch: &'buf mut [u8]) -> (Words<'buf>, u8) {
        let mut w = Words::over(data, scratch);
        // SAFETY: as for open.
        let number = unsafe {
            dock_words_open_row(&mut w.settings, &mut w.blockers, &mut w.states, &mut w.vectors, row, bounce,
                w.data.address(), w.data.length as u64, w.scratch.address(), w.scratch.length as u64)
        };
        (w, number)
    }

    pub fn open_table(
        table: &Table, row: usize, bounce: u64, data: &'buf mut [u8], scratch: &'buf mut [u8],
    ) -> (Words<'buf>, u8) {
        let mut w = Words::over(data, scratch);
        // SAFETY: as for open; the words of the table are borrowed.
        let number = unsafe {
            dock_words_open_table(&mut w.settings, &mut w.blockers, &mut w.states, &mut w.vectors, table.words(), row,
                bounce, w.data.address(), w.data.length as u64, w.scratch.address(), w.scratch.length as u64)
        };
        (w, number)
    }

    pub fn begin_read(&mut self, offset: u64, vector: &Vector) -> Reply {
        // SAFETY: arrays and vector are borrowed; data and scratch have their lengths, and the call touches no byte of
        // them that is out, as the head of this file says.
        let reply = unsafe {
            dock_words_begin_read(&self.settings, &mut self.blockers, &mut self.states, &mut self.vectors, offset,
                vector.words(), self.data.start, self.data.length, self.scratch.start, self.scratch.length)
        };
        self.note_begun(reply, vector)
    }

    pub fn begin_write(&mut self, offset: u64, vector: &Vector) -> Reply {
        // SAFETY: as for begin_read.
        let reply = unsafe {
            dock_words_begin_write(&self.settings, &mut self.blockers, &mut self.states, &mut self.vectors, offset,
                vector.words(), self.data.start, self.data.length, self.scratch.start, self.scratch.length)
        };
        self.note_begun(reply, vector)
    }

    pub fn begin_zeroes(&mut self, allocate: bool, offset: u64, length: u64) -> Reply {
        // SAFETY: as for begin_read, without a vector.
        let reply = unsafe {
            dock_words_begin_zeroes(&self.settings, &mut self.blockers, &mut self.states, &mut self.vectors,
                u8::from(allocate), offset, length, self.data.start, self.data.length, self.scratch.start,
                self.scratch.length)
        };
        self.note_begun(reply, &Vector::new())
    }

    pub fn begin_discard(&mut self, offset: u64, length: u64) -> Reply {
        // SAFETY: as for begin_read, without a vector.
        let reply = unsafe {
            dock_words_begin_discard(&self.settings, &mut self.blockers, &mut self.states, &mut self.vectors, offset,
                length, self.data.start, self.data.length, self.scratch.start, self.scratch.length)
        };
        self.note_begun(reply, &Vector::new())
    }

    /// Notes the vector of a job that got a slot: its bytes are in flight from now on.
    fn note_begun(&mut self, reply: Reply, vector: &Vector) -> Reply {
        if reply.number == NO_NUMBER {
            self.in_flight[reply.value[0] as usize] = Some(*vector);
        }
        reply
    }

    pub fn next(&self, slot: usize) -> Reply {
        // SAFETY: the arrays are borrowed; the rest are numbers.
        unsafe {
            dock_words_next(&self.settings, &self.blockers, &self.states, &self.vectors, slot, self.data.length,
                self.scratch.length)
        }
    }

    /// Address and length of a piece of the request that is out, a part of the data or the scratch.
    fn piece_part(&self, slot: usize, i: usize) -> Result<(*mut u8, usize), Refusal> {
        // SAFETY: as for next.
        let reply = unsafe {
            dock_words_piece(&self.settings, &self.blockers, &self.states, &self.vectors, slot, i, self.data.length,
                self.scratch.length)
        };
        let [buffer, start, length, _] = reply.values()?;
        Ok(if buffer == 0 { self.data.part(start, length) } else { self.scratch.part(start, length) })
    }

    fn tell_library(&mut self, slot: usize, code: u8) -> u8 {
        // SAFETY: the arrays are borrowed; data and scratch have their lengths, and the call touches no byte of them
        // that is out, as the head of this file says, since this slot's pieces are not.
        let number = unsafe {
            dock_words_tell(&self.settings, &mut self.blockers, &mut self.states, &self.vectors, slot, code,
                self.data.start, self.data.length, self.scratch.start, self.scratch.length)
        };
        if number == 0 {
            self.out[slot] = None;
        }
        number
    }

    pub fn collect(&mut self, slot: usize) -> u8 {
        // SAFETY: the arrays are borrowed; the rest are numbers.
        let number = unsafe {
            dock_words_collect(&self.settings, &self.blockers, &mut self.states, &mut self.vectors, slot,
                self.data.length, self.scratch.length)
        };
        if Refusal::of(number).is_none_or(|refusal| refusal == Refusal::Overflow) {
            self.in_flight[slot] = None;
        }
        number
    }

    pub fn chunks(&self, offset: u64, length: u64) -> Reply {
        // SAFETY: the settings are borrowed; the rest are numbers.
        unsafe { dock_words_chunks(&self.settings, offset, length) }
    }

    pub fn chunk(&self, offset: u64, length: u64, i: u64) -> Reply {
        // SAFETY: as for chunks.
        unsafe { dock_words_chunk(&self.settings, offset, length, i) }
    }
}

/// Bytes handed out.
impl<'buf> Words<'buf> {
    /// A piece of the request that is out, lent for as long as `self` is.
    pub fn piece(&mut self, slot: usize, i: usize) -> Result<Piece<'_>, Refusal> {
        let (start, length) = self.piece_part(slot, i)?;
        let request = self.request(slot)?;
        self.must_be_here(slot);
        Ok(match request.kind {
            // SAFETY: the part lies in a buffer that is borrowed for 'buf; its slot's pieces are not out, those of
            // others lie elsewhere, and `self` is borrowed alone for as long as the piece.
            Kind::Read => Piece::Fill(unsafe { slice::from_raw_parts_mut(start, length) }),
            // SAFETY: the same, and this one is only looked at, as are those of other writes that share bytes with it.
            _ => Piece::Take(unsafe { slice::from_raw_parts(start, length) }),
        })
    }

    /// Hands in a code.
    pub fn tell(&mut self, slot: usize, code: u8) -> u8 {
        self.must_be_here(slot);
        self.tell_library(slot, code)
    }

    /// The request that is out for a slot.
    fn request(&self, slot: usize) -> Result<Request, Refusal> {
        match Due::answered(self.next(slot))? {
            Due::Make(request) => Ok(request),
            Due::Waiting | Due::Answer(_) => Err(Refusal::Slot),
        }
    }

    fn must_be_here(&self, slot: usize) {
        assert!(!self.lent.get(slot).is_some_and(|&lent| lent), "the pieces of slot {slot} are out");
    }

    fn all_must_be_here(&self) {
        assert!(!self.lent.contains(&true), "pieces are out");
    }

    /// All data.
    pub fn data(&self) -> &[u8] {
        self.all_must_be_here();
        // SAFETY: the data is borrowed for 'buf, no piece of it is out, and while `self` is borrowed none is handed out
        // to be changed.
        unsafe { slice::from_raw_parts(self.data.start, self.data.length) }
    }

    /// A range of the data, to be changed: none that has bytes of a job in flight.
    pub fn data_part(&mut self, range: Range<usize>) -> Result<&mut [u8], DataError> {
        if range.start > range.end || range.end > self.data.length {
            return Err(DataError::Outside);
        }
        if self.in_flight.iter().flatten().any(|vector| vector.meets(&range)) {
            return Err(DataError::InFlight);
        }
        // SAFETY: the range lies in the data, which is borrowed for 'buf; pieces that are out lie in segments of jobs
        // in flight or in the scratch, and so not in it; `self` is borrowed alone for as long as the range.
        Ok(unsafe { slice::from_raw_parts_mut(self.data.start.add(range.start), range.len()) })
    }

    /// Data and scratch, given back.
    pub fn into_buffers(self) -> (&'buf mut [u8], &'buf mut [u8]) {
        self.all_must_be_here();
        // SAFETY: both are borrowed for 'buf and were opening's alone; no piece is out, and `self`, which has the only
        // other pointers, ends.
        unsafe {
            (
                slice::from_raw_parts_mut(self.data.start, self.data.length),
                slice::from_raw_parts_mut(self.scratch.start, self.scratch.length),
            )
        }
    }
}

impl Reply {
    /// The values; or the refusal's number.
    pub fn values(self) -> Result<[u64; 4], Refusal> {
        match self.number {
            NO_NUMBER => Ok(self.value),
            refused => Err(Refusal::answered(refused)),
        }
    }
}

/// Loads a drive table into words: 0, or a refusal's number, and then they are as they were.
pub(crate) fn load_table(table: &mut TableWords, bytes: &[u8]) -> u8 {
    // SAFETY: words and bytes are borrowed; the pointer of a slice is not null, and it has as many bytes as are told.
    unsafe { dock_words_load_table(table, bytes.as_ptr(), bytes.len()) }
}

/// The alignments of a row of a drive table.
pub(crate) fn table_row(table: &TableWords, row: usize) -> Reply {
    // SAFETY: the words are borrowed; the rest is a number.
    unsafe { dock_words_table_row(table, row) }
}

/// Joins the writes of a sheet: number 0 with how many ranges and bytes they come to, or a refusal's number, and then
/// neither `output` nor `joined` has changed.
pub(crate) fn join_sheet(writes: &[SheetWrite], data: &[u8], output: &mut [u8], joined: &mut JoinedWrites) -> Reply {
    // SAFETY: a write is three words without padding, so the writes are three times as many words; no slice is so long
    // that this is no number. Writes, data, output and joined are borrowed, the last two alone, and so they lie apart;
    // the pointer of a slice is not null, and it has as many elements as are told.
    unsafe {
        dock_words_join(
            writes.as_ptr(),
            WRITE_WORDS * writes.len(),
            data.as_ptr(),
            data.len(),
            output.as_mut_ptr(),
            output.len(),
            joined,
        )
    }
}

/// The library's own push on the words of a vector over data of that length: 0 or a refusal's number.
#[cfg(test)]
pub(crate) fn push_segment(words: &mut [u64; 34], start: usize, length: usize, data_len: usize) -> u8 {
    // SAFETY: the words are borrowed; the rest are numbers.
    unsafe { dock_words_vector_push(words, start, length, data_len) }
}

#[cfg(test)]
impl Words<'_> {
    /// Everything that a refused call must leave as it is.
    pub fn copied(&self) -> Copied {
        let words = [&self.settings[..], &self.blockers, &self.states, &self.vectors].concat();
        // SAFETY: as for data.
        let scratch = unsafe { slice::from_raw_parts(self.scratch.start, self.scratch.length) };
        (words, [self.data(), scratch].concat(), self.in_flight, self.lent, self.out)
    }

    /// How far into the data, or past all data into the scratch, an address lies.
    pub fn place_of(&self, address: *const u8) -> usize {
        let (data, scratch) = (self.data.address() as usize, self.scratch.address() as usize);
        match (address as usize).checked_sub(data).filter(|past| *past <= self.data.length) {
            Some(past) => past,
            None => self.data.length + (address as usize - scratch),
        }
    }
}

/// Words, bytes of data and scratch, vectors in flight, loans, requests that are out.
#[cfg(test)]
pub(crate) type Copied = (Vec<u64>, Vec<u8>, [Option<Vector>; SLOTS], [bool; SLOTS], [Option<Out>; SLOTS]);
