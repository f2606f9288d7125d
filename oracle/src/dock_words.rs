//! The C boundary of the static library: a dock in four lent arrays of words, and calls over it; a vector and blockers alone.

use crate::side::Segment;
use std::ops::Range;

pub const SETTINGS: usize = 9;
pub const BLOCKERS: usize = 88;
pub const STATES: usize = 144;
pub const VECTORS: usize = 272;

/// A reply whose number says nothing: it has values only.
pub const NO_NUMBER: u64 = 256;

#[repr(C)]
#[derive(Clone, Copy, Debug, PartialEq, Eq)]
pub struct Reply {
    pub number: u64,
    /// How many of the values count.
    pub count: u64,
    pub value: [u64; 4],
}

/// What a combined call shows: what it is, the number or the slot, kind, offset, length and count of pieces of a request, then buffer,
/// start and length of its first piece. Zeroes where there is nothing to say.
pub type Shown = [u64; 9];

/// The first word of what is shown.
pub const REFUSED: u64 = 0;
pub const ANSWERED: u64 = 1;
pub const WAITING: u64 = 2;
pub const OUT: u64 = 3;

/// What no call shows: each writes all nine words, whatever stands there.
pub const UNSHOWN: Shown = [u64::MAX; 9];

/// A vector as a begin takes it: count of segments, total, then start and length of each, zeroes past the last.
pub type Row = [u64; 34];

/// A row has room for 16 segments; its count is theirs also where they are more.
pub fn row(segments: &[Segment], total: u64) -> Row {
    let mut row = [0; 34];
    row[0] = segments.len() as u64;
    row[1] = total;
    for (words, s) in row[2..].chunks_mut(2).zip(segments) {
        words.copy_from_slice(&[s.start, s.length]);
    }
    row
}

/// A drive table: how many rows, then the alignments of each of 64.
pub type TableRow = [u64; 257];

/// The blockers of a dock, or alone; zeroes where none is entered.
pub type BlockerRow = [u64; BLOCKERS];

type Read = *const u64;
type Alter = *mut u64;

extern "C" {
    fn dock_words_open(
        settings: Alter,
        blockers: Alter,
        states: Alter,
        vectors: Alter,
        mem: u64,
        req: u64,
        zero: u64,
        discard: u64,
        share: u64,
        data_address: u64,
        data_length: u64,
        scratch_address: u64,
        scratch_length: u64,
    ) -> u8;
    fn dock_words_open_row(
        settings: Alter,
        blockers: Alter,
        states: Alter,
        vectors: Alter,
        row: usize,
        share: u64,
        data_address: u64,
        data_length: u64,
        scratch_address: u64,
        scratch_length: u64,
    ) -> u8;
    fn dock_words_open_table(
        settings: Alter,
        blockers: Alter,
        states: Alter,
        vectors: Alter,
        table: Read,
        row: usize,
        share: u64,
        data_address: u64,
        data_length: u64,
        scratch_address: u64,
        scratch_length: u64,
    ) -> u8;
    fn dock_words_load_table(table: Alter, bytes: *const u8, bytes_len: usize) -> u8;
    fn dock_words_begin_read(
        settings: Read,
        blockers: Alter,
        states: Alter,
        vectors: Alter,
        offset: u64,
        vector: Read,
        data: *const u8,
        data_len: usize,
        scratch: *mut u8,
        scratch_len: usize,
    ) -> Reply;
    fn dock_words_begin_write(
        settings: Read,
        blockers: Alter,
        states: Alter,
        vectors: Alter,
        offset: u64,
        vector: Read,
        data: *const u8,
        data_len: usize,
        scratch: *mut u8,
        scratch_len: usize,
    ) -> Reply;
    fn dock_words_begin_zeroes(
        settings: Read,
        blockers: Alter,
        states: Alter,
        vectors: Alter,
        allocate: u8,
        offset: u64,
        length: u64,
        data: *const u8,
        data_len: usize,
        scratch: *mut u8,
        scratch_len: usize,
    ) -> Reply;
    fn dock_words_begin_discard(
        settings: Read,
        blockers: Alter,
        states: Alter,
        vectors: Alter,
        offset: u64,
        length: u64,
        data: *const u8,
        data_len: usize,
        scratch: *mut u8,
        scratch_len: usize,
    ) -> Reply;
    fn dock_words_next(
        settings: Read,
        blockers: Read,
        states: Read,
        vectors: Read,
        slot: usize,
        data_len: usize,
        scratch_len: usize,
    ) -> Reply;
    fn dock_words_piece(
        settings: Read,
        blockers: Read,
        states: Read,
        vectors: Read,
        slot: usize,
        i: usize,
        data_len: usize,
        scratch_len: usize,
    ) -> Reply;
    fn dock_words_tell(
        settings: Read,
        blockers: Alter,
        states: Alter,
        vectors: Read,
        slot: usize,
        code: u8,
        data: *mut u8,
        data_len: usize,
        scratch: *mut u8,
        scratch_len: usize,
    ) -> u8;
    fn dock_words_collect(
        settings: Read,
        blockers: Read,
        states: Alter,
        vectors: Alter,
        slot: usize,
        data_len: usize,
        scratch_len: usize,
    ) -> u8;
    fn dock_words_submit_read(
        settings: Read,
        blockers: Alter,
        states: Alter,
        vectors: Alter,
        offset: u64,
        vector: Read,
        data: *const u8,
        data_len: usize,
        scratch: *mut u8,
        scratch_len: usize,
        reply: Alter,
    );
    fn dock_words_submit_write(
        settings: Read,
        blockers: Alter,
        states: Alter,
        vectors: Alter,
        offset: u64,
        vector: Read,
        data: *const u8,
        data_len: usize,
        scratch: *mut u8,
        scratch_len: usize,
        reply: Alter,
    );
    fn dock_words_submit_zeroes(
        settings: Read,
        blockers: Alter,
        states: Alter,
        vectors: Alter,
        allocate: u8,
        offset: u64,
        length: u64,
        data: *const u8,
        data_len: usize,
        scratch: *mut u8,
        scratch_len: usize,
        reply: Alter,
    );
    fn dock_words_submit_discard(
        settings: Read,
        blockers: Alter,
        states: Alter,
        vectors: Alter,
        offset: u64,
        length: u64,
        data: *const u8,
        data_len: usize,
        scratch: *mut u8,
        scratch_len: usize,
        reply: Alter,
    );
    fn dock_words_complete(
        settings: Read,
        blockers: Alter,
        states: Alter,
        vectors: Alter,
        slot: usize,
        code: u8,
        data: *mut u8,
        data_len: usize,
        scratch: *mut u8,
        scratch_len: usize,
        reply: Alter,
    );
    fn dock_words_show(
        settings: Read,
        blockers: Read,
        states: Alter,
        vectors: Alter,
        slot: usize,
        data_len: usize,
        scratch_len: usize,
        reply: Alter,
    );
    fn dock_words_chunks(settings: Read, offset: u64, length: u64) -> Reply;
    fn dock_words_chunk(settings: Read, offset: u64, length: u64, i: u64) -> Reply;
    fn dock_words_vector_push(vector: Alter, start: usize, length: usize, data_len: usize) -> u8;
    fn dock_words_vector_insert(vector: Alter, index: usize, start: usize, length: usize, data_len: usize) -> u8;
    fn dock_words_vector_append(vector: Alter, other: Read, data_len: usize) -> u8;
    fn dock_words_vector_split_at(vector: Alter, tail: Alter, mid: u64, data_len: usize) -> Reply;
    fn dock_words_vector_split_tail_at(vector: Alter, mid: u64, data_len: usize) -> Reply;
    fn dock_words_vector_copy_into_slice(
        vector: Read,
        data: *const u8,
        data_len: usize,
        slice: *mut u8,
        slice_len: usize,
    ) -> u8;
    fn dock_words_vector_copy_from_slice(
        vector: Read,
        data: *mut u8,
        data_len: usize,
        slice: *const u8,
        slice_len: usize,
    ) -> u8;
    fn dock_words_vector_fill(vector: Read, data: *mut u8, data_len: usize, value: u8) -> u8;
    fn dock_words_vector_is_aligned(
        vector: Read,
        mem: u64,
        req: u64,
        zero: u64,
        discard: u64,
        data_address: u64,
        data_length: u64,
    ) -> Reply;
    fn dock_words_blockers_enter(blockers: Alter, strong: u8, slot: usize, start: u64, end: u64) -> u8;
    fn dock_words_blockers_leave(blockers: Alter, slot: usize) -> u8;
    fn dock_words_blockers_wait(blockers: Read, slot: usize) -> u8;
}

/// The arrays of one dock.
#[derive(Clone, PartialEq, Eq)]
pub struct Words {
    settings: [u64; SETTINGS],
    blockers: BlockerRow,
    states: [u64; STATES],
    vectors: [u64; VECTORS],
}

impl Default for Words {
    fn default() -> Self {
        Words { settings: [0; SETTINGS], blockers: [0; BLOCKERS], states: [0; STATES], vectors: [0; VECTORS] }
    }
}

/// Address and length of the data, then of the scratch.
pub type Buffers = [u64; 4];

/// Lengths of the data and of the scratch.
pub type Lengths = (usize, usize);

// SAFETY, for all calls: the arrays have the lengths that the library declares, the slices are valid for theirs and do not overlap,
// pointers of empty slices are not null, and the library keeps no pointer.
impl Words {
    /// M, R, Z, D, then the share.
    pub fn open(&mut self, align: [u64; 4], share: u64, b: Buffers) -> u8 {
        let [mem, req, zero, discard] = align;
        let (s, k, j, v) = self.alter();
        unsafe { dock_words_open(s, k, j, v, mem, req, zero, discard, share, b[0], b[1], b[2], b[3]) }
    }

    pub fn open_row(&mut self, row: usize, share: u64, b: Buffers) -> u8 {
        let (s, k, j, v) = self.alter();
        unsafe { dock_words_open_row(s, k, j, v, row, share, b[0], b[1], b[2], b[3]) }
    }

    pub fn open_table(&mut self, table: &TableRow, row: usize, share: u64, b: Buffers) -> u8 {
        let (s, k, j, v) = self.alter();
        unsafe { dock_words_open_table(s, k, j, v, table.as_ptr(), row, share, b[0], b[1], b[2], b[3]) }
    }

    /// Changes a word, which no call does where it is refused.
    pub fn disturb(&mut self) {
        self.states[STATES - 1] ^= 1;
    }

    fn alter(&mut self) -> (Alter, Alter, Alter, Alter) {
        (self.settings.as_mut_ptr(), self.blockers.as_mut_ptr(), self.states.as_mut_ptr(), self.vectors.as_mut_ptr())
    }

    fn read(&self) -> (Read, Read, Read, Read) {
        (self.settings.as_ptr(), self.blockers.as_ptr(), self.states.as_ptr(), self.vectors.as_ptr())
    }

    pub fn begin_read(&mut self, offset: u64, row: &Row, data: &[u8], scratch: &mut [u8]) -> Reply {
        let (s, k, j, v) = self.alter();
        let (d, c) = (data.as_ptr(), scratch.as_mut_ptr());
        unsafe { dock_words_begin_read(s, k, j, v, offset, row.as_ptr(), d, data.len(), c, scratch.len()) }
    }

    pub fn begin_write(&mut self, offset: u64, row: &Row, data: &[u8], scratch: &mut [u8]) -> Reply {
        let (s, k, j, v) = self.alter();
        let (d, c) = (data.as_ptr(), scratch.as_mut_ptr());
        unsafe { dock_words_begin_write(s, k, j, v, offset, row.as_ptr(), d, data.len(), c, scratch.len()) }
    }

    pub fn begin_zeroes(&mut self, allocate: bool, offset: u64, length: u64, data: &[u8], scratch: &mut [u8]) -> Reply {
        let (s, k, j, v) = self.alter();
        let (a, d, c) = (u8::from(allocate), data.as_ptr(), scratch.as_mut_ptr());
        unsafe { dock_words_begin_zeroes(s, k, j, v, a, offset, length, d, data.len(), c, scratch.len()) }
    }

    pub fn begin_discard(&mut self, offset: u64, length: u64, data: &[u8], scratch: &mut [u8]) -> Reply {
        let (s, k, j, v) = self.alter();
        let (d, c) = (data.as_ptr(), scratch.as_mut_ptr());
        unsafe { dock_words_begin_discard(s, k, j, v, offset, length, d, data.len(), c, scratch.len()) }
    }

    pub fn next(&self, slot: usize, lengths: Lengths) -> Reply {
        let (s, k, j, v) = self.read();
        unsafe { dock_words_next(s, k, j, v, slot, lengths.0, lengths.1) }
    }

    pub fn piece(&self, slot: usize, i: usize, lengths: Lengths) -> Reply {
        let (s, k, j, v) = self.read();
        unsafe { dock_words_piece(s, k, j, v, slot, i, lengths.0, lengths.1) }
    }

    pub fn tell(&mut self, slot: usize, code: u8, data: &mut [u8], scratch: &mut [u8]) -> u8 {
        let (s, k, j, v) = self.alter();
        let (d, c) = (data.as_mut_ptr(), scratch.as_mut_ptr());
        unsafe { dock_words_tell(s, k, j, v, slot, code, d, data.len(), c, scratch.len()) }
    }

    pub fn collect(&mut self, slot: usize, lengths: Lengths) -> u8 {
        let (s, k, j, v) = self.alter();
        unsafe { dock_words_collect(s, k, j, v, slot, lengths.0, lengths.1) }
    }

    pub fn submit_read(&mut self, offset: u64, row: &Row, data: &[u8], scratch: &mut [u8], shown: &mut Shown) {
        let (s, k, j, v) = self.alter();
        let (d, c, r) = (data.as_ptr(), scratch.as_mut_ptr(), shown.as_mut_ptr());
        unsafe { dock_words_submit_read(s, k, j, v, offset, row.as_ptr(), d, data.len(), c, scratch.len(), r) }
    }

    pub fn submit_write(&mut self, offset: u64, row: &Row, data: &[u8], scratch: &mut [u8], shown: &mut Shown) {
        let (s, k, j, v) = self.alter();
        let (d, c, r) = (data.as_ptr(), scratch.as_mut_ptr(), shown.as_mut_ptr());
        unsafe { dock_words_submit_write(s, k, j, v, offset, row.as_ptr(), d, data.len(), c, scratch.len(), r) }
    }

    /// Offset and length are the range's.
    pub fn submit_zeroes(
        &mut self,
        allocate: bool,
        range: [u64; 2],
        data: &[u8],
        scratch: &mut [u8],
        shown: &mut Shown,
    ) {
        let (s, k, j, v) = self.alter();
        let (a, d, c, r) = (u8::from(allocate), data.as_ptr(), scratch.as_mut_ptr(), shown.as_mut_ptr());
        let [offset, length] = range;
        unsafe { dock_words_submit_zeroes(s, k, j, v, a, offset, length, d, data.len(), c, scratch.len(), r) }
    }

    pub fn submit_discard(&mut self, range: [u64; 2], data: &[u8], scratch: &mut [u8], shown: &mut Shown) {
        let (s, k, j, v) = self.alter();
        let (d, c, r) = (data.as_ptr(), scratch.as_mut_ptr(), shown.as_mut_ptr());
        let [offset, length] = range;
        unsafe { dock_words_submit_discard(s, k, j, v, offset, length, d, data.len(), c, scratch.len(), r) }
    }

    pub fn complete(&mut self, slot: usize, code: u8, data: &mut [u8], scratch: &mut [u8], shown: &mut Shown) {
        let (s, k, j, v) = self.alter();
        let (d, c, r) = (data.as_mut_ptr(), scratch.as_mut_ptr(), shown.as_mut_ptr());
        unsafe { dock_words_complete(s, k, j, v, slot, code, d, data.len(), c, scratch.len(), r) }
    }

    pub fn show(&mut self, slot: usize, lengths: Lengths, shown: &mut Shown) {
        let (s, k, j, v) = self.alter();
        unsafe { dock_words_show(s, k, j, v, slot, lengths.0, lengths.1, shown.as_mut_ptr()) }
    }

    pub fn chunks(&self, offset: u64, length: u64) -> Reply {
        unsafe { dock_words_chunks(self.settings.as_ptr(), offset, length) }
    }

    pub fn chunk(&self, offset: u64, length: u64, i: u64) -> Reply {
        unsafe { dock_words_chunk(self.settings.as_ptr(), offset, length, i) }
    }
}

// SAFETY, for the calls below: as above, with the lengths of a row and of blockers.

pub fn vector_push(v: &mut Row, s: Segment, data_len: usize) -> u8 {
    unsafe { dock_words_vector_push(v.as_mut_ptr(), s.start as usize, s.length as usize, data_len) }
}

pub fn vector_insert(v: &mut Row, index: usize, s: Segment, data_len: usize) -> u8 {
    unsafe { dock_words_vector_insert(v.as_mut_ptr(), index, s.start as usize, s.length as usize, data_len) }
}

pub fn vector_append(v: &mut Row, other: &Row, data_len: usize) -> u8 {
    unsafe { dock_words_vector_append(v.as_mut_ptr(), other.as_ptr(), data_len) }
}

/// The vector becomes the head. The reply has how many segments were looked at beside its number, 0.
pub fn vector_split_at(v: &mut Row, tail: &mut Row, mid: u64, data_len: usize) -> Reply {
    unsafe { dock_words_vector_split_at(v.as_mut_ptr(), tail.as_mut_ptr(), mid, data_len) }
}

pub fn vector_split_tail_at(v: &mut Row, mid: u64, data_len: usize) -> Reply {
    unsafe { dock_words_vector_split_tail_at(v.as_mut_ptr(), mid, data_len) }
}

pub fn vector_copy_into_slice(v: &Row, data: &[u8], slice: &mut [u8]) -> u8 {
    let (d, s) = (data.as_ptr(), slice.as_mut_ptr());
    unsafe { dock_words_vector_copy_into_slice(v.as_ptr(), d, data.len(), s, slice.len()) }
}

pub fn vector_copy_from_slice(v: &Row, data: &mut [u8], slice: &[u8]) -> u8 {
    let (d, s) = (data.as_mut_ptr(), slice.as_ptr());
    unsafe { dock_words_vector_copy_from_slice(v.as_ptr(), d, data.len(), s, slice.len()) }
}

pub fn vector_fill(v: &Row, data: &mut [u8], value: u8) -> u8 {
    unsafe { dock_words_vector_fill(v.as_ptr(), data.as_mut_ptr(), data.len(), value) }
}

/// M, R, Z, D, then address and length of the data.
pub fn vector_is_aligned(v: &Row, align: [u64; 4], data: [u64; 2]) -> Reply {
    let [mem, req, zero, discard] = align;
    unsafe { dock_words_vector_is_aligned(v.as_ptr(), mem, req, zero, discard, data[0], data[1]) }
}

pub fn blockers_enter(b: &mut BlockerRow, strong: bool, slot: usize, range: Range<u64>) -> u8 {
    unsafe { dock_words_blockers_enter(b.as_mut_ptr(), u8::from(strong), slot, range.start, range.end) }
}

pub fn blockers_leave(b: &mut BlockerRow, slot: usize) -> u8 {
    unsafe { dock_words_blockers_leave(b.as_mut_ptr(), slot) }
}

/// 1 where the slot's blocker waits, 0 where not.
pub fn blockers_wait(b: &BlockerRow, slot: usize) -> u8 {
    unsafe { dock_words_blockers_wait(b.as_ptr(), slot) }
}

/// Loads a drive table: 0, 211 or 212.
pub fn load_table(table: &mut TableRow, bytes: &[u8]) -> u8 {
    // SAFETY: as for the calls on a dock.
    unsafe { dock_words_load_table(table.as_mut_ptr(), bytes.as_ptr(), bytes.len()) }
}
