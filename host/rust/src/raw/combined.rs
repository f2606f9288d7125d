//! The combined calls: each does what several of the others do, and shows what the job needs then.

use super::{BlockerWords, SettingsWords, StateWords, VectorWords, Words};
use crate::answer::{Answer, Kind, Piece, Request, Shown};
use crate::refusal::Refusal;
use crate::vector::Vector;
use std::slice;

/// What a combined call answers: what it is, the number or the slot, kind, offset, length and pieces of the request,
/// buffer, start and length of its first piece. The library writes all nine, 0 where there is nothing to say.
pub(crate) type ShownWords = [u64; 9];

const REFUSED: u64 = 0;
const ANSWERED: u64 = 1;
const WAITING: u64 = 2;
const OUT: u64 = 3;

/// A request that is out, and where its first piece lies; all 0 where it has none.
#[derive(Clone, Copy, Debug, PartialEq, Eq)]
pub(crate) struct Out {
    pub slot: usize,
    pub request: Request,
    pub first: Place,
}

/// A part of the data, or of the scratch.
#[derive(Clone, Copy, Debug, PartialEq, Eq)]
pub(crate) struct Place {
    /// 0 the data, 1 the scratch.
    pub buffer: u64,
    pub start: u64,
    pub length: u64,
}

/// What a combined call shows, without bytes.
#[derive(Clone, Copy, Debug, PartialEq, Eq)]
pub(crate) enum Sight {
    Refused(Refusal),
    Answer(Answer),
    Waiting(usize),
    Make(Out),
}

#[rustfmt::skip]
extern "C" {
    fn dock_words_submit_read(settings: &SettingsWords, blockers: &mut BlockerWords, states: &mut StateWords,
        vectors: &mut VectorWords, offset: u64, vector: &[u64; 34], data: *const u8, data_len: usize, scratch: *mut u8,
        scratch_len: usize, reply: &mut ShownWords);
    fn dock_words_submit_write(settings: &SettingsWords, blockers: &mut BlockerWords, states: &mut StateWords,
        vectors: &mut VectorWords, offset: u64, vector: &[u64; 34], data: *const u8, data_len: usize, scratch: *mut u8,
        scratch_len: usize, reply: &mut ShownWords);
    fn dock_words_submit_zeroes(settings: &SettingsWords, blockers: &mut BlockerWords, states: &mut StateWords,
        vectors: &mut VectorWords, allocate: u8, offset: u64, length: u64, data: *const u8, data_len: usize,
        scratch: *mut u8, scratch_len: usize, reply: &mut ShownWords);
    fn dock_words_submit_discard(settings: &SettingsWords, blockers: &mut BlockerWords, states: &mut StateWords,
        vectors: &mut VectorWords, offset: u64, length: u64, data: *const u8, data_len: usize, scratch: *mut u8,
        scratch_len: usize, reply: &mut ShownWords);
    fn dock_words_complete(settings: &SettingsWords, blockers: &mut BlockerWords, states: &mut StateWords,
        vectors: &mut VectorWords, slot: usize, code: u8, data: *mut u8, data_len: usize, scratch: *mut u8,
        scratch_len: usize, reply: &mut ShownWords);
    fn dock_words_show(settings: &SettingsWords, blockers: &BlockerWords, states: &mut StateWords,
        vectors: &mut VectorWords, slot: usize, data_len: usize, scratch_len: usize, reply: &mut ShownWords);
}

impl Sight {
    /// What the library shows: by its contract always one of the four.
    fn answered(words: &ShownWords) -> Sight {
        let [what, number, kind, offset, length, pieces, buffer, start, bytes] = *words;
        match what {
            REFUSED => Sight::Refused(Refusal::answered(number)),
            ANSWERED => {
                let named = Answer::of(number);
                Sight::Answer(named.unwrap_or_else(|| panic!("the library answered {number}, which no document has")))
            }
            WAITING => Sight::Waiting(number as usize),
            OUT => Sight::Make(Out {
                slot: number as usize,
                request: Request { kind: Kind::answered(kind), offset, length, pieces: pieces as usize },
                first: Place { buffer, start, length: bytes },
            }),
            _ => panic!("the library showed {what}, which is none of its words"),
        }
    }
}

#[rustfmt::skip]
impl Words<'_> {
    pub fn submit_read(&mut self, offset: u64, vector: &Vector) -> Sight {
        let mut shown = [0; 9];
        // SAFETY: arrays, vector and reply are borrowed; data and scratch have their lengths, and the call touches no
        // byte of them that is out, as the head of raw.rs says.
        unsafe {
            dock_words_submit_read(&self.settings, &mut self.blockers, &mut self.states, &mut self.vectors, offset,
                vector.words(), self.data.start, self.data.length, self.scratch.start, self.scratch.length, &mut shown);
        }
        self.note_submitted(&shown, vector)
    }

    pub fn submit_write(&mut self, offset: u64, vector: &Vector) -> Sight {
        let mut shown = [0; 9];
        // SAFETY: as for submit_read.
        unsafe {
            dock_words_submit_write(&self.settings, &mut self.blockers, &mut self.states, &mut self.vectors, offset,
                vector.words(), self.data.start, self.data.length, self.scratch.start, self.scratch.length, &mut shown);
        }
        self.note_submitted(&shown, vector)
    }

    pub fn submit_zeroes(&mut self, allocate: bool, offset: u64, length: u64) -> Sight {
        let mut shown = [0; 9];
        // SAFETY: as for submit_read, without a vector.
        unsafe {
            dock_words_submit_zeroes(&self.settings, &mut self.blockers, &mut self.states, &mut self.vectors,
                u8::from(allocate), offset, length, self.data.start, self.data.length, self.scratch.start,
                self.scratch.length, &mut shown);
        }
        self.note_submitted(&shown, &Vector::new())
    }

    pub fn submit_discard(&mut self, offset: u64, length: u64) -> Sight {
        let mut shown = [0; 9];
        // SAFETY: as for submit_read, without a vector.
        unsafe {
            dock_words_submit_discard(&self.settings, &mut self.blockers, &mut self.states, &mut self.vectors, offset,
                length, self.data.start, self.data.length, self.scratch.start, self.scratch.length, &mut shown);
        }
        self.note_submitted(&shown, &Vector::new())
    }

    /// Hands in a code for a slot whose pieces are here.
    pub(super) fn complete_library(&mut self, slot: usize, code: u8) -> Sight {
        let mut shown = [0; 9];
        // SAFETY: arrays and reply are borrowed; data and scratch have their lengths, and the call touches no byte of
        // them that is out, as the head of raw.rs says, since this slot's pieces are not.
        unsafe {
            dock_words_complete(&self.settings, &mut self.blockers, &mut self.states, &mut self.vectors, slot, code,
                self.data.start, self.data.length, self.scratch.start, self.scratch.length, &mut shown);
        }
        self.note_shown(&shown, slot)
    }

    pub fn show(&mut self, slot: usize) -> Sight {
        let mut shown = [0; 9];
        // SAFETY: arrays and reply are borrowed; the rest are numbers.
        unsafe {
            dock_words_show(&self.settings, &self.blockers, &mut self.states, &mut self.vectors, slot,
                self.data.length, self.scratch.length, &mut shown);
        }
        self.note_shown(&shown, slot)
    }
}

impl Words<'_> {
    /// Hands in a code.
    pub fn complete(&mut self, slot: usize, code: u8) -> Sight {
        self.must_be_here(slot);
        self.complete_library(slot, code)
    }

    /// Notes a job that got a slot: the bytes of its vector are in flight from now on.
    fn note_submitted(&mut self, shown: &ShownWords, vector: &Vector) -> Sight {
        let sight = Sight::answered(shown);
        match sight {
            Sight::Refused(_) | Sight::Answer(_) => {}
            Sight::Waiting(slot) => self.in_flight[slot] = Some(*vector),
            Sight::Make(out) => {
                self.in_flight[out.slot] = Some(*vector);
                self.out[out.slot] = Some(out);
            }
        }
        sight
    }

    /// Notes what a slot shows: a request that is out; of a job that was collected, that it is in flight no more.
    fn note_shown(&mut self, shown: &ShownWords, slot: usize) -> Sight {
        let sight = Sight::answered(shown);
        match sight {
            Sight::Refused(_) => {}
            Sight::Answer(_) => (self.in_flight[slot], self.out[slot]) = (None, None),
            Sight::Waiting(_) => self.out[slot] = None,
            Sight::Make(out) => self.out[slot] = Some(out),
        }
        sight
    }

    /// Address and length of a place.
    pub(super) fn part_at(&self, place: &Place) -> (*mut u8, usize) {
        let buffer = if place.buffer == 0 { &self.data } else { &self.scratch };
        buffer.part(place.start, place.length)
    }

    /// What a combined call has just shown, with the first piece, which is lent for as long as `self` is.
    pub fn shown(&mut self, sight: Sight) -> Shown<'_> {
        let out = match sight {
            Sight::Refused(refusal) => return Shown::Refused(refusal),
            Sight::Answer(answer) => return Shown::Answer(answer),
            Sight::Waiting(slot) => return Shown::Waiting(slot),
            Sight::Make(out) => out,
        };
        assert!(self.out.get(out.slot) == Some(&Some(out)), "the request is not out any more");
        self.must_be_here(out.slot);
        let (start, length) = self.part_at(&out.first);
        let first = match out.request.kind {
            // SAFETY: the part lies in a buffer that is borrowed for 'buf and is a piece of the request that is out;
            // its slot's pieces are not lent, those of others lie elsewhere, and `self` is borrowed alone for as long
            // as the piece.
            Kind::Read => Some(Piece::Fill(unsafe { slice::from_raw_parts_mut(start, length) })),
            // SAFETY: the same, and this one is only looked at, as are those of other writes that share bytes with it.
            Kind::Write => Some(Piece::Take(unsafe { slice::from_raw_parts(start, length) })),
            Kind::Zero | Kind::AllocatedZero | Kind::Discard => None,
        };
        Shown::Make { slot: out.slot, request: out.request, first }
    }
}
