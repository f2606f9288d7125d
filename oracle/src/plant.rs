//! Planted faults: a side that is wrong in one thing. A run that does not see one shows nothing.

use crate::side::{begin_and_show, next_or_collect, tell_and_show};
use crate::side::{Act, Begin, Begun, Due, Kind, Opening, Piece, Request, Shown, Side, SLOTS};
use crate::store::Store;
use std::ops::Range;

#[derive(Clone, Copy, Debug, PartialEq, Eq)]
pub enum Fault {
    /// A request is one byte longer.
    LongRequest,
    /// A piece lies one byte further on.
    ShiftedPiece,
    /// A failure other than 2 ends a job with 2.
    OtherAnswer,
    /// A refusal 207 is 206.
    OtherRefusal,
    /// A job that waits shows a request.
    NoWait,
    /// A write in slot 1 is shown only once slot 0 is free.
    LongWait,
    /// A write also changes the byte before its range.
    NeighbourByte,
    /// A write told 0 is not on the store.
    LostWrite,
    /// A read leaves one wrong byte in the data.
    WrongRead,
    /// A read leaves two bytes in each other's place.
    SwappedBytes,
    /// After answer 1 only the middle of a zero job is zeroed.
    MiddleOnly,
    /// Answer 1 to a discard ends its job with 1.
    DiscardFails,
    /// A begin names another slot.
    OtherSlot,
    /// A padded write of one block with head and tail reads it once.
    OneRead,
    /// The end of a request from or into scratch is rounded to L, not its length.
    RoundedEnd,
    /// A begin joins segments that touch. Scripts of `replay` have none left that do.
    JoinedBegin,
}

pub const FAULTS: [(&str, Fault); 16] = [
    ("long-request", Fault::LongRequest),
    ("shifted-piece", Fault::ShiftedPiece),
    ("other-answer", Fault::OtherAnswer),
    ("other-refusal", Fault::OtherRefusal),
    ("no-wait", Fault::NoWait),
    ("long-wait", Fault::LongWait),
    ("neighbour-byte", Fault::NeighbourByte),
    ("lost-write", Fault::LostWrite),
    ("wrong-read", Fault::WrongRead),
    ("swapped-bytes", Fault::SwappedBytes),
    ("middle-only", Fault::MiddleOnly),
    ("discard-fails", Fault::DiscardFails),
    ("other-slot", Fault::OtherSlot),
    ("one-read", Fault::OneRead),
    ("rounded-end", Fault::RoundedEnd),
    ("joined-begin", Fault::JoinedBegin),
];

/// A side with a fault, or none.
pub struct Planted<S> {
    side: S,
    fault: Option<Fault>,
    /// L, as opened.
    length_align: u64,
    /// By slot, the middle of a zero job whose zero request was answered 1.
    middles: [Option<Range<u64>>; SLOTS],
    /// By slot, whether a discard was answered 1.
    discards: [bool; SLOTS],
}

impl<S: Side> Planted<S> {
    pub fn new(side: S, fault: Option<Fault>) -> Self {
        Planted { side, fault, length_align: 1, middles: Default::default(), discards: Default::default() }
    }

    fn has(&self, fault: Fault) -> bool {
        self.fault == Some(fault)
    }

    fn request(&self, mut r: Request) -> Request {
        match (self.fault, r.pieces.last_mut()) {
            (Some(Fault::LongRequest), _) => r.length += 1,
            (Some(Fault::ShiftedPiece), Some(Piece::Data(s) | Piece::Scratch(s))) => s.start += 1,
            (Some(Fault::RoundedEnd), Some(Piece::Scratch(_))) => {
                r.length += (r.offset + r.length).wrapping_neg() % self.length_align;
            }
            _ => {}
        }
        r
    }

    /// Final answers, with the fault.
    fn answer(&self, slot: usize, code: u8) -> u8 {
        match self.fault {
            Some(Fault::OtherAnswer) if (3..200).contains(&code) => 2,
            Some(Fault::DiscardFails) if self.discards[slot] => 1,
            _ => code,
        }
    }

    /// The request that is out in `slot`, as the side without fault has it.
    fn out(&self, slot: usize) -> Option<(Kind, Range<u64>)> {
        match self.side.next(slot) {
            Due::Make(r) => Some((r.kind, r.offset..r.offset + r.length)),
            _ => None,
        }
    }

    /// The first byte of the data that a tell changed is changed again, or changes places with the next.
    fn spoil(&mut self, before: &[u8]) {
        let Some(at) = self.side.data().iter().zip(before).position(|(a, b)| a != b) else { return };
        let swaps = self.has(Fault::SwappedBytes) && at + 1 < before.len();
        match self.side.data_mut() {
            data if swaps => data.swap(at, at + 1),
            data => data[at] ^= 1,
        }
    }

    fn note_unsupported(&mut self, slot: usize) {
        match self.out(slot) {
            Some((Kind::Zero | Kind::AllocatedZero, range)) => self.middles[slot] = Some(range),
            Some((Kind::Discard, _)) => self.discards[slot] = true,
            _ => {}
        }
    }
}

fn disjoint(a: &Range<u64>, b: &Range<u64>) -> bool {
    a.end <= b.start || b.end <= a.start
}

impl<S: Side> Side for Planted<S> {
    fn open(&mut self, opening: &Opening) -> u8 {
        self.length_align = opening.align.length();
        self.side.open(opening)
    }

    fn begin(&mut self, begin: &Begin) -> Begun {
        let joined = self.has(Fault::JoinedBegin).then(|| begin.pushed());
        match self.side.begin(joined.as_ref().unwrap_or(begin)) {
            Begun::Refused(207) if self.has(Fault::OtherRefusal) => Begun::Refused(206),
            Begun::Slot(slot) => {
                (self.middles[slot], self.discards[slot]) = (None, false);
                Begun::Slot(if self.has(Fault::OtherSlot) { SLOTS - 1 - slot } else { slot })
            }
            begun => begun,
        }
    }

    fn next(&self, slot: usize) -> Due {
        match self.side.next(slot) {
            Due::Waiting if self.has(Fault::NoWait) => {
                Due::Make(Request { kind: Kind::Discard, offset: 0, length: 1, pieces: Vec::new() })
            }
            Due::Make(r) if self.has(Fault::LongWait) && slot == 1 && r.kind == Kind::Write => {
                match self.side.next(0) {
                    Due::Refused(_) => Due::Make(r),
                    _ => Due::Waiting,
                }
            }
            Due::Make(r) => Due::Make(self.request(r)),
            Due::Answer(code) => Due::Answer(self.answer(slot, code)),
            due => due,
        }
    }

    fn carry(&mut self, slot: usize, act: Act) {
        let Some((kind, range)) = self.out(slot) else { return };
        let outside = self.middles[slot].as_ref().is_some_and(|middle| disjoint(middle, &range));
        let is_lost = self.has(Fault::LostWrite) || (self.has(Fault::MiddleOnly) && outside);
        let before = (kind == Kind::Write && is_lost).then(|| self.side.store().clone());
        self.side.carry(slot, act);
        if let Some(store) = before {
            *self.side.store_mut() = store;
        }
        if kind == Kind::Write && self.has(Fault::NeighbourByte) {
            self.side.store_mut().each(range.start.saturating_sub(1), 1, |_, b| *b ^= 1);
        }
    }

    fn tell(&mut self, slot: usize, code: u8) -> u8 {
        let out = self.out(slot);
        if code == 1 {
            self.note_unsupported(slot);
        }
        let spoils = self.has(Fault::WrongRead) || self.has(Fault::SwappedBytes);
        let before = spoils.then(|| self.side.data().to_vec());
        let told = self.side.tell(slot, code);
        if let Some(before) = before {
            self.spoil(&before);
        }
        if self.has(Fault::OneRead) && told == 0 && matches!(out, Some((Kind::Read, _))) && self.out(slot) == out {
            self.side.carry(slot, Act { code: 0, choice: None });
            self.side.tell(slot, 0);
        }
        told
    }

    fn collect(&mut self, slot: usize) -> Result<u8, u8> {
        self.side.collect(slot).map(|code| self.answer(slot, code))
    }

    /// The side's own call; with a fault its separate calls, which have it.
    fn submit(&mut self, begin: &Begin) -> Shown {
        match self.fault {
            None => self.side.submit(begin),
            Some(_) => begin_and_show(self, begin),
        }
    }

    fn complete(&mut self, slot: usize, code: u8) -> Shown {
        match self.fault {
            None => self.side.complete(slot, code),
            Some(_) => tell_and_show(self, slot, code),
        }
    }

    fn show(&mut self, slot: usize) -> Shown {
        match self.fault {
            None => self.side.show(slot),
            Some(_) => next_or_collect(self, slot),
        }
    }

    fn store(&self) -> &Store {
        self.side.store()
    }

    fn store_mut(&mut self) -> &mut Store {
        self.side.store_mut()
    }

    fn data(&self) -> &[u8] {
        self.side.data()
    }

    fn data_mut(&mut self) -> &mut [u8] {
        self.side.data_mut()
    }

    fn fault(&self) -> Option<String> {
        self.side.fault()
    }
}
