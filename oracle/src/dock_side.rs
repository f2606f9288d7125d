//! The dock behind its C boundary, in this process.
//!
//! Beside what a run compares, the side watches what the boundary promises and no other side shows: a refused call leaves the dock's
//! words; buffers of another length are refused with 205; a piece that a request lacks with 208; a call changes the scratch in its
//! job's share alone; pushes of a begin's segments leave the joined list; a combined call writes all words of what it shows, and a show
//! that collects nothing changes nothing.

use crate::dock_scratch::Scratch;
use crate::dock_words::{
    self, load_table, row, Lengths, Reply, Row, Words, ANSWERED, NO_NUMBER, OUT, REFUSED, UNSHOWN, WAITING,
};
use crate::document;
use crate::imago_side::CLOSED;
use crate::memory::Data;
use crate::side::{
    Act, Begin, Begun, Due, Job, Kind, Lent, Opening, Piece, Planner, Request, Segment, Shown, Side, ROWS, SLOTS,
};
use crate::store::{Content, Store};
use std::cell::RefCell;
use std::mem;
use std::ops::Range;

/// Addresses from here on are numbers that no memory of this process has.
const NO_MEMORY: u64 = 1 << 63;

/// Buffers of other lengths are lent beside one call in so many.
const PROBE_EVERY: u64 = 16;

/// Faults planted over the library's answers that only the watch can see.
#[derive(Clone, Copy, Debug, PartialEq, Eq)]
pub enum Slip {
    /// A refused tell changes a word of the dock.
    RefusalChanges,
    /// Buffers of other lengths are taken.
    AnyLength,
    /// The piece after the last is the first again.
    PieceTooMany,
    /// A tell changes the last byte of the next slot's share.
    NextShare,
    /// Pushes leave segments that touch apart.
    PushedApart,
    /// A push of a segment that is empty is taken, and changes nothing.
    EmptyPush,
    /// A complete shows the next request one byte further on.
    ShiftedComplete,
    /// A show gives the final answer and does not collect.
    ShowKeeps,
    /// A complete leaves what reads yield out of the data.
    CompleteKeepsData,
    /// A submit shows the first piece one byte further on.
    ShiftedFirst,
    /// A show of a slot that waits leaves a word of an earlier one.
    StaleWord,
}

pub const SLIPS: [Slip; 11] = [
    Slip::RefusalChanges,
    Slip::AnyLength,
    Slip::PieceTooMany,
    Slip::NextShare,
    Slip::PushedApart,
    Slip::EmptyPush,
    Slip::ShiftedComplete,
    Slip::ShowKeeps,
    Slip::CompleteKeepsData,
    Slip::ShiftedFirst,
    Slip::StaleWord,
];

pub struct DockSide {
    words: Words,
    data: Data,
    /// Taken only when dropped.
    scratch: Option<Scratch>,
    opening: Opening,
    opened: u8,
    store: Store,
    calls: u64,
    slip: Option<Slip>,
    /// What the side saw that the boundary does not allow.
    fault: RefCell<Option<String>>,
}

fn kind_of(number: u64) -> Option<Kind> {
    [Kind::Read, Kind::Write, Kind::Zero, Kind::AllocatedZero, Kind::Discard].get(number as usize).copied()
}

/// Whether a number of next or collect is a refusal, and not a final answer.
fn is_refusal(number: u8) -> bool {
    number == document::BUFFER || number == document::SLOT
}

pub(crate) fn values<const N: usize>(reply: &Reply) -> Option<[u64; N]> {
    let fits = reply.number == NO_NUMBER && reply.count == N as u64;
    fits.then(|| std::array::from_fn(|i| reply.value[i]))
}

fn number(reply: &Reply) -> Option<u8> {
    (reply.number < NO_NUMBER && reply.count == 0).then_some(reply.number as u8)
}

fn align_of(o: &Opening) -> [u64; 4] {
    [o.align.mem, o.align.req, o.align.zero, o.align.discard]
}

fn begun(words: &mut Words, begin: &Begin, data: &[u8], scratch: &mut [u8]) -> Reply {
    let (offset, length) = (begin.offset, begin.length);
    match begin.job {
        Job::Read => words.begin_read(offset, &row(&begin.segments, length), data, scratch),
        Job::Write => words.begin_write(offset, &row(&begin.segments, length), data, scratch),
        Job::Zeroes => words.begin_zeroes(false, offset, length, data, scratch),
        Job::AllocatedZeroes => words.begin_zeroes(true, offset, length, data, scratch),
        Job::Discard => words.begin_discard(offset, length, data, scratch),
    }
}

fn submitted(words: &mut Words, begin: &Begin, data: &[u8], scratch: &mut [u8]) -> dock_words::Shown {
    let (offset, length) = (begin.offset, begin.length);
    let mut shown = UNSHOWN;
    match begin.job {
        Job::Read => words.submit_read(offset, &row(&begin.segments, length), data, scratch, &mut shown),
        Job::Write => words.submit_write(offset, &row(&begin.segments, length), data, scratch, &mut shown),
        Job::Zeroes => words.submit_zeroes(false, [offset, length], data, scratch, &mut shown),
        Job::AllocatedZeroes => words.submit_zeroes(true, [offset, length], data, scratch, &mut shown),
        Job::Discard => words.submit_discard([offset, length], data, scratch, &mut shown),
    }
    shown
}

/// What a combined call shows where it refuses.
fn shown_refusal(number: u8) -> dock_words::Shown {
    [REFUSED, number.into(), 0, 0, 0, 0, 0, 0, 0]
}

impl DockSide {
    pub fn new(content: &Content) -> Self {
        let mut side = DockSide {
            words: Words::default(),
            data: Data::new(&content.data),
            scratch: Some(Scratch::take()),
            opening: CLOSED,
            opened: 0,
            store: content.store.clone(),
            calls: 0,
            slip: None,
            fault: RefCell::new(None),
        };
        let data = Lent { address: 0, length: content.data.len() as u64 };
        side.open(&Opening { data, ..CLOSED });
        side
    }

    pub fn slipping(content: &Content, slip: Slip) -> Self {
        let mut side = DockSide::new(content);
        side.slip = Some(slip);
        side
    }

    fn scratch(&self) -> &Scratch {
        self.scratch.as_ref().expect("it is there until the side is dropped")
    }

    fn scratch_mut(&mut self) -> &mut Scratch {
        self.scratch.as_mut().expect("it is there until the side is dropped")
    }

    /// What calls are lent; nothing before a dock is opened, as the words, which are zeroes then, have it.
    fn lengths(&self) -> Lengths {
        if self.opened != 0 {
            return (0, 0);
        }
        (self.data.bytes().len(), self.scratch().bytes().len())
    }

    /// The lengths with one of them another, which the calls must refuse.
    fn other_lengths(&self) -> [Lengths; 2] {
        let (data, scratch) = self.lengths();
        [(data - 1, scratch), (data, scratch - 1)]
    }

    fn complain(&self, what: String) {
        self.fault.borrow_mut().get_or_insert(what);
    }

    fn expect(&self, holds: bool, what: impl FnOnce() -> String) {
        if !holds {
            self.complain(what());
        }
    }

    fn share(&self, slot: usize) -> Range<usize> {
        let share = self.opening.bounce as usize;
        slot * share..(slot + 1) * share
    }

    /// Opening by row must leave the same words and give the same number; a row past the last is unfit, and leaves the words.
    fn check_rows(&self, share: u64, buffers: [u64; 4]) {
        let mut other = Words::default();
        if let Some(row) = ROWS.iter().position(|a| *a == self.opening.align) {
            let opened = other.open_row(row, share, buffers);
            self.expect(opened == self.opened && other == self.words, || format!("row {row} opens otherwise"));
        }
        let before = other.clone();
        let none = other.open_row(ROWS.len(), share, buffers);
        self.expect(none == document::UNFIT, || format!("row {} opens with {none}", ROWS.len()));
        self.expect(other == before, || "a refused opening by row changed the dock".to_owned());
    }

    /// Opening by a row of a loaded table must do as opening with its alignments does: the row stands at the place that its share
    /// picks, behind others. Where the alignments do not fit, the table is refused with 212.
    fn check_loaded(&self, align: [u64; 4], share: u64, buffers: [u64; 4]) {
        let record = |align: [u64; 4]| {
            let body = align.map(|a| u32::try_from(a).unwrap_or(u32::MAX).to_le_bytes());
            [&[18, 0, 1, 0], &body.concat()[..]].concat()
        };
        let row = share as usize % 64;
        let bytes = [record([1, 512, 512, 512]).repeat(row), record(align)].concat();
        let mut table = [u64::MAX; 257];
        let loaded = load_table(&mut table, &bytes);
        let fits = align.iter().all(|a| a.is_power_of_two() && *a <= 65_536);
        self.expect(loaded == if fits { 0 } else { document::ROW }, || {
            format!("a table with {align:?} loads as {loaded}")
        });
        if !fits {
            self.expect(table == [u64::MAX; 257], || "a refused load changed the table".to_owned());
            return;
        }
        let mut other = Words::default();
        let opened = other.open_table(&table, row, share, buffers);
        let same = other == if self.opened == 0 { self.words.clone() } else { Words::default() };
        self.expect(opened == self.opened && same, || format!("row {row} of a loaded table opens otherwise"));
        let before = other.clone();
        let none = other.open_table(&table, row + 1, share, buffers);
        self.expect(none == document::UNFIT && other == before, || {
            format!("row {} past a table opens with {none}", row + 1)
        });
    }

    /// Calls that lend buffers of other lengths: each is refused with 205, and the words stay.
    fn probe(&mut self, begin: Option<&Begin>) {
        self.calls += 1;
        if self.opened != 0 || !self.calls.is_multiple_of(PROBE_EVERY) {
            return;
        }
        let before = self.words.clone();
        for lengths in self.other_lengths() {
            for slot in 0..=SLOTS {
                let due = [self.words.next(slot, lengths), self.words.piece(slot, 0, lengths)];
                let refused = due.iter().all(|r| number(r) == Some(document::BUFFER));
                self.expect(refused, || format!("slot {slot}, lengths {lengths:?}: next and piece give {due:?}"));
                let (told, collected) = (self.tell_with(slot, 0, lengths), self.words.collect(slot, lengths));
                let refused = told == document::BUFFER && collected == document::BUFFER;
                self.expect(refused, || format!("slot {slot}, lengths {lengths:?}: tell {told}, collect {collected}"));
                let shown = [self.complete_with(slot, 0, lengths), self.show_with(slot, lengths)];
                let refused = shown == [shown_refusal(document::BUFFER); 2];
                self.expect(refused, || format!("slot {slot}, lengths {lengths:?}: complete and show give {shown:?}"));
            }
            let refused = begin.map(|b| (self.begin_with(b, lengths), self.submit_with(b, lengths)));
            let fits = refused.as_ref().is_none_or(|(begun, shown)| {
                number(begun) == Some(document::BUFFER) && *shown == shown_refusal(document::BUFFER)
            });
            self.expect(fits, || format!("lengths {lengths:?}: begin and submit give {refused:?}"));
        }
        self.expect(self.words == before, || "a call refused with 205 changed the dock".to_owned());
    }

    fn begin_with(&mut self, begin: &Begin, lengths: Lengths) -> Reply {
        let scratch = self.scratch.as_mut().expect("it is there until the side is dropped").bytes_mut();
        begun(&mut self.words, begin, &self.data.bytes()[..lengths.0], &mut scratch[..lengths.1])
    }

    fn submit_with(&mut self, begin: &Begin, lengths: Lengths) -> dock_words::Shown {
        let scratch = self.scratch.as_mut().expect("it is there until the side is dropped").bytes_mut();
        let mut shown = submitted(&mut self.words, begin, &self.data.bytes()[..lengths.0], &mut scratch[..lengths.1]);
        if self.slip == Some(Slip::ShiftedFirst) && shown[0] == OUT && shown[5] > 0 {
            shown[7] += 1;
        }
        shown
    }

    fn complete_with(&mut self, slot: usize, code: u8, lengths: Lengths) -> dock_words::Shown {
        let kept = (self.slip == Some(Slip::CompleteKeepsData)).then(|| self.data.bytes().to_vec());
        let scratch = self.scratch.as_mut().expect("it is there until the side is dropped").bytes_mut();
        let data = &mut self.data.bytes_mut()[..lengths.0];
        let mut shown = UNSHOWN;
        self.words.complete(slot, code, data, &mut scratch[..lengths.1], &mut shown);
        if let Some(kept) = kept {
            self.data.bytes_mut().copy_from_slice(&kept);
        }
        if self.slip == Some(Slip::ShiftedComplete) && shown[0] == OUT {
            shown[3] += 1;
        }
        shown
    }

    fn show_with(&mut self, slot: usize, lengths: Lengths) -> dock_words::Shown {
        let before = self.words.clone();
        let mut shown = UNSHOWN;
        self.words.show(slot, lengths, &mut shown);
        match self.slip {
            Some(Slip::ShowKeeps) => self.words = before,
            Some(Slip::StaleWord) => shown[8] |= u64::from(shown[0] == WAITING),
            _ => {}
        }
        shown
    }

    /// What a combined call shows; a fault where its nine words are no such thing. Pieces past the first are asked for.
    fn seen(&self, call: &str, shown: dock_words::Shown) -> Shown {
        let [what, number, kind, offset, length, pieces, buffer, start, bytes] = shown;
        let rest = [kind, offset, length, pieces, buffer, start, bytes];
        let says_all = match what {
            OUT => number < SLOTS as u64 && (pieces > 0 || rest[4..] == [0; 3]),
            WAITING => number < SLOTS as u64 && rest == [0; 7],
            _ => what <= ANSWERED && number < NO_NUMBER && rest == [0; 7],
        };
        self.expect(says_all, || format!("{call} shows {shown:?}"));
        match what {
            OUT => self.seen_request(number as usize, &shown),
            WAITING => Shown::Waiting(number as usize),
            ANSWERED => Shown::Answer(number as u8),
            _ => Shown::Refused(number as u8),
        }
    }

    fn seen_request(&self, slot: usize, shown: &dock_words::Shown) -> Shown {
        let [_, _, kind, offset, length, pieces, buffer, start, bytes] = *shown;
        let first = Segment { start, length: bytes };
        let first = if buffer == 0 { Piece::Data(first) } else { Piece::Scratch(first) };
        let others = (1..pieces as usize).filter_map(|i| self.piece(slot, i));
        let pieces = (pieces > 0).then_some(first).into_iter().chain(others).collect();
        self.expect(buffer <= 1, || format!("slot {slot}: a piece in buffer {buffer}"));
        match kind_of(kind) {
            Some(kind) => Shown::Make(slot, Request { kind, offset, length, pieces }),
            None => {
                self.complain(format!("slot {slot}: a request of kind {kind}"));
                Shown::Refused(0)
            }
        }
    }

    fn tell_with(&mut self, slot: usize, code: u8, lengths: Lengths) -> u8 {
        let lengths = if self.slip == Some(Slip::AnyLength) { self.lengths() } else { lengths };
        let next_share = self.share(slot.min(SLOTS) + 1);
        let scratch = self.scratch.as_mut().expect("it is there until the side is dropped").bytes_mut();
        let told = self.words.tell(slot, code, &mut self.data.bytes_mut()[..lengths.0], &mut scratch[..lengths.1]);
        match self.slip {
            Some(Slip::RefusalChanges) if told != 0 => self.words.disturb(),
            Some(Slip::NextShare) if told == 0 && slot + 1 < SLOTS => scratch[next_share.end - 1] ^= 1,
            _ => {}
        }
        told
    }

    /// Where a piece lies; a fault, and nothing, where the boundary gives no such place.
    fn piece(&self, slot: usize, i: usize) -> Option<Piece> {
        let reply = self.words.piece(slot, i, self.lengths());
        let piece = values::<3>(&reply).and_then(|[buffer, start, length]| match buffer {
            0 => Some(Piece::Data(Segment { start, length })),
            1 => Some(Piece::Scratch(Segment { start, length })),
            _ => None,
        });
        self.expect(piece.is_some(), || format!("slot {slot}: piece {i} is {reply:?}"));
        piece
    }

    /// A piece that a slot's request lacks is refused.
    fn lacks(&self, slot: usize, i: usize) {
        let i = if self.slip == Some(Slip::PieceTooMany) { 0 } else { i };
        let reply = self.words.piece(slot, i, self.lengths());
        let refused = number(&reply) == Some(document::SLOT);
        self.expect(refused, || format!("slot {slot}: piece {i}, which it lacks, is {reply:?}"));
    }

    fn request(&self, slot: usize, [kind, offset, length, count]: [u64; 4]) -> Due {
        let pieces = (0..count as usize).filter_map(|i| self.piece(slot, i)).collect();
        self.lacks(slot, count as usize);
        match kind_of(kind) {
            Some(kind) => Due::Make(Request { kind, offset, length, pieces }),
            None => {
                self.complain(format!("slot {slot}: a request of kind {kind}"));
                Due::Refused(0)
            }
        }
    }

    /// A push of the library's, and the slips of it.
    fn push(&self, words: &mut Row, s: Segment) -> u8 {
        if self.slip == Some(Slip::EmptyPush) && s.length == 0 {
            return 0;
        }
        dock_words::vector_push(words, s, self.data.bytes().len())
    }

    /// Pushes of a begin's segments, one after the other, leave the words of the joined list; where that is no vector
    /// over the data, one of them is refused.
    fn check_pushes(&self, segments: &[Segment]) {
        let joined = document::pushed(segments);
        let mut words = [0; 34];
        let refused = segments.iter().map(|s| self.push(&mut words, *s)).find(|number| *number != 0);
        if self.slip == Some(Slip::PushedApart) && refused.is_none() {
            words = row(segments, document::total(segments));
        }
        let fits = match document::vector(&joined, self.data.bytes().len() as u64) {
            0 => refused.is_none() && words == row(&joined, document::total(&joined)),
            refusal => refused == Some(refusal),
        };
        self.expect(fits, || format!("pushes of {segments:?}: refused {refused:?}, the words {words:?}"));
    }

    /// The bytes that a job may change in its share before a request of it shows them: those of a write, padding included.
    fn note_use(&mut self, slot: usize, begin: &Begin) {
        let share = self.share(slot);
        let most = begin.length.saturating_add(4 * self.opening.align.length()).min(self.opening.bounce);
        if begin.job.has_vector() {
            self.scratch_mut().note(slot, share.start..share.start + most as usize);
        }
    }

    fn note_pieces(&mut self, slot: usize, request: &Request) {
        for piece in &request.pieces {
            if let Piece::Scratch(s) = piece {
                self.scratch_mut().note(slot, s.start as usize..(s.start + s.length) as usize);
            }
        }
    }

    fn check_scratch(&self, slot: usize, copy: Option<Vec<u8>>) {
        let Some(copy) = copy else { return };
        let kept = self.scratch().kept_outside(self.share(slot), &copy);
        self.expect(kept, || format!("slot {slot}: a call changed bytes outside its share"));
    }
}

fn range_of(s: &Segment) -> Range<usize> {
    s.start as usize..(s.start + s.length) as usize
}

impl Side for DockSide {
    fn open(&mut self, o: &Opening) -> u8 {
        self.data.move_to(o.data.address);
        self.scratch_mut().place(o.scratch.address, o.scratch.length);
        let address = |listed: u64, own: u64| if listed < NO_MEMORY { own } else { listed };
        let data = address(o.data.address, self.data.bytes().as_ptr() as u64);
        let scratch = address(o.scratch.address, self.scratch().address());
        let buffers = [data, o.data.length, scratch, o.scratch.length];
        let before = self.words.clone();
        self.opened = self.words.open(align_of(o), o.bounce, buffers);
        self.expect(self.opened == 0 || self.words == before, || "a refused opening changed the dock".to_owned());
        self.opening = *o;
        self.check_rows(o.bounce, buffers);
        self.check_loaded(align_of(o), o.bounce, buffers);
        self.opened
    }

    fn begin(&mut self, begin: &Begin) -> Begun {
        self.probe(Some(begin));
        self.check_pushes(&begin.segments);
        let before = self.words.clone();
        let copy = self.scratch_mut().look();
        let reply = self.begin_with(begin, self.lengths());
        if let Some([slot]) = values::<1>(&reply) {
            let slot = slot as usize;
            self.expect(slot < SLOTS, || format!("begin gives slot {slot}"));
            self.note_use(slot.min(SLOTS - 1), begin);
            self.check_scratch(slot.min(SLOTS - 1), copy);
            return Begun::Slot(slot);
        }
        self.expect(self.words == before, || "a begin that takes no slot changed the dock".to_owned());
        match number(&reply) {
            Some(0) => Begun::Done,
            // No dock was opened. Zeroes are unfit; the list goes on with what opening was refused for.
            Some(document::UNFIT) if self.opened != 0 => Begun::Refused(self.opened),
            Some(refusal) => Begun::Refused(refusal),
            None => {
                self.complain(format!("begin gives {reply:?}"));
                Begun::Refused(0)
            }
        }
    }

    fn next(&self, slot: usize) -> Due {
        let reply = self.words.next(slot, self.lengths());
        if let Some(request) = values::<4>(&reply) {
            return self.request(slot, request);
        }
        self.lacks(slot, 0);
        match (number(&reply), values::<0>(&reply)) {
            (_, Some([])) => Due::Waiting,
            (Some(refusal), _) if is_refusal(refusal) => Due::Refused(refusal),
            (Some(answer), _) => Due::Answer(answer),
            _ => {
                self.complain(format!("slot {slot}: next gives {reply:?}"));
                Due::Refused(0)
            }
        }
    }

    fn carry(&mut self, slot: usize, act: Act) {
        let Due::Make(r) = self.next(slot) else { panic!("a request is out") };
        self.note_pieces(slot, &r);
        match r.kind {
            Kind::Zero | Kind::AllocatedZero => return self.store.zero(r.offset, r.length, act),
            Kind::Discard => return self.store.discard(r.offset, r.length, act),
            Kind::Read | Kind::Write => {}
        }
        let mut at = r.offset;
        for piece in &r.pieces {
            let bytes = match piece {
                Piece::Data(s) => &mut self.data.bytes_mut()[range_of(s)],
                Piece::Scratch(s) => {
                    let scratch = self.scratch.as_mut().expect("it is there until the side is dropped");
                    &mut scratch.bytes_mut()[range_of(s)]
                }
            };
            match r.kind {
                Kind::Read => self.store.read(at, act, bytes),
                _ => self.store.write(at, act, bytes),
            }
            at += bytes.len() as u64;
        }
    }

    fn tell(&mut self, slot: usize, code: u8) -> u8 {
        self.probe(None);
        let before = self.words.clone();
        let copy = self.scratch_mut().look();
        let told = self.tell_with(slot, code, self.lengths());
        if told == 0 {
            self.check_scratch(slot, copy);
        } else {
            self.expect(self.words == before, || format!("a tell refused with {told} changed the dock"));
        }
        told
    }

    fn collect(&mut self, slot: usize) -> Result<u8, u8> {
        self.probe(None);
        let before = self.words.clone();
        let answer = self.words.collect(slot, self.lengths());
        if !is_refusal(answer) {
            return Ok(answer);
        }
        self.expect(self.words == before, || format!("a collect refused with {answer} changed the dock"));
        Err(answer)
    }

    fn submit(&mut self, begin: &Begin) -> Shown {
        self.probe(Some(begin));
        self.check_pushes(&begin.segments);
        let before = self.words.clone();
        let copy = self.scratch_mut().look();
        let shown = self.submit_with(begin, self.lengths());
        let seen = self.seen("submit", shown);
        if let Shown::Waiting(slot) | Shown::Make(slot, _) = seen {
            self.note_use(slot.min(SLOTS - 1), begin);
            self.check_scratch(slot.min(SLOTS - 1), copy);
            return seen;
        }
        self.expect(self.words == before, || "a submit that takes no slot changed the dock".to_owned());
        match seen {
            // As for a begin.
            Shown::Refused(document::UNFIT) if self.opened != 0 => Shown::Refused(self.opened),
            other => other,
        }
    }

    fn complete(&mut self, slot: usize, code: u8) -> Shown {
        self.probe(None);
        let before = self.words.clone();
        let copy = self.scratch_mut().look();
        let shown = self.complete_with(slot, code, self.lengths());
        if shown[0] == REFUSED {
            self.expect(self.words == before, || format!("a complete that shows {shown:?} changed the dock"));
        } else {
            self.check_scratch(slot, copy);
        }
        self.seen("complete", shown)
    }

    fn show(&mut self, slot: usize) -> Shown {
        self.probe(None);
        let before = self.words.clone();
        let shown = self.show_with(slot, self.lengths());
        if shown[0] != ANSWERED {
            self.expect(self.words == before, || format!("a show of {shown:?} changed the dock"));
        }
        self.seen("show", shown)
    }

    fn store(&self) -> &Store {
        &self.store
    }

    fn store_mut(&mut self) -> &mut Store {
        &mut self.store
    }

    fn data(&self) -> &[u8] {
        self.data.bytes()
    }

    fn data_mut(&mut self) -> &mut [u8] {
        self.data.bytes_mut()
    }

    fn fault(&self) -> Option<String> {
        self.fault.borrow().clone()
    }
}

impl Drop for DockSide {
    fn drop(&mut self) {
        if let Some(scratch) = mem::take(&mut self.scratch) {
            scratch.give_back();
        }
    }
}

/// The planner behind the C boundary.
pub struct DockPlanner;

impl Planner for DockPlanner {
    fn chunks(&mut self, o: &Opening, offset: u64, length: u64) -> Result<Vec<(u64, u64)>, u8> {
        let mut words = Words::default();
        words.open(align_of(o), o.bounce, [0, 0, 0, SLOTS as u64 * o.bounce]);
        let reply = words.chunks(offset, length);
        let Some([count]) = values::<1>(&reply) else {
            return Err(number(&reply).expect("a count or a number"));
        };
        let chunk = |i: u64| values::<2>(&words.chunk(offset, length, i)).expect("a chunk where there is a count");
        for i in [count, count + 1, u64::MAX] {
            assert_eq!(chunk(i), [offset + length, 0], "chunk {i} of {count}");
        }
        Ok((0..count).map(|i| chunk(i).into()).collect())
    }
}
