//! Vectors and write blockers behind the C boundary, each alone.
//!
//! Beside what a run compares they watch what the boundary promises and no other side shows: a refused call leaves the words; the
//! words of a vector are those of its segments and no others; what blockers must refuse is refused with 208.

use crate::dock_side::values;
use crate::dock_words::{self, row, BlockerRow, Reply, Row, BLOCKERS};
use crate::document;
use crate::memory::Data;
use crate::side::{Blockers, Halves, Segment, Tail, Vectors, SLOTS};
use std::cell::RefCell;
use std::ops::Range;

/// Faults planted over the library's answers that only the watch can see.
#[derive(Clone, Copy, Debug, PartialEq, Eq)]
pub enum PartSlip {
    /// A refused call changes a word.
    RefusalChanges,
    /// A vector's total is not that of its segments.
    OtherTotal,
    /// A vector has words past its last segment.
    WordPastLast,
}

pub const VECTOR_SLIPS: [PartSlip; 3] = [PartSlip::RefusalChanges, PartSlip::OtherTotal, PartSlip::WordPastLast];

/// What was seen first that the boundary does not allow.
#[derive(Default)]
struct Watch(RefCell<Option<String>>);

impl Watch {
    fn expect(&self, holds: bool, what: impl FnOnce() -> String) {
        if !holds {
            self.0.borrow_mut().get_or_insert_with(what);
        }
    }

    fn fault(&self) -> Option<String> {
        self.0.borrow().clone()
    }
}

/// The dock's vectors over a data buffer at an address that is a multiple of every alignment.
pub struct DockVectors {
    data: Data,
    slip: Option<PartSlip>,
    watch: Watch,
}

fn row_of(v: &[Segment]) -> Row {
    row(v, document::total(v))
}

/// The segments that the first words of a row tell of.
fn segments_of(row: &Row) -> Vec<Segment> {
    let count = row[0].min(16) as usize;
    row[2..].chunks(2).take(count).map(|words| Segment { start: words[0], length: words[1] }).collect()
}

impl DockVectors {
    pub fn new(bytes: &[u8]) -> Self {
        DockVectors { data: Data::new(bytes), slip: None, watch: Watch::default() }
    }

    pub fn slipping(bytes: &[u8], slip: PartSlip) -> Self {
        DockVectors { slip: Some(slip), ..DockVectors::new(bytes) }
    }

    fn length(&self) -> usize {
        self.data.bytes().len()
    }

    fn slip(&self, row: &mut Row, refused: bool) {
        match self.slip {
            Some(PartSlip::RefusalChanges) if refused => row[33] ^= 1,
            Some(PartSlip::OtherTotal) if !refused => row[1] += 1,
            Some(PartSlip::WordPastLast) if !refused && row[0] < 16 => row[33] = 1,
            _ => {}
        }
    }

    /// The segments of a vector that a call gave.
    fn given(&self, call: &str, row: &Row) -> Vec<Segment> {
        let segments = segments_of(row);
        self.watch.expect(*row == row_of(&segments), || format!("{call} gives the words {row:?}"));
        segments
    }

    /// The vector after a call on it, or the call's refusal, which leaves its words.
    fn changed(&self, name: &str, v: &[Segment], call: impl FnOnce(&mut Row, usize) -> u8) -> Result<Vec<Segment>, u8> {
        let before = row_of(v);
        let mut row = before;
        let number = call(&mut row, self.length());
        self.slip(&mut row, number != 0);
        if number == 0 {
            return Ok(self.given(&format!("{v:?} {name}"), &row));
        }
        self.watch.expect(row == before, || format!("{v:?} {name}, refused with {number}, leaves the words {row:?}"));
        Err(number)
    }

    /// The vector after a split of it, which has no reason to refuse a right one, and how many segments were looked at.
    fn split(&self, name: &str, v: &[Segment], call: impl FnOnce(&mut Row, usize) -> Reply) -> (Vec<Segment>, u64) {
        let mut looked = 0;
        let after = self.changed(name, v, |row, length| {
            let reply = call(row, length);
            looked = reply.value[0];
            let done = Reply { number: 0, count: 1, value: [looked, 0, 0, 0] };
            self.watch.expect(reply == done, || format!("{v:?} {name} gives {reply:?}"));
            reply.number as u8
        });
        (after.unwrap_or_default(), looked)
    }

    /// A call that has no reason to refuse a right vector.
    fn accepted(&self, name: &str, v: &[Segment], number: u8) {
        self.watch.expect(number == 0, || format!("{v:?} {name} is refused with {number}"));
    }
}

impl Vectors for DockVectors {
    fn push(&mut self, v: &[Segment], s: Segment) -> Result<Vec<Segment>, u8> {
        self.changed("push", v, |row, length| dock_words::vector_push(row, s, length))
    }

    fn insert(&mut self, v: &[Segment], index: usize, s: Segment) -> Result<Vec<Segment>, u8> {
        self.changed("insert", v, |row, length| dock_words::vector_insert(row, index, s, length))
    }

    fn append(&mut self, v: &[Segment], other: &[Segment]) -> Result<Vec<Segment>, u8> {
        self.changed("append", v, |row, length| dock_words::vector_append(row, &row_of(other), length))
    }

    /// Whatever words the tail has before, it is the tail afterwards.
    fn split_at(&mut self, v: &[Segment], mid: u64) -> Halves {
        let mut tail = [u64::MAX; 34];
        let call = |row: &mut Row, length| dock_words::vector_split_at(row, &mut tail, mid, length);
        let (head, looked) = self.split("split_at", v, call);
        Halves { head, tail: self.given(&format!("{v:?} split_at {mid}, the tail,"), &tail), looked }
    }

    fn split_tail_at(&mut self, v: &[Segment], mid: u64) -> Tail {
        let call = |row: &mut Row, length| dock_words::vector_split_tail_at(row, mid, length);
        let (segments, looked) = self.split("split_tail_at", v, call);
        Tail { segments, looked }
    }

    fn copy_into_slice(&mut self, v: &[Segment], slice: &mut [u8]) -> u8 {
        dock_words::vector_copy_into_slice(&row_of(v), self.data.bytes(), slice)
    }

    fn copy_from_slice(&mut self, v: &[Segment], slice: &[u8]) -> u8 {
        dock_words::vector_copy_from_slice(&row_of(v), self.data.bytes_mut(), slice)
    }

    fn fill(&mut self, v: &[Segment], value: u8) {
        let number = dock_words::vector_fill(&row_of(v), self.data.bytes_mut(), value);
        self.accepted("fill", v, number);
    }

    fn is_aligned(&mut self, v: &[Segment], mem: u64, req: u64) -> bool {
        let data = [self.data.bytes().as_ptr() as u64, self.length() as u64];
        let reply = dock_words::vector_is_aligned(&row_of(v), [mem, req, 1, 1], data);
        let answer = values::<1>(&reply);
        let fits = matches!(answer, Some([0 | 1]));
        self.watch.expect(fits, || format!("{v:?} is_aligned {mem} {req} gives {reply:?}"));
        answer == Some([1])
    }

    fn data(&self) -> &[u8] {
        self.data.bytes()
    }

    fn fault(&self) -> Option<String> {
        self.watch.fault()
    }
}

pub struct DockBlockers {
    words: BlockerRow,
    slip: Option<PartSlip>,
    watch: Watch,
}

impl Default for DockBlockers {
    fn default() -> Self {
        DockBlockers { words: [0; BLOCKERS], slip: None, watch: Watch::default() }
    }
}

impl DockBlockers {
    pub fn slipping(slip: PartSlip) -> Self {
        DockBlockers { slip: Some(slip), ..DockBlockers::default() }
    }

    fn accepted(&mut self, name: &str, slot: usize, call: impl FnOnce(&mut BlockerRow) -> u8) {
        let number = call(&mut self.words);
        self.watch.expect(number == 0, || format!("{name} {slot} is refused with {number}"));
    }

    /// A call that must be refused, and leave the words.
    fn refused(&mut self, name: &str, slot: usize, call: impl FnOnce(&mut BlockerRow) -> u8) {
        let before = self.words;
        let number = call(&mut self.words);
        if self.slip == Some(PartSlip::RefusalChanges) {
            self.words[BLOCKERS - 1] ^= 1;
        }
        let holds = number == document::SLOT && self.words == before;
        let kept = if self.words == before { "kept" } else { "changed" };
        self.watch.expect(holds, || format!("{name} {slot}, to be refused, gives {number}, the words are {kept}"));
    }
}

impl Blockers for DockBlockers {
    /// A slot past the last, and one that has a blocker, are refused.
    fn enter(&mut self, slot: usize, range: Range<u64>, strong: bool) {
        let again = range.clone();
        self.refused("enter", SLOTS, |b| dock_words::blockers_enter(b, strong, SLOTS, again));
        let again = range.clone();
        self.accepted("enter", slot, |b| dock_words::blockers_enter(b, strong, slot, range));
        self.refused("a second enter", slot, |b| dock_words::blockers_enter(b, !strong, slot, again));
    }

    /// A slot past the last waits for none.
    fn waits(&self, slot: usize) -> bool {
        let (answer, past) =
            (dock_words::blockers_wait(&self.words, slot), dock_words::blockers_wait(&self.words, SLOTS));
        self.watch.expect(answer <= 1, || format!("wait {slot} gives {answer}"));
        self.watch.expect(past == 0, || format!("wait {SLOTS} gives {past}"));
        answer == 1
    }

    /// A slot past the last, and one that has no blocker, are refused.
    fn leave(&mut self, slot: usize) {
        self.refused("leave", SLOTS, |b| dock_words::blockers_leave(b, SLOTS));
        self.accepted("leave", slot, |b| dock_words::blockers_leave(b, slot));
        self.refused("a second leave", slot, |b| dock_words::blockers_leave(b, slot));
    }

    fn fault(&self) -> Option<String> {
        self.watch.fault()
    }
}
