//! What is compared: a side takes document 01's events and gives its answers.

use crate::store::Store;

pub const SLOTS: usize = 8;

/// Document 01's M, R, Z, D.
#[derive(Clone, Copy, Debug, PartialEq, Eq)]
pub struct Alignments {
    pub mem: u64,
    pub req: u64,
    pub zero: u64,
    pub discard: u64,
}

impl Alignments {
    pub const fn new(mem: u64, req: u64, zero: u64, discard: u64) -> Self {
        Alignments { mem, req, zero, discard }
    }

    /// L: what a length must be a multiple of.
    pub fn length(&self) -> u64 {
        self.mem.max(self.req)
    }
}

/// Document 01's drive rows.
pub const ROWS: [Alignments; 6] = [
    Alignments::new(1, 1, 1, 1),
    Alignments::new(1, 512, 512, 512),
    Alignments::new(512, 512, 4096, 4096),
    Alignments::new(4096, 4096, 4096, 65536),
    Alignments::new(4096, 512, 512, 512),
    Alignments::new(4096, 512, 4096, 65536),
];

/// Address and length of a lent buffer.
#[derive(Clone, Copy, Debug, PartialEq, Eq)]
pub struct Lent {
    pub address: u64,
    pub length: u64,
}

/// What opening fixes. `bounce` is the length of one job's bounce buffer (document 01: the share).
#[derive(Clone, Copy, Debug, PartialEq, Eq)]
pub struct Opening {
    pub align: Alignments,
    pub bounce: u64,
    pub data: Lent,
    pub scratch: Lent,
}

/// A run of bytes of the data or the scratch.
#[derive(Clone, Copy, Debug, PartialEq, Eq)]
pub struct Segment {
    pub start: u64,
    pub length: u64,
}

#[derive(Clone, Copy, Debug, PartialEq, Eq)]
pub enum Job {
    Read,
    Write,
    Zeroes,
    AllocatedZeroes,
    Discard,
}

impl Job {
    pub fn has_vector(self) -> bool {
        matches!(self, Job::Read | Job::Write)
    }

    pub fn is_zeroes(self) -> bool {
        matches!(self, Job::Zeroes | Job::AllocatedZeroes)
    }
}

/// A begin. `length` is the vector's total for a read and a write.
#[derive(Clone, Debug, PartialEq, Eq)]
pub struct Begin {
    pub job: Job,
    pub offset: u64,
    pub length: u64,
    pub segments: Vec<Segment>,
}

#[derive(Clone, Copy, Debug, PartialEq, Eq)]
pub enum Begun {
    /// No request to make: the job takes no slot.
    Done,
    Slot(usize),
    Refused(u8),
}

#[derive(Clone, Copy, Debug, PartialEq, Eq)]
pub enum Kind {
    Read,
    Write,
    Zero,
    AllocatedZero,
    Discard,
}

/// Where the bytes of a request's piece lie.
#[derive(Clone, Copy, Debug, PartialEq, Eq)]
pub enum Piece {
    Data(Segment),
    Scratch(Segment),
}

#[derive(Clone, Debug, PartialEq, Eq)]
pub struct Request {
    pub kind: Kind,
    pub offset: u64,
    pub length: u64,
    pub pieces: Vec<Piece>,
}

/// What next tells.
#[derive(Clone, Debug, PartialEq, Eq)]
pub enum Due {
    Waiting,
    Make(Request),
    Answer(u8),
    Refused(u8),
}

/// What a combined call shows.
#[derive(Clone, Debug, PartialEq, Eq)]
pub enum Shown {
    Refused(u8),
    /// The final answer, which is collected; or 0 of a job that took no slot.
    Answer(u8),
    Waiting(usize),
    Make(usize, Request),
}

/// How the store carries a request out. The choice decides what the code leaves open.
#[derive(Clone, Copy, Debug, PartialEq, Eq)]
pub struct Act {
    pub code: u8,
    pub choice: Option<u64>,
}

/// Document 01's events over a store, data and scratch of the side's own. Calls answer 0 or a number of document 01's table.
pub trait Side {
    fn open(&mut self, opening: &Opening) -> u8;
    fn begin(&mut self, begin: &Begin) -> Begun;
    fn next(&self, slot: usize) -> Due;
    /// Carries out the request that is out in `slot`; the caller sees to it that there is one, and that it is the first time.
    fn carry(&mut self, slot: usize, act: Act);
    fn tell(&mut self, slot: usize, code: u8) -> u8;
    /// The final answer, or the number of a refusal.
    fn collect(&mut self, slot: usize) -> Result<u8, u8>;

    /// Begins, and shows the job's slot.
    fn submit(&mut self, begin: &Begin) -> Shown {
        begin_and_show(self, begin)
    }

    /// Tells, and shows the slot.
    fn complete(&mut self, slot: usize, code: u8) -> Shown {
        tell_and_show(self, slot, code)
    }

    /// What next tells of the slot; a final answer is collected.
    fn show(&mut self, slot: usize) -> Shown {
        next_or_collect(self, slot)
    }

    fn store(&self) -> &Store;
    fn store_mut(&mut self) -> &mut Store;
    fn data(&self) -> &[u8];
    fn data_mut(&mut self) -> &mut [u8];

    /// What the side itself saw go wrong, where it looks.
    fn fault(&self) -> Option<String> {
        None
    }
}

/// What a submit is, by separate calls.
pub fn begin_and_show(side: &mut (impl Side + ?Sized), begin: &Begin) -> Shown {
    match side.begin(begin) {
        Begun::Refused(refusal) => Shown::Refused(refusal),
        Begun::Done => Shown::Answer(0),
        Begun::Slot(slot) => next_or_collect(side, slot),
    }
}

/// What a complete is, by separate calls.
pub fn tell_and_show(side: &mut (impl Side + ?Sized), slot: usize, code: u8) -> Shown {
    match side.tell(slot, code) {
        0 => next_or_collect(side, slot),
        refusal => Shown::Refused(refusal),
    }
}

/// What a show is, by separate calls.
pub fn next_or_collect(side: &mut (impl Side + ?Sized), slot: usize) -> Shown {
    match side.next(slot) {
        Due::Refused(refusal) => Shown::Refused(refusal),
        Due::Waiting => Shown::Waiting(slot),
        Due::Make(request) => Shown::Make(slot, request),
        Due::Answer(_) => side.collect(slot).map_or_else(Shown::Refused, Shown::Answer),
    }
}

/// Write blockers alone, by slot: a blocker is entered, waits or not, and leaves.
pub trait Blockers {
    fn enter(&mut self, slot: usize, range: std::ops::Range<u64>, strong: bool);
    fn waits(&self, slot: usize) -> bool;
    fn leave(&mut self, slot: usize);

    /// What the side itself saw go wrong, where it looks.
    fn fault(&self) -> Option<String> {
        None
    }
}

/// The two parts of a split, and how many segments the walk to it looks at (document 02, N2).
#[derive(Clone, Debug, PartialEq, Eq)]
pub struct Halves {
    pub head: Vec<Segment>,
    pub tail: Vec<Segment>,
    pub looked: u64,
}

/// The tail alone.
#[derive(Clone, Debug, PartialEq, Eq)]
pub struct Tail {
    pub segments: Vec<Segment>,
    pub looked: u64,
}

/// The calls on a vector of segments of the data; the number of a refusal where there is one.
pub trait Vectors {
    fn push(&mut self, v: &[Segment], s: Segment) -> Result<Vec<Segment>, u8>;
    fn insert(&mut self, v: &[Segment], index: usize, s: Segment) -> Result<Vec<Segment>, u8>;
    fn append(&mut self, v: &[Segment], other: &[Segment]) -> Result<Vec<Segment>, u8>;
    fn split_at(&mut self, v: &[Segment], mid: u64) -> Halves;
    fn split_tail_at(&mut self, v: &[Segment], mid: u64) -> Tail;
    fn copy_into_slice(&mut self, v: &[Segment], slice: &mut [u8]) -> u8;
    fn copy_from_slice(&mut self, v: &[Segment], slice: &[u8]) -> u8;
    fn fill(&mut self, v: &[Segment], value: u8);
    fn is_aligned(&mut self, v: &[Segment], mem: u64, req: u64) -> bool;
    fn data(&self) -> &[u8];

    /// What the side itself saw go wrong, where it looks.
    fn fault(&self) -> Option<String> {
        None
    }
}

/// `pure_write_full_zeroes`: the chunks that it writes, as offset and length, or the number of a refusal.
pub trait Planner {
    fn chunks(&mut self, opening: &Opening, offset: u64, length: u64) -> Result<Vec<(u64, u64)>, u8>;
}
