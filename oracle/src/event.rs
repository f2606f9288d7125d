//! Events, as a line of a script each: the format of the program `replay`.

use crate::side::{Act, Begin, Job, Lent, Opening, Segment, ROWS};
use std::fmt::{self, Display, Formatter};

#[derive(Clone, Debug, PartialEq, Eq)]
pub enum Event {
    /// By drive row, with the buffers of `replay`.
    OpenRow {
        row: u64,
        bounce: u64,
    },
    /// With any alignments and buffers: scripts have no such line.
    Open(Opening),
    Store {
        offset: u64,
        length: u64,
        byte: u8,
    },
    Data {
        offset: u64,
        length: u64,
        byte: u8,
    },
    Begin(Begin),
    Next(u64),
    Carry {
        slot: u64,
        act: Act,
    },
    Tell {
        slot: u64,
        code: u8,
    },
    Collect(u64),
    /// A begin by the combined call. Scripts have no line for combined calls.
    Submit(Begin),
    /// A tell by the combined call, which also collects.
    Complete {
        slot: u64,
        code: u8,
    },
    /// A next by the combined call, which also collects.
    ShowSlot(u64),
    /// Bytes of the store.
    Show {
        offset: u64,
        length: u64,
    },
}

/// The buffers of `replay`: data of 4096 bytes at address 0, scratch of 131,072 at 65,536.
pub const REPLAY_DATA: u64 = 4096;
/// The most segments that `replay` takes in one event.
pub const REPLAY_SEGMENTS: usize = 17;
pub const REPLAY_STORE: usize = 8192;
const REPLAY_SCRATCH: u64 = 131_072;

/// The opening of a drive row over `replay`'s buffers; a row that does not exist has alignments that do not fit.
pub fn row_opening(row: u64, bounce: u64) -> Opening {
    let align = ROWS.get(row as usize).copied().unwrap_or(crate::imago_side::CLOSED.align);
    Opening {
        align,
        bounce,
        data: Lent { address: 0, length: REPLAY_DATA },
        scratch: Lent { address: 65_536, length: REPLAY_SCRATCH },
    }
}

impl Begin {
    /// A read or a write of segments.
    pub fn vector(job: Job, offset: u64, segments: Vec<Segment>) -> Self {
        Begin { job, offset, length: crate::document::total(&segments), segments }
    }

    /// Zeroes or a discard.
    pub fn range(job: Job, offset: u64, length: u64) -> Self {
        Begin { job, offset, length, segments: Vec::new() }
    }

    /// The begin of a host that pushes these segments: those that touch are joined.
    pub fn pushed(&self) -> Self {
        Begin { segments: crate::document::pushed(&self.segments), ..self.clone() }
    }
}

fn begin_line(b: &Begin, f: &mut Formatter<'_>) -> fmt::Result {
    let word = match b.job {
        Job::Read => "read",
        Job::Write => "write",
        Job::Zeroes => "zero",
        Job::AllocatedZeroes => "alloc",
        Job::Discard => "discard",
    };
    write!(f, "{word} {}", b.offset)?;
    if !b.job.has_vector() {
        return write!(f, " {}", b.length);
    }
    b.segments.iter().try_for_each(|s| write!(f, " {} {}", s.start, s.length))
}

impl Display for Event {
    fn fmt(&self, f: &mut Formatter<'_>) -> fmt::Result {
        match self {
            Event::OpenRow { row, bounce } => write!(f, "open {row} {bounce}"),
            Event::Open(o) => write!(f, "# open {o:?}"),
            Event::Store { offset, length, byte } => write!(f, "store {offset} {length} {byte}"),
            Event::Data { offset, length, byte } => write!(f, "data {offset} {length} {byte}"),
            Event::Begin(b) => begin_line(b, f),
            Event::Next(slot) => write!(f, "next {slot}"),
            Event::Carry { slot, act } => {
                write!(f, "carry {slot} {}", act.code)?;
                act.choice.map_or(Ok(()), |choice| write!(f, " {choice}"))
            }
            Event::Tell { slot, code } => write!(f, "tell {slot} {code}"),
            Event::Collect(slot) => write!(f, "collect {slot}"),
            Event::Submit(b) => {
                f.write_str("# submit ")?;
                begin_line(b, f)
            }
            Event::Complete { slot, code } => write!(f, "# complete {slot} {code}"),
            Event::ShowSlot(slot) => write!(f, "# show slot {slot}"),
            Event::Show { offset, length } => write!(f, "show {offset} {length}"),
        }
    }
}
