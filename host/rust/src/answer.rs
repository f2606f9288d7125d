//! What calls on the dock answer.

use crate::raw::Reply;
use crate::refusal::Refusal;

/// What a begin comes to.
#[derive(Clone, Copy, Debug, PartialEq, Eq)]
pub enum Begun {
    /// No request to make: the job is done and takes no slot.
    Done,
    /// In flight in this slot, until it is collected.
    Slot(usize),
}

/// What the job in a slot needs now.
#[derive(Clone, Copy, Debug, PartialEq, Eq)]
pub enum Due {
    /// It waits for a job in another slot.
    Waiting,
    /// This request is out: the store carries it out once, and its code is told.
    Make(Request),
    /// It has ended; collect gives the same answer and frees the slot.
    Answer(Answer),
}

/// What a combined call shows: [`crate::Dock::submit_read`] and its like, [`crate::Dock::complete`],
/// [`crate::Dock::show`].
#[derive(Debug, PartialEq, Eq)]
pub enum Shown<'a> {
    /// The call was refused, and has changed nothing.
    Refused(Refusal),
    /// The job has ended with this answer, which is collected: it has no slot any more, or took none.
    Answer(Answer),
    /// The job in this slot waits for one in another slot. Show it again once another job was completed.
    Waiting(usize),
    /// A request is out: the store carries it out once, and then its code completes it.
    Make {
        /// The slot of its job.
        slot: usize,
        /// The request.
        request: Request,
        /// Its first piece, lent until the next call on the dock; None where it has no pieces. [`crate::Dock::piece`]
        /// hands out the others, from 1 on.
        first: Option<Piece<'a>>,
    },
}

/// What a request asks of the store.
#[derive(Clone, Copy, Debug, PartialEq, Eq)]
pub enum Kind {
    /// Read into the pieces, one after the other.
    Read,
    /// Write from the pieces, one after the other.
    Write,
    /// Make the range read as zeroes.
    Zero,
    /// Make the range read as zeroes, and keep it allocated.
    AllocatedZero,
    /// Forget the range's content.
    Discard,
}

/// A request: aligned as the drive asks for it.
#[derive(Clone, Copy, Debug, PartialEq, Eq)]
pub struct Request {
    /// What to do.
    pub kind: Kind,
    /// Where on the store it starts.
    pub offset: u64,
    /// How many bytes of the store it is about.
    pub length: u64,
    /// How many pieces a read or a write has; the other kinds have none.
    pub pieces: usize,
}

/// A job's final answer.
#[derive(Clone, Copy, Debug, PartialEq, Eq)]
pub enum Answer {
    /// 0: done.
    Done,
    /// 1: the store does not support a request for which no fallback is named.
    Unsupported,
    /// 2 to 199: a request failed with this code.
    Failed(u8),
    /// 207: a later stage of a zero job has no offsets left; what it wrote before stays written.
    Overflow,
}

/// A piece of the request that is out: a part of the data or of the scratch, lent until the next call on the dock.
#[derive(Debug, PartialEq, Eq)]
pub enum Piece<'a> {
    /// Of a read: the store puts its bytes here.
    Fill(&'a mut [u8]),
    /// Of a write: the store takes its bytes from here.
    Take(&'a [u8]),
}

/// A chunk of the planner's.
#[derive(Clone, Copy, Debug, PartialEq, Eq)]
pub struct Chunk {
    /// Where on the store it starts.
    pub offset: u64,
    /// How many bytes it has.
    pub length: u64,
}

impl Answer {
    /// Document 01's number for it.
    pub fn number(self) -> u8 {
        match self {
            Answer::Done => 0,
            Answer::Unsupported => 1,
            Answer::Failed(code) => code,
            Answer::Overflow => 207,
        }
    }

    /// The answer that a number names; None where it names none.
    pub(crate) fn of(number: u64) -> Option<Answer> {
        match number {
            0 => Some(Answer::Done),
            1 => Some(Answer::Unsupported),
            2..=199 => Some(Answer::Failed(number as u8)),
            207 => Some(Answer::Overflow),
            _ => None,
        }
    }
}

impl Due {
    /// What the library says of a slot: waiting, a request, or a final answer.
    pub(crate) fn answered(reply: Reply) -> Result<Due, Refusal> {
        if let Some(answer) = Answer::of(reply.number) {
            return Ok(Due::Answer(answer));
        }
        let [kind, offset, length, pieces] = reply.values()?;
        if reply.count == 0 {
            return Ok(Due::Waiting);
        }
        Ok(Due::Make(Request { kind: Kind::answered(kind), offset, length, pieces: pieces as usize }))
    }
}

impl Kind {
    /// The kind that the library's value names: by its contract always one.
    pub(crate) fn answered(value: u64) -> Kind {
        match value {
            0 => Kind::Read,
            1 => Kind::Write,
            2 => Kind::Zero,
            3 => Kind::AllocatedZero,
            4 => Kind::Discard,
            _ => panic!("the library answered a request of kind {value}, which document 01 does not have"),
        }
    }
}

impl Piece<'_> {
    /// The piece's bytes.
    pub fn bytes(&self) -> &[u8] {
        match self {
            Piece::Fill(bytes) => bytes,
            Piece::Take(bytes) => bytes,
        }
    }
}

#[cfg(test)]
mod tests {
    use super::Answer;

    #[test]
    fn an_answer_has_its_number_and_refusals_are_none() {
        for number in 0..=300 {
            let named = Answer::of(number).map(|answer| u64::from(answer.number()));
            assert_eq!(named, (number <= 199 || number == 207).then_some(number));
        }
    }
}
