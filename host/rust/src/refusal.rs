//! Why a call was refused.

use std::error::Error;
use std::fmt;

/// Why a call was refused. A refused call has changed nothing. From 211 on they are those of document 02's requests:
/// [`crate::Table`] answers with 211 and 212, [`crate::join`] with 219 and 220, and no call of this crate answers with
/// one of 213 to 218 yet.
#[derive(Clone, Copy, Debug, PartialEq, Eq, Hash)]
pub enum Refusal {
    /// 201: alignment, bounce buffer length or drive row unfit.
    Unfit,
    /// 202: segment empty or outside the data, a 17th, total too long.
    Segment,
    /// 203: segments of one read overlap, or a read's overlap those of a job in flight, or a write's those of a read in
    /// flight.
    Overlap,
    /// 204: all 8 slots taken.
    Full,
    /// 205: a buffer's address or length unfit at opening. No later call meets it: the dock holds its buffers.
    Buffer,
    /// 206: padded length over the bounce buffer's.
    TooLong,
    /// 207: sum past 2^64 − 1.
    Overflow,
    /// 208: slot not 0 to 7 or free; no request out; not ended; no such piece.
    Slot,
    /// 209: told a code of 200 to 255.
    NoAnswer,
    /// 210: planner: offset or length no multiple of the request alignment.
    Unaligned,
    /// 211: drive table: a record cut or shorter than its kind, a row of another length, a 65th row or none.
    Table,
    /// 212: drive table: a row past the limits of an alignment.
    Row,
    /// 213: recorded write: the part for the old bytes too short, or outside the data.
    Saved,
    /// 214: taking back: no write is remembered, or a later request reached its bytes.
    Undo,
    /// 215: reservation: empty, none in the slot, of another length, or still waiting.
    Reservation,
    /// 216: map of touched blocks: none, its block size unfit, or a request past its blocks.
    Map,
    /// 217: not in a window that may be changed; at opening: windows overlap, wrap or are over four.
    Window,
    /// 218: script: a record cut, unknown, of an unknown user, or of one whose job still runs.
    Script,
    /// 219: joined writes: the output is shorter than their bytes.
    Output,
    /// 220: joined writes: over 64, or one empty, wrapping or outside the data.
    Sheet,
}

impl Refusal {
    /// All of them, in the order of their numbers.
    pub const ALL: [Refusal; 20] = [
        Refusal::Unfit,
        Refusal::Segment,
        Refusal::Overlap,
        Refusal::Full,
        Refusal::Buffer,
        Refusal::TooLong,
        Refusal::Overflow,
        Refusal::Slot,
        Refusal::NoAnswer,
        Refusal::Unaligned,
        Refusal::Table,
        Refusal::Row,
        Refusal::Saved,
        Refusal::Undo,
        Refusal::Reservation,
        Refusal::Map,
        Refusal::Window,
        Refusal::Script,
        Refusal::Output,
        Refusal::Sheet,
    ];

    /// Its number: document 01's to 210, document 02's from 211.
    pub fn number(self) -> u8 {
        match self {
            Refusal::Unfit => 201,
            Refusal::Segment => 202,
            Refusal::Overlap => 203,
            Refusal::Full => 204,
            Refusal::Buffer => 205,
            Refusal::TooLong => 206,
            Refusal::Overflow => 207,
            Refusal::Slot => 208,
            Refusal::NoAnswer => 209,
            Refusal::Unaligned => 210,
            Refusal::Table => 211,
            Refusal::Row => 212,
            Refusal::Saved => 213,
            Refusal::Undo => 214,
            Refusal::Reservation => 215,
            Refusal::Map => 216,
            Refusal::Window => 217,
            Refusal::Script => 218,
            Refusal::Output => 219,
            Refusal::Sheet => 220,
        }
    }

    /// The refusal that a number names; None where it names none.
    pub fn of(number: u8) -> Option<Refusal> {
        Refusal::ALL.into_iter().find(|r| r.number() == number)
    }

    /// The refusal that the library answered: by its contract always one.
    pub(crate) fn answered(number: u64) -> Refusal {
        let named = u8::try_from(number).ok().and_then(Refusal::of);
        named.unwrap_or_else(|| panic!("the library answered {number}, which no document has"))
    }
}

impl fmt::Display for Refusal {
    fn fmt(&self, f: &mut fmt::Formatter<'_>) -> fmt::Result {
        let why = match self {
            Refusal::Unfit => "alignment, bounce buffer length or drive row unfit",
            Refusal::Segment => "segment empty, outside the data, a 17th, or too many bytes",
            Refusal::Overlap => "segments that must be apart overlap",
            Refusal::Full => "all slots taken",
            Refusal::Buffer => "a buffer's address or length unfit",
            Refusal::TooLong => "padded length over the bounce buffer's",
            Refusal::Overflow => "sum past 2^64 - 1",
            Refusal::Slot => "no such slot, or nothing there that the call can act on",
            Refusal::NoAnswer => "told a code that is no answer",
            Refusal::Unaligned => "offset or length no multiple of the request alignment",
            Refusal::Table => "a record of the drive table is cut or of an unfit length, or it has no row or over 64",
            Refusal::Row => "a row of the drive table breaks an alignment limit",
            Refusal::Saved => "the part for the old bytes is shorter than the edit, or outside the data",
            Refusal::Undo => "no write to take back, or a later request reached its bytes",
            Refusal::Reservation => "reservation empty, of another length, still waiting, or none in the slot",
            Refusal::Map => "no map of touched blocks, its block size unfit, or a request past its blocks",
            Refusal::Window => "not in a window that may be changed, or windows overlap, wrap or are over four",
            Refusal::Script => "a record of the script is cut or unknown, or its user is unknown or still has a job",
            Refusal::Output => "output shorter than the joined bytes",
            Refusal::Sheet => "over 64 writes to join, or one empty, wrapping or outside the data",
        };
        write!(f, "refused with {}: {why}", self.number())
    }
}

impl Error for Refusal {}

#[cfg(test)]
mod tests {
    use super::Refusal;

    #[test]
    fn numbers_are_201_to_220() {
        let numbers: Vec<u8> = Refusal::ALL.into_iter().map(Refusal::number).collect();
        assert_eq!(numbers, (201..=220).collect::<Vec<u8>>());
    }

    #[test]
    fn a_number_names_its_refusal_and_no_other_names_one() {
        for number in 0..=255 {
            assert_eq!(Refusal::of(number).map(Refusal::number), (201..=220).contains(&number).then_some(number));
        }
    }
}
