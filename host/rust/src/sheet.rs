//! Sheets: many writes that are joined to few.

use crate::raw::{self, JoinedWrites};
use crate::refusal::Refusal;
use std::fmt;

/// How many writes a sheet has at most.
pub const SHEET_WRITES: usize = 64;

/// A write of a sheet: which bytes of its data go where on the store.
#[repr(C)]
#[derive(Clone, Copy, Debug, Default, PartialEq, Eq)]
pub struct SheetWrite {
    /// Where on the store it starts.
    pub offset: u64,
    /// Where in the data its bytes start; of a joined write, where in the output.
    pub start: u64,
    /// How many bytes it has.
    pub length: u64,
}

/// The writes that those of a sheet were joined to.
#[derive(Clone, Copy, PartialEq, Eq)]
pub struct Joined {
    writes: JoinedWrites,
    ranges: usize,
    bytes: usize,
}

/// Joins up to 64 writes: where two cover a byte the later one in the list wins, and ranges that touch become one. The
/// bytes of the joined writes are packed at the front of `output`, its rest stays as it is. Made in any order, or at
/// once, they give the content that the writes of the list give one after the other. Nothing is allocated.
///
/// An output as long as all lengths together always suffices. No writes at all are joined to none. A joined write may
/// be longer than a job may be, and is then made in several.
///
/// [`Refusal::Sheet`] where there are over 64 writes, or one is empty, ends past 2^64 − 1 or does not lie in the data;
/// else [`Refusal::Output`] where the output is shorter than the joined bytes. A refusal leaves the output as it is.
///
/// ```
/// use pitch_dock::{join, JobList, MemoryStore, Room, Runner, Settings, SheetWrite};
///
/// // Four fields: sign and degrees touch, the hundredths follow, and the last one corrects a digit of the degrees.
/// let data = b"+002.75deg3";
/// let fields = [
///     SheetWrite { offset: 660, start: 0, length: 1 },
///     SheetWrite { offset: 661, start: 1, length: 3 },
///     SheetWrite { offset: 664, start: 4, length: 6 },
///     SheetWrite { offset: 663, start: 10, length: 1 },
/// ];
/// let mut output = [0; 11];
/// let joined = join(&fields, data, &mut output)?;
/// assert_eq!(joined.writes(), [SheetWrite { offset: 660, start: 0, length: 10 }]);
/// assert_eq!(output[..joined.bytes()], *b"+003.75deg");
///
/// let mut jobs = JobList::new();
/// for write in joined.writes() {
///     jobs.write(write.offset, &output[write.start as usize..][..write.length as usize]);
/// }
/// let settings = Settings::of_row(1, 4096).unwrap();
/// let mut room = Room::new(&settings, 512);
/// let (data, scratch) = room.parts();
/// let store = MemoryStore::new(vec![b'.'; 1024]);
/// let tally = Runner::open(&settings, data, scratch)?.run(&mut jobs, &store);
/// assert_eq!(tally.requests, 3); // each of the four fields would have taken as many
/// assert_eq!(store.bytes()[655..675], *b".....+003.75deg.....");
/// # Ok::<(), pitch_dock::Refusal>(())
/// ```
pub fn join(writes: &[SheetWrite], data: &[u8], output: &mut [u8]) -> Result<Joined, Refusal> {
    let mut joined = [SheetWrite::default(); SHEET_WRITES];
    let reply = raw::join_sheet(writes, data, output, &mut joined);
    match reply.number {
        0 => Ok(Joined { writes: joined, ranges: reply.value[0] as usize, bytes: reply.value[1] as usize }),
        refused => Err(Refusal::answered(refused)),
    }
}

impl Joined {
    /// The joined writes, in ascending order and with a gap between any two. Where in the output the bytes of each
    /// start is its `start`, so that with the output they are a sheet again.
    pub fn writes(&self) -> &[SheetWrite] {
        &self.writes[..self.ranges]
    }

    /// How many bytes they have together, at the front of the output.
    pub fn bytes(&self) -> usize {
        self.bytes
    }
}

impl fmt::Debug for Joined {
    fn fmt(&self, f: &mut fmt::Formatter<'_>) -> fmt::Result {
        f.debug_struct("Joined").field("writes", &self.writes()).field("bytes", &self.bytes).finish()
    }
}

#[cfg(test)]
mod tests;
