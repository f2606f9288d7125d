//! Drive tables: rows of alignments that are loaded, in the place of the built-in ones.

use crate::dock::{done, Settings};
use crate::raw::{self, TableWords};
use crate::refusal::Refusal;
use std::fmt;

/// How many rows a drive table has at most.
pub const TABLE_ROWS: usize = 64;

/// The kind of a record that is a row, and the length that such a record says: its kind and four alignments.
const ROW_KIND: u16 = 1;
const ROW_LENGTH: u16 = 18;

/// A drive table: 1 to 64 rows of alignments of memory, requests, zero requests and discards, numbered from 0 on in the
/// order of the file. It replaces the built-in rows ([`Settings::ROWS`]) whole, and what is promised for one of those
/// holds for each of its rows.
///
/// Its file has records: a length of two bytes, which is that of what follows; a kind of two bytes; the body. Kind 1 is
/// a row, its body four numbers of four bytes, so that its length is 18. Records of other kinds are passed over. All
/// numbers are little-endian.
///
/// ```
/// use pitch_dock::{Dock, Table};
///
/// let drive = [1, 4096, 4096, 4096]; // no built-in row has these
/// let bytes = Table::of_rows(&[drive, [512, 512, 512, 512]])?.bytes();
/// assert_eq!(bytes[..8], [18, 0, 1, 0, 1, 0, 0, 0]);
///
/// let table = Table::load(&bytes)?;
/// assert_eq!(table.row(0), Ok(drive));
/// let (mut data, mut scratch) = ([0; 100], [0; 8 * 16384]);
/// let mut dock = Dock::open_table(&table, 0, 16384, &mut data, &mut scratch)?;
/// # let _ = dock.next(0);
/// # Ok::<(), pitch_dock::Refusal>(())
/// ```
#[derive(Clone, PartialEq, Eq)]
pub struct Table {
    words: TableWords,
}

impl Table {
    /// Loads a table. The first bad record decides how it is refused: with [`Refusal::Table`] where it is cut, shorter
    /// than its kind, a row of another length than 18, or a 65th row; else with [`Refusal::Row`] where an alignment is
    /// no power of two from 1 to 65,536. A table without a row is refused with [`Refusal::Table`], at its end.
    pub fn load(bytes: &[u8]) -> Result<Table, Refusal> {
        let mut words = [0; raw::TABLE_WORDS];
        done(raw::load_table(&mut words, bytes)).map(|()| Table { words })
    }

    /// The table of these rows, which are put into records and loaded: refused as [`Table::load`] refuses. A number
    /// that four bytes do not hold is no alignment: [`Refusal::Row`].
    pub fn of_rows(rows: &[[u64; 4]]) -> Result<Table, Refusal> {
        // Whatever follows a 65th row, that one is refused.
        let rows = rows.iter().take(TABLE_ROWS + 1);
        Table::load(&rows.flat_map(record).collect::<Vec<u8>>())
    }

    /// The table as a file has it: a record for each row, and no other.
    pub fn bytes(&self) -> Vec<u8> {
        self.rows().flat_map(|row| record(&row)).collect()
    }

    /// How many rows it has: 1 to 64.
    pub fn len(&self) -> usize {
        self.words[0] as usize
    }

    /// False: it has a row.
    pub fn is_empty(&self) -> bool {
        self.len() == 0
    }

    /// The alignments of a row: of memory, requests, zero requests and discards. [`Refusal::Unfit`] past the last.
    pub fn row(&self, row: usize) -> Result<[u64; 4], Refusal> {
        raw::table_row(&self.words, row).values()
    }

    /// Its rows, in order.
    pub fn rows(&self) -> impl Iterator<Item = [u64; 4]> + '_ {
        (0..TABLE_ROWS).map_while(|row| self.row(row).ok())
    }

    /// The settings of a row, with a bounce buffer of this length: what a [`crate::Runner`] opens with.
    /// [`Refusal::Unfit`] past the last row.
    pub fn settings(&self, row: usize, bounce: u64) -> Result<Settings, Refusal> {
        let [mem, req, zero, discard] = self.row(row)?;
        Ok(Settings { mem, req, zero, discard, bounce })
    }

    pub(crate) fn words(&self) -> &TableWords {
        &self.words
    }
}

impl fmt::Debug for Table {
    fn fmt(&self, f: &mut fmt::Formatter<'_>) -> fmt::Result {
        f.write_str("Table ")?;
        f.debug_list().entries(self.rows()).finish()
    }
}

/// The record of a row. A number that does not fit becomes the greatest that does, which is no alignment either: where
/// the record stands it is refused as the number would be.
fn record(row: &[u64; 4]) -> impl Iterator<Item = u8> {
    let head = [ROW_LENGTH.to_le_bytes(), ROW_KIND.to_le_bytes()].into_iter().flatten();
    let body = row.map(|align| u32::try_from(align).unwrap_or(u32::MAX).to_le_bytes());
    head.chain(body.into_iter().flatten())
}

#[cfg(test)]
mod tests;
