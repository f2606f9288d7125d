//! Drive tables: loaded, shown and made. The library decides what is refused; where the bad record stands, which it
//! does not say, is found here by a look of this program's own. Where that look comes to another end, it is said.

use crate::input::{self, Identity};
use crate::newfile::NewFile;
use crate::numbers::both;
use crate::options::TableCommand;
use crate::out::Out;
use crate::report::Report;
use crate::rows::{self, Rows};
use crate::system;
use crate::trouble::{name_of, refused, unfound, Outcome, Trouble};
use pitch_dock::{Refusal, Table, TABLE_ROWS};
use serde_json::json;
use std::path::Path;

/// The names of a row's alignments, in order.
pub const NAMES: [&str; 4] = ["M", "R", "Z", "D"];

/// The kind of a record that is a row, and its length.
const ROW_KIND: usize = 1;
const ROW_LENGTH: usize = 18;

/// Carries out a command on tables.
pub fn run(command: TableCommand, is_stdin_closed: bool) -> Outcome<()> {
    match command {
        TableCommand::Show { table, json } => show(&table, json, is_stdin_closed),
        TableCommand::Make { text, table, replace } => make(&text, &table, replace, is_stdin_closed),
    }
}

/// The table of a file, which is called `name` where it was typed.
pub fn load(name: &str, path: &Path, is_stdin_closed: bool) -> Outcome<Table> {
    let bytes = input::whole(name, path, is_stdin_closed)?.0;
    loaded(name, path, &bytes)
}

fn loaded(name: &str, path: &Path, bytes: &[u8]) -> Outcome<Table> {
    Table::load(bytes).or_else(|refusal| {
        let found = look_over(bytes).err().filter(|bad| bad.refusal == refusal);
        refused(format!("{name} {}: {}", name_of(path), found.map_or_else(|| unfound(refusal), |bad| bad.text())))
    })
}

/// A record that is refused.
struct Bad {
    /// Which one, from 1 on, and its first byte; None where it is the end that is bad.
    place: Option<(usize, usize)>,
    refusal: Refusal,
    what: String,
}

impl Bad {
    fn text(&self) -> String {
        let place = self.place.map(|(record, at)| format!("record {record}, byte {}: ", both(at as u64)));
        format!("{}{} ({})", place.unwrap_or_default(), self.what, self.refusal.number())
    }
}

/// Looks over the records of a table: how many are of other kinds, or the first that is bad.
fn look_over(bytes: &[u8]) -> Result<usize, Bad> {
    let (mut at, mut record, mut rows, mut others) = (0, 0, 0, 0);
    while at < bytes.len() {
        record += 1;
        let bad = |(refusal, what)| Bad { place: Some((record, at)), refusal, what };
        let (kind, body) = next_record(&bytes[at..]).map_err(|what| bad((Refusal::Table, what)))?;
        match kind {
            ROW_KIND => {
                check_row(rows, body).map_err(bad)?;
                rows += 1;
            }
            _ => others += 1,
        }
        at += 4 + body.len();
    }
    if rows == 0 {
        return Err(Bad { place: None, refusal: Refusal::Table, what: "has no row".into() });
    }
    Ok(others)
}

/// Kind and body of the record that the bytes start with, or why they start with none.
fn next_record(bytes: &[u8]) -> Result<(usize, &[u8]), String> {
    let short = |at: usize| usize::from(u16::from_le_bytes([bytes[at], bytes[at + 1]]));
    if bytes.len() < 2 {
        return Err("is cut: one byte is left, and its length has two".into());
    }
    let (length, left) = (short(0), bytes.len() - 2);
    if length > left {
        return Err(format!("is cut: its length is {length}, of which {left} follow"));
    }
    if length < 2 {
        return Err(format!("its length is {length}, and its kind alone has 2 bytes"));
    }
    Ok((short(2), &bytes[4..2 + length]))
}

/// A row is of its length, not one too many, and of alignments that are fit.
fn check_row(rows: usize, body: &[u8]) -> Result<(), (Refusal, String)> {
    let length = body.len() + 2;
    if length != ROW_LENGTH {
        return Err((Refusal::Table, format!("is a row of length {length} instead of {ROW_LENGTH}")));
    }
    if rows == TABLE_ROWS {
        return Err((Refusal::Table, too_many()));
    }
    let align = |i: usize| u32::from_le_bytes([body[4 * i], body[4 * i + 1], body[4 * i + 2], body[4 * i + 3]]);
    match unfit([0, 1, 2, 3].map(|i| align(i).into())) {
        Some(what) => Err((Refusal::Row, format!("row {rows}: {what}"))),
        None => Ok(()),
    }
}

/// What is said of a 65th row.
pub fn too_many() -> String {
    format!("is row {}, and a table has at most {TABLE_ROWS}, 0 to {}", TABLE_ROWS, TABLE_ROWS - 1)
}

/// The first alignment of a row that breaks a limit, and which limit.
pub fn unfit(row: [u64; 4]) -> Option<String> {
    let is_fit = |align: u64| align.is_power_of_two() && align <= 65536;
    let at = row.iter().position(|&align| !is_fit(align))?;
    Some(format!("{} is {}, which is no power of two from 1 to 65536", NAMES[at], row[at]))
}

/// Prints the rows of a table, as text of which the same rows can be made again.
fn show(path: &Path, json: bool, is_stdin_closed: bool) -> Outcome<()> {
    let bytes = input::whole("TABLE", path, is_stdin_closed)?.0;
    let table = loaded("TABLE", path, &bytes)?;
    let others = look_over(&bytes).ok();
    let mut report = Report::new(json, false, false);
    if json {
        let fields = json!({ "table": path.to_string_lossy(), "rows": table.len(), "other_records": others });
        report.object("table", fields);
    }
    for (number, row) in table.rows().enumerate() {
        match json {
            true => report.object("row", json!({ "row": number, "align": row })),
            false => report.out.line(&rows::line(number, row)),
        }
    }
    if let Some(line) = others_line(others).filter(|_| !json) {
        report.out.line(&line);
    }
    report.out.settle("nothing was begun")
}

/// A comment on the records of other kinds, where there are any or their count is not known.
fn others_line(others: Option<usize>) -> Option<String> {
    match others {
        Some(0) => None,
        Some(1) => Some("# passed over: 1 record of another kind".into()),
        Some(count) => Some(format!("# passed over: {count} records of other kinds")),
        None => Some("# records of other kinds are not counted: pitchcase's own look comes to another end".into()),
    }
}

/// Makes a table of the rows of a text.
fn make(text: &Path, path: &Path, replace: bool, is_stdin_closed: bool) -> Outcome<()> {
    let (bytes, from) = input::whole("TEXT", text, is_stdin_closed)?;
    let table = Rows::parse(&bytes)?.table(text)?;
    let bytes = table.bytes();
    let mut out = Out::new();
    if path == Path::new("-") {
        out.put(&bytes);
        return out.settle("the table was not written whole");
    }
    let mut file = begin(path, replace, from)?;
    file.write(&bytes)?;
    let rows = table.len();
    out.line(&format!("{}: {rows} row{}, {} bytes", name_of(path), if rows == 1 { "" } else { "s" }, bytes.len()));
    out.settle("nothing was made")?;
    if system::is_interrupted() {
        return Err(Trouble::Interrupted("nothing was made".into()));
    }
    file.put()
}

/// Begins the file of a table, which must be another than the text that it is made of.
fn begin(path: &Path, replace: bool, from: Option<Identity>) -> Outcome<NewFile> {
    let file = NewFile::begin("TABLE", path, replace)?;
    match from.is_some() && file.replaced() == from {
        true => refused(format!("TABLE {}: names the text itself", name_of(path))),
        false => Ok(file),
    }
}

#[cfg(test)]
mod tests {
    use super::*;

    fn row(align: [u32; 4]) -> Vec<u8> {
        [vec![18, 0, 1, 0], align.map(u32::to_le_bytes).concat()].concat()
    }

    fn refusal(bytes: &[u8]) -> String {
        loaded("TABLE", Path::new("t"), bytes).unwrap_err().to_string()
    }

    #[test]
    fn a_refusal_names_record_byte_and_number() {
        let good = row([1, 4096, 4096, 4096]);
        let after = |bytes: &[u8]| [&good[..], &[3, 0, 9, 9, 9], bytes].concat();
        let bad = [
            (vec![0], "is cut: one byte is left, and its length has two (211)"),
            (vec![18, 0, 1, 0, 1], "is cut: its length is 18, of which 3 follow (211)"),
            (vec![2, 0, 9], "is cut: its length is 2, of which 1 follow (211)"),
            (vec![0, 0], "its length is 0, and its kind alone has 2 bytes (211)"),
            (vec![1, 0, 1, 0], "its length is 1, and its kind alone has 2 bytes (211)"),
            (vec![3, 0, 1, 0, 1], "is a row of length 3 instead of 18 (211)"),
            (row([1, 512, 131_072, 0]), "row 1: Z is 131072, which is no power of two from 1 to 65536 (212)"),
        ];
        for (bytes, what) in bad {
            assert_eq!(refusal(&after(&bytes)), format!("refused: TABLE t: record 3, byte 25 (0x19): {what}"));
        }
        assert_eq!(refusal(b""), "refused: TABLE t: has no row (211)");
        assert_eq!(refusal(&[2, 0, 9, 9]), "refused: TABLE t: has no row (211)");
        let many =
            "refused: TABLE t: record 65, byte 1280 (0x500): is row 64, and a table has at most 64, 0 to 63 (211)";
        assert_eq!(refusal(&row([1; 4]).repeat(65)), many);
    }

    #[test]
    fn the_look_agrees_with_the_library_on_every_change_of_a_byte() {
        let table = [row([1, 4096, 4096, 4096]), vec![2, 0, 9, 9], row([512, 512, 512, 512])].concat();
        for at in 0..table.len() {
            for byte in 0..=255 {
                let mut bytes = table.clone();
                bytes[at] = byte;
                for bytes in [&bytes[..], &bytes[..at]] {
                    let library = Table::load(bytes).err();
                    assert_eq!(look_over(bytes).err().map(|bad| bad.refusal), library, "byte {at}: {byte}");
                }
            }
        }
    }

    #[test]
    fn records_of_other_kinds_are_counted() {
        let table = [vec![2, 0, 9, 9], row([1; 4]), vec![2, 0, 0, 0], vec![4, 0, 1, 1, 7, 7]].concat();
        assert_eq!(look_over(&table).map_err(|bad| bad.text()), Ok(3));
        assert_eq!(others_line(Some(0)), None);
        assert_eq!(others_line(Some(3)).unwrap(), "# passed over: 3 records of other kinds");
        assert!([Some(1), None].into_iter().all(|others| others_line(others).unwrap().starts_with("# ")));
    }
}
