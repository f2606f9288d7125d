//! Rows of a drive table as text: one to a line, `M,R,Z,D`. A `#` and what follows it on the line say nothing, nor do
//! empty lines.

use crate::numbers::{self, Flaw};
use crate::script::shown;
use crate::table::{too_many, unfit, NAMES};
use crate::trouble::{name_of, refused, unfound, Outcome};
use pitch_dock::{Refusal, Table, TABLE_ROWS};
use std::path::Path;

/// The rows of a text, each with its line.
#[derive(Debug, Default)]
pub struct Rows {
    rows: Vec<[u64; 4]>,
    lines: Vec<usize>,
}

impl Rows {
    /// Looks over a text; the first line in it that is no row is the refusal.
    pub fn parse(text: &[u8]) -> Outcome<Rows> {
        let mut all = Rows::default();
        for (i, line) in text.split(|&b| b == b'\n').enumerate() {
            let said = line.split(|&b| b == b'#').next().unwrap_or_default();
            if !said.trim_ascii().is_empty() {
                all.rows.push(row(said, i + 1)?);
                all.lines.push(i + 1);
            }
        }
        Ok(all)
    }

    /// The table of these rows. The library decides what is refused; the first row that is bad has the line.
    pub fn table(&self, text: &Path) -> Outcome<Table> {
        Table::of_rows(&self.rows).or_else(|refusal| {
            let found = self.first_bad().filter(|bad| bad.0 == refusal);
            let (place, what) = match found {
                Some((_, Some(line), what)) => (format!("line {line}"), what),
                Some((_, None, what)) => (format!("TEXT {}", name_of(text)), what),
                None => return refused(format!("TEXT {}: {}", name_of(text), unfound(refusal))),
            };
            refused(format!("{place}: {what} ({})", refusal.number()))
        })
    }

    /// The first row that is bad, with its line, and why.
    fn first_bad(&self) -> Option<(Refusal, Option<usize>, String)> {
        for (i, (row, line)) in self.rows.iter().zip(&self.lines).enumerate() {
            if i == TABLE_ROWS {
                return Some((Refusal::Table, Some(*line), too_many()));
            }
            if let Some(what) = unfit(*row) {
                return Some((Refusal::Row, Some(*line), what));
            }
        }
        self.rows.is_empty().then(|| (Refusal::Table, None, "has no row".into()))
    }
}

/// The row that a line says.
fn row(line: &[u8], number: usize) -> Outcome<[u64; 4]> {
    let parts: Vec<&[u8]> = line.split(|&b| b == b',').collect();
    let Ok(parts) = <[&[u8]; 4]>::try_from(parts) else {
        return refused(format!("line {number}: '{}': takes four numbers, M,R,Z,D", shown(line.trim_ascii())));
    };
    let mut row = [0; 4];
    let mut start = 0;
    for (i, part) in parts.into_iter().enumerate() {
        let word = part.trim_ascii();
        let blanks = part.len() - part.trim_ascii_start().len();
        row[i] = numbers::number(word).or_else(|flaw: Flaw| {
            let byte = start + blanks + flaw.byte.max(1);
            refused(format!("line {number}, byte {byte}: {} '{}': {}", NAMES[i], shown(word), flaw.what))
        })?;
        start += part.len() + 1;
    }
    Ok(row)
}

/// A row as a line of text, with its number.
pub fn line(number: usize, [mem, req, zero, discard]: [u64; 4]) -> String {
    format!("{:<23} # row {number}", format!("{mem},{req},{zero},{discard}"))
}

#[cfg(test)]
mod tests {
    use super::*;

    fn table(text: &str) -> Outcome<Table> {
        Rows::parse(text.as_bytes())?.table(Path::new("t"))
    }

    fn refusal(text: &str) -> String {
        table(text).unwrap_err().to_string()
    }

    #[test]
    fn a_row_to_a_line() {
        let text = "# drives\n\n1,4096,4096,4096\r\n  512 , 0x200,\t4K,64k  # with blanks\n#\n \t \n65536,1,1,1";
        let rows: Vec<_> = table(text).unwrap().rows().collect();
        assert_eq!(rows, [[1, 4096, 4096, 4096], [512, 512, 4096, 65536], [65536, 1, 1, 1]]);
    }

    #[test]
    fn what_is_printed_makes_the_same_table() {
        let rows: Vec<[u64; 4]> = (0..64).map(|i| [0, 3, 7, 11].map(|by| 1 << ((i + by) % 17))).collect();
        let text: String = rows.iter().enumerate().map(|(i, row)| line(i, *row) + "\n").collect();
        assert_eq!(table(&text), Ok(Table::of_rows(&rows).unwrap()));
        assert_eq!(line(3, [1, 512, 512, 512]), "1,512,512,512           # row 3");
        assert_eq!(line(63, [65536; 4]), "65536,65536,65536,65536 # row 63");
    }

    #[test]
    fn a_refusal_names_the_line() {
        let bad = [
            ("1,1,1", "line 2: '1,1,1': takes four numbers, M,R,Z,D"),
            ("1,1,1,1,1", "line 2: '1,1,1,1,1': takes four numbers, M,R,Z,D"),
            (" x ", "line 2: 'x': takes four numbers, M,R,Z,D"),
            ("1,1,0,1", "line 2: Z is 0, which is no power of two from 1 to 65536 (212)"),
            ("3,1,0,1", "line 2: M is 3, which is no power of two from 1 to 65536 (212)"),
            ("1,1,1,128K", "line 2: D is 131072, which is no power of two from 1 to 65536 (212)"),
            ("1,4294967808,1,1", "line 2: R is 4294967808, which is no power of two from 1 to 65536 (212)"),
            ("1, 18446744073709551616,1,1", "line 2, byte 4: R '18446744073709551616': 2^64 or more"),
        ];
        for (line, wanted) in bad {
            assert_eq!(refusal(&format!("1,1,1,1\n{line}\n")), format!("refused: {wanted}"), "{line}");
        }
        for (line, byte) in [("1, 4x,1,1", 5), ("1,1,1,", 7), (",,,", 1), ("1,1,1 1,1", 6), ("-1,1,1,1", 1)] {
            let said = refusal(&format!("\n#\n{line}"));
            assert!(said.starts_with(&format!("refused: line 3, byte {byte}: ")), "{line}: {said}");
        }
        assert_eq!(refusal("# none\n\n"), "refused: TEXT t: has no row (211)");
    }

    #[test]
    fn the_first_bad_row_decides() {
        let many = "1,1,1,1\n".repeat(64);
        let last = "is row 64, and a table has at most 64, 0 to 63 (211)";
        assert!(table(&many).is_ok());
        assert_eq!(refusal(&format!("{many}#\n3,1,1,1\n")), format!("refused: line 66: {last}"));
        assert!(refusal(&format!("3,1,1,1\n{many}")).ends_with("(212)"));
    }
}
