//! Sheets: up to 64 writes that are joined to few ranges before any is made, so that many fields take one trip. The
//! library joins them and decides what is refused; which line that is, which it does not say, is found here by a look
//! of this program's own. Where that look finds none, it is said.

use crate::numbers::Range;
use crate::report::job_text;
use crate::script::{Entry, JobLine, Script, Verb};
use crate::trouble::{name_of, refused, unfound, Outcome};
use pitch_dock::{join, Joined, Refusal, SheetWrite, SHEET_WRITES};
use std::path::Path;

/// A sheet whose writes were joined.
#[derive(Debug)]
pub struct Sheet {
    /// Its writes, with their lines.
    pub lines: Vec<Entry>,
    /// The ranges that they were joined to, as writes that are numbered from 1 on.
    pub ranges: Vec<Entry>,
    /// The bytes of the ranges, one after the other.
    pub bytes: Vec<u8>,
}

impl Sheet {
    /// Joins the writes of a sheet that was looked over.
    pub fn join(script: Script, path: &Path) -> Outcome<Sheet> {
        let (writes, data) = writes_of(&script);
        let mut bytes = vec![0; data.len()];
        match join(&writes, &data, &mut bytes) {
            Ok(joined) => {
                bytes.truncate(joined.bytes());
                Ok(Sheet { lines: script.entries, ranges: ranges_of(&joined), bytes })
            }
            Err(refusal) => refuse(&script, refusal, path),
        }
    }
}

/// The lines of a sheet whose writes were joined to a range: each lies in one whole.
pub fn lines_in(lines: &[Entry], range: Range) -> Vec<u64> {
    let is_in = |job: &JobLine| (range.offset..range.offset + range.length).contains(&job.range.offset);
    lines.iter().filter_map(Entry::job).filter(is_in).map(|job| job.line).collect()
}

/// The writes of a sheet in order, and the bytes of all of them.
fn writes_of(script: &Script) -> (Vec<SheetWrite>, Vec<u8>) {
    let (mut writes, mut data) = (Vec::new(), Vec::new());
    for entry in &script.entries {
        let Entry::Job { range: Range { offset, length }, start: digits, .. } = *entry else { continue };
        let start = data.len();
        data.resize(start + length as usize, 0);
        script.put_bytes(digits, 0, &mut data[start..]);
        writes.push(SheetWrite { offset, start: start as u64, length });
    }
    (writes, data)
}

fn ranges_of(joined: &Joined) -> Vec<Entry> {
    let range_of = |(line, write): (u64, &SheetWrite)| {
        let range = Range { offset: write.offset, length: write.length };
        Entry::Job { verb: Verb::Write, range, line, start: write.start as usize }
    };
    (1..).zip(joined.writes()).map(range_of).collect()
}

/// The first line that is a reason for the library's refusal.
fn refuse<T>(script: &Script, refusal: Refusal, path: &Path) -> Outcome<T> {
    let number = refusal.number();
    let jobs = script.entries.iter().filter_map(Entry::job).filter(|_| refusal == Refusal::Sheet);
    for (i, job) in jobs.enumerate() {
        if i == SHEET_WRITES {
            let what = format!("is write {}, and a sheet has at most {SHEET_WRITES} ({number})", i + 1);
            return script.refuse_line(job.line, &what);
        }
        if job.range.end().is_none() {
            return refused(format!("{}: ends past 2^64 - 1 ({number})", job_text(job)));
        }
    }
    refused(format!("SHEET {}: {}", name_of(path), unfound(refusal)))
}

#[cfg(test)]
mod tests {
    use super::*;
    use crate::script::Form;

    fn sheet(text: &str) -> Outcome<Sheet> {
        Sheet::join(Script::parse(Form::Sheet, text.into())?, Path::new("s"))
    }

    fn refusal(text: &str) -> String {
        sheet(text).unwrap_err().to_string()
    }

    #[test]
    fn lines_that_touch_or_overlap_are_a_range_and_the_later_one_wins() {
        let sheet = sheet("write 10 0a0b\n\nwrite 30 1e\nwrite 12 0c0d0e\n# again\nwrite 13 ff\n").unwrap();
        let ranges: Vec<_> = sheet
            .ranges
            .iter()
            .map(|entry| match entry {
                Entry::Job { verb, range, line, start } => format!("{line} {} {range} {start}", verb.word()),
                Entry::Barrier => "barrier".into(),
            })
            .collect();
        assert_eq!(ranges, ["1 write 10+5 (0xa) 0", "2 write 30+1 (0x1e) 5"]);
        assert_eq!(sheet.bytes, [0x0a, 0x0b, 0x0c, 0xff, 0x0e, 0x1e]);
        assert_eq!(lines_in(&sheet.lines, Range { offset: 10, length: 5 }), [1, 4, 6]);
        assert_eq!(lines_in(&sheet.lines, Range { offset: 30, length: 1 }), [3]);
    }

    #[test]
    fn a_sheet_without_a_write_has_no_range() {
        for text in ["", "\n\n", "# none\r\n \t\n"] {
            let sheet = sheet(text).unwrap();
            assert_eq!((sheet.lines.len(), sheet.ranges.len(), sheet.bytes.len()), (0, 0, 0));
        }
    }

    #[test]
    fn a_refusal_names_the_line() {
        let many = "write 5 00\n".repeat(64);
        assert_eq!(sheet(&many).unwrap().ranges.len(), 1);
        let last = "is write 65, and a sheet has at most 64 (220)";
        assert_eq!(
            refusal(&format!("{many}# more\n write 9 00")),
            format!("refused: line 66, byte 2: 'write': {last}")
        );
        let wraps = "write 18446744073709551615+1 (0xffffffffffffffff): ends past 2^64 - 1 (220)";
        assert_eq!(refusal("write 0 00\nwrite 0xffffffffffffffff 00"), format!("refused: line 2: {wraps}"));
        assert_eq!(refusal(&format!("write 18446744073709551615 00\n{many}")), format!("refused: line 1: {wraps}"));
        assert!(sheet("write 18446744073709551614 00").is_ok());
        assert!(refusal("write 5").starts_with("refused: line 1, byte 1: 'write': a word is missing"));
    }

    #[test]
    fn a_refusal_that_the_look_does_not_find_is_said_to_be_the_library_s() {
        let script = || Script::parse(Form::Sheet, b"write 5 00".to_vec()).unwrap();
        for (refusal, number) in [(Refusal::Sheet, 220), (Refusal::Output, 219)] {
            let said = refuse::<()>(&script(), refusal, Path::new("s")).unwrap_err().to_string();
            assert!(said.starts_with(&format!("refused: SHEET s: refused with {number}: ")), "{said}");
            assert!(said.ends_with("own look comes to another end"), "{said}");
        }
    }
}
