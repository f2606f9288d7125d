//! Scripts and sheets: one job to a line, looked over whole before any is begun. A sheet has writes alone.

use crate::numbers::{self, Flaw, Range};
use crate::trouble::{refused, Outcome};

/// What a job does.
#[derive(Clone, Copy, Debug, PartialEq, Eq)]
pub enum Verb {
    /// Reads the range, to be shown.
    Read,
    /// Writes bytes over the range.
    Write,
    /// Makes the range zeroes.
    Zero,
    /// Makes the range zeroes that take up space.
    Alloc,
    /// Forgets the content of the whole discard blocks in the range.
    Discard,
}

impl Verb {
    /// All of them, as they are told of.
    pub const ALL: [Verb; 5] = [Verb::Read, Verb::Write, Verb::Zero, Verb::Alloc, Verb::Discard];

    /// The word for it, in scripts and reports.
    pub fn word(self) -> &'static str {
        match self {
            Verb::Read => "read",
            Verb::Write => "write",
            Verb::Zero => "zero",
            Verb::Alloc => "alloc",
            Verb::Discard => "discard",
        }
    }

    /// Whether it may change bytes of the image.
    pub fn is_change(self) -> bool {
        self != Verb::Read
    }

    fn of(word: &[u8]) -> Option<Verb> {
        Verb::ALL.into_iter().find(|verb| verb.word().as_bytes() == word)
    }
}

/// A line that says something.
#[derive(Clone, Debug, PartialEq, Eq)]
pub enum Entry {
    /// A job, with its line, and where the bytes of a write start in what they come from: of a script its hex digits.
    Job { verb: Verb, range: Range, line: u64, start: usize },
    /// Nothing after it begins before all before it are done.
    Barrier,
}

/// What the lines of a text may ask for.
#[derive(Clone, Copy, Debug, PartialEq, Eq)]
pub enum Form {
    /// Any job, and barriers.
    Script,
    /// Writes.
    Sheet,
}

impl Form {
    /// What the text is called where it was typed.
    pub fn name(self) -> &'static str {
        match self {
            Form::Script => "SCRIPT",
            Form::Sheet => "SHEET",
        }
    }

    fn takes(self, verb: Verb) -> bool {
        self == Form::Script || verb == Verb::Write
    }

    /// What is said of another word than those that it takes.
    fn unknown(self) -> &'static str {
        match self {
            Form::Script => "no job has this name (read, write, zero, alloc, discard, barrier)",
            Form::Sheet => "a sheet has writes alone (write OFFSET HEXBYTES)",
        }
    }
}

/// A job as it was asked for: its line in the script, 0 where it has none, what, and which range. The ranges that a
/// sheet is joined to have their numbers, from 1 on, in the place of lines.
#[derive(Clone, Copy, Debug, PartialEq, Eq)]
pub struct JobLine {
    pub line: u64,
    pub verb: Verb,
    pub range: Range,
}

impl Entry {
    /// The job that it asks for; None for a barrier.
    pub fn job(&self) -> Option<JobLine> {
        match *self {
            Entry::Job { verb, range, line, .. } => Some(JobLine { line, verb, range }),
            Entry::Barrier => None,
        }
    }
}

/// A script that was looked over.
#[derive(Debug, Default)]
pub struct Script {
    text: Vec<u8>,
    /// Its lines that say something, in order.
    pub entries: Vec<Entry>,
}

impl Script {
    /// Looks over a text; the first flaw in it is the refusal.
    pub fn parse(form: Form, text: Vec<u8>) -> Outcome<Script> {
        let mut entries = Vec::new();
        let mut start = 0;
        for (i, line) in text.split(|&b| b == b'\n').enumerate() {
            if let Some(entry) = parse_line(form, line, start, i as u64 + 1)? {
                entries.push(entry);
            }
            start += line.len() + 1;
        }
        Ok(Script { text, entries })
    }

    /// A line that says something is refused, by its first word.
    pub fn refuse_line<T>(&self, number: u64, what: &str) -> Outcome<T> {
        let line = self.text.split(|&b| b == b'\n').nth(number as usize - 1).unwrap_or_default();
        wrong(number, words(line).next().unwrap_or_default(), what)
    }

    /// Puts the bytes `from`.. of a write whose digits start at `digits` into `bytes`.
    pub fn put_bytes(&self, digits: usize, from: u64, bytes: &mut [u8]) {
        let start = digits + 2 * from as usize;
        numbers::put_hex(&self.text[start..start + 2 * bytes.len()], bytes);
    }
}

/// A word of a line, and its first byte's place in the line.
type Word<'a> = (usize, &'a [u8]);

/// The words of a line, which blanks part.
fn words(line: &[u8]) -> impl Iterator<Item = Word<'_>> {
    let mut at = 0;
    line.split(u8::is_ascii_whitespace).filter_map(move |word| {
        let start = at;
        at += word.len() + 1;
        (!word.is_empty()).then_some((start, word))
    })
}

/// What a line says, which starts at `start` of the script; None where it is empty or a comment.
fn parse_line(form: Form, line: &[u8], start: usize, number: u64) -> Outcome<Option<Entry>> {
    let mut words = words(line);
    let verb = match words.next() {
        None => return Ok(None),
        Some((_, [b'#', ..])) => return Ok(None),
        Some(word) => word,
    };
    let operands = [words.next(), words.next()];
    if verb.1 == b"barrier" && form == Form::Script {
        return match operands[0] {
            None => Ok(Some(Entry::Barrier)),
            Some(word) => wrong(number, word, "a word too many: a barrier stands alone"),
        };
    }
    let Some(job) = Verb::of(verb.1).filter(|verb| form.takes(*verb)) else {
        return wrong(number, verb, form.unknown());
    };
    let takes = || format!("{} takes OFFSET and {}", job.word(), last_name(job));
    if let Some(word) = words.next() {
        return wrong(number, word, &format!("a word too many: {}", takes()));
    }
    let [Some(offset), Some(last)] = operands else {
        return wrong(number, verb, &format!("a word is missing: {}", takes()));
    };
    let range = parse_range(job, offset, last, number)?;
    Ok(Some(Entry::Job { verb: job, range, line: number, start: start + last.0 }))
}

/// What the last word of a job is called.
fn last_name(verb: Verb) -> &'static str {
    match verb {
        Verb::Write => "HEXBYTES",
        _ => "LENGTH",
    }
}

/// The range that a job's two words say.
fn parse_range(verb: Verb, offset: Word<'_>, last: Word<'_>, number: u64) -> Outcome<Range> {
    let flawed = |name: &str, (at, word): Word<'_>, flaw: Flaw| {
        let byte = at + flaw.byte.max(1);
        refused(format!("line {number}, byte {byte}: {name} '{}': {}", shown(word), flaw.what))
    };
    let length = match verb {
        Verb::Write => numbers::hex_count(last.1),
        _ => numbers::number(last.1),
    };
    match (numbers::number(offset.1), length) {
        (Ok(offset), Ok(length)) => Ok(Range { offset, length }),
        (Err(flaw), _) => flawed("OFFSET", offset, flaw),
        (_, Err(flaw)) => flawed(last_name(verb), last, flaw),
    }
}

/// A word of a line is refused.
fn wrong<T>(number: u64, (at, word): Word<'_>, what: &str) -> Outcome<T> {
    refused(format!("line {number}, byte {}: '{}': {what}", at + 1, shown(word)))
}

/// A word as it is shown in a refusal: on one line, and not all of a long one.
pub fn shown(word: &[u8]) -> String {
    const MOST: usize = 60;
    let start = word.get(..MOST).unwrap_or(word).escape_ascii();
    format!("{start}{}", if word.len() > MOST { ".." } else { "" })
}

#[cfg(test)]
mod tests {
    use super::*;

    fn refusal(text: &str) -> String {
        Script::parse(Form::Script, text.into()).unwrap_err().to_string()
    }

    #[test]
    fn each_job_and_a_barrier() {
        let text = "# blades\n\nread 0 1K\r\n  write 0x10 aaBB \nbarrier\nzero 1 2\nalloc 3 4\n\tdiscard 5 6";
        let script = Script::parse(Form::Script, text.into()).unwrap();
        let jobs: Vec<_> = script
            .entries
            .iter()
            .map(|entry| match entry {
                Entry::Job { verb, range, line, .. } => format!("{line} {} {range}", verb.word()),
                Entry::Barrier => "barrier".into(),
            })
            .collect();
        let wanted = [
            "3 read 0+1024 (0x0)",
            "4 write 16+2 (0x10)",
            "barrier",
            "6 zero 1+2 (0x1)",
            "7 alloc 3+4 (0x3)",
            "8 discard 5+6 (0x5)",
        ];
        assert_eq!(jobs, wanted);
    }

    #[test]
    fn a_write_has_the_bytes_of_its_digits() {
        let script = Script::parse(Form::Script, b"read 0 1\nwrite 5 00112233\n".to_vec()).unwrap();
        let Entry::Job { start, .. } = script.entries[1] else { panic!("no job") };
        let mut bytes = [9; 2];
        script.put_bytes(start, 1, &mut bytes);
        assert_eq!(bytes, [0x11, 0x22]);
    }

    #[test]
    fn a_refusal_names_line_byte_and_word() {
        let bad = [
            ("x", "1, byte 1: 'x': no job has this name (read, write, zero, alloc, discard, barrier)"),
            ("\n wipe 0 1", "2, byte 2: 'wipe': no job has this name (read, write, zero, alloc, discard, barrier)"),
            ("\nzero 5", "2, byte 1: 'zero': a word is missing: zero takes OFFSET and LENGTH"),
            ("\nread 0 1 2", "2, byte 10: '2': a word too many: read takes OFFSET and LENGTH"),
            ("\nwrite 0 aa bb", "2, byte 12: 'bb': a word too many: write takes OFFSET and HEXBYTES"),
            ("\nbarrier 0", "2, byte 9: '0': a word too many: a barrier stands alone"),
            ("\nwrite 0 aag0", "2, byte 11: HEXBYTES 'aag0': no hex digit"),
            ("\nwrite 0 0", "2, byte 9: HEXBYTES '0': an odd number of hex digits"),
            ("\nalloc 0 18446744073709551616", "2, byte 9: LENGTH '18446744073709551616': 2^64 or more"),
        ];
        for (text, wanted) in bad {
            assert_eq!(refusal(text), format!("refused: line {wanted}"));
        }
        assert!(refusal("read 1x 1").starts_with("refused: line 1, byte 7: OFFSET '1x': no number"));
    }

    #[test]
    fn a_sheet_has_writes_alone() {
        let sheet = |text: &str| Script::parse(Form::Sheet, text.into());
        assert_eq!(sheet("# fields\r\n\r\n write 0x10 aaBB \r\nwrite 5 00").unwrap().entries.len(), 2);
        for (text, wanted) in [
            ("write 0 aa\n read 0 1", "2, byte 2: 'read': a sheet has writes alone (write OFFSET HEXBYTES)"),
            ("barrier", "1, byte 1: 'barrier': a sheet has writes alone (write OFFSET HEXBYTES)"),
            ("write 0\nread 0 1", "1, byte 1: 'write': a word is missing: write takes OFFSET and HEXBYTES"),
        ] {
            assert_eq!(sheet(text).unwrap_err().to_string(), format!("refused: line {wanted}"));
        }
    }

    #[test]
    fn a_line_is_refused_by_its_first_word() {
        let script = Script::parse(Form::Sheet, b"\n \twrite 5 00\n".to_vec()).unwrap();
        let said = script.refuse_line::<()>(2, "no").unwrap_err().to_string();
        assert_eq!(said, "refused: line 2, byte 3: 'write': no");
    }

    #[test]
    fn a_word_is_shown_on_one_line_and_cut() {
        assert_eq!(shown(b"a\nb\xff"), "a\\nb\\xff");
        assert_eq!(shown(&[b'0'; 61]), format!("{}..", "0".repeat(60)));
    }
}
