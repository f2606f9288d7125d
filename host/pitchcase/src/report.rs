//! What is printed of a run, as text or as JSON objects, one to a line. The man page has the objects' fields.

use crate::numbers::Range;
use crate::out::Out;
use crate::script::JobLine;
use crate::trouble::reason_of;
use pitch_dock::{Answer, Code, Kind, Request, Tally};
use serde_json::{json, Map, Value};
use std::fmt::Write;

/// How many bytes a row of a dump has.
const ROW: usize = 16;
/// What jobs are numbered by.
const LINE: &str = "line";
const RANGE: &str = "range";

/// Prints what happens.
pub struct Report {
    /// Standard output.
    pub out: Out,
    json: bool,
    trace: bool,
    plan: bool,
    /// What its jobs are numbered by: lines of a script, or ranges of a sheet.
    noun: &'static str,
    /// A row of a dump that is not full yet, and its offset.
    row: (u64, Vec<u8>),
}

/// Which lines of a script came to what, or which ranges of a sheet.
#[derive(Debug, Default)]
pub struct Lines {
    pub done: Vec<u64>,
    pub failed: Vec<u64>,
    /// With how many of how many bytes.
    pub partly: Vec<(u64, u64, u64)>,
    pub unbegun: Vec<u64>,
}

impl Report {
    /// A report as the options say.
    pub fn new(json: bool, trace: bool, plan: bool) -> Report {
        Report { out: Out::new(), json, trace, plan, noun: LINE, row: (0, Vec::with_capacity(ROW)) }
    }

    /// The same report, of the ranges of a sheet.
    pub fn of_ranges(self) -> Report {
        Report { noun: RANGE, ..self }
    }

    /// The first line of a run that will change something, or the first object of any.
    pub fn start(&mut self, text: Option<&str>, fields: Value) {
        match (self.json, text) {
            (true, _) => self.object("start", fields),
            (false, Some(text)) => self.out.line(text),
            (false, None) => {}
        }
    }

    /// Whether requests are printed.
    pub fn is_tracing(&self) -> bool {
        self.trace
    }

    /// A heading of what follows.
    pub fn heading(&mut self, when: &str) {
        match self.json {
            true => self.object("show", json!({ "when": when })),
            false => self.out.line(&format!("{when}:")),
        }
    }

    /// A request that was made, or that a plan would make, with the lines that wait after it.
    pub fn request(&mut self, line: u64, request: &Request, code: Code, waiting: &[u64]) {
        let range = Range { offset: request.offset, length: request.length };
        if self.json {
            let mut fields = self.ranged(line, "kind", kind_word(request.kind), range);
            fields["code"] = code.number().into();
            fields["waiting"] = waiting.into();
            return self.object("request", fields);
        }
        let place = at(self.noun, line);
        let mut text = format!("  {place}{} {range}: {}", kind_word(request.kind), self.said(code));
        for (i, line) in waiting.iter().enumerate() {
            let _ = write!(text, "{}{} {line}", if i == 0 { "; waiting: " } else { ", " }, self.noun);
        }
        self.out.line(&text);
    }

    fn said(&self, code: Code) -> String {
        match code.number() {
            0 if self.plan => "planned".into(),
            0 => "done".into(),
            1 => "unsupported".into(),
            number => format!("failed: {}", reason_of(number.into())),
        }
    }

    /// A job that has ended. Text says so in a trace or a plan, where it failed, and where `is_told`.
    pub fn ended(&mut self, job: JobLine, answer: Result<(), &str>, number: u8, tally: Tally, is_told: bool) {
        if self.json {
            let mut fields = self.ranged(job.line, "verb", job.verb.word(), job.range);
            fields["code"] = number.into();
            if let Err(why) = answer {
                fields["reason"] = why.into();
            }
            return self.object("job", tallied(fields, tally));
        }
        if !self.trace && !self.plan && answer.is_ok() && !is_told {
            return;
        }
        let said = match answer {
            Err(why) => format!(": failed: {why}: "),
            Ok(()) if self.plan => ": would make ".into(),
            Ok(()) => ": done: ".into(),
        };
        self.out.line(&format!("{}{said}{}", self.job_text(job), cost(tally)));
    }

    /// A job: its line or number, what, and which range.
    pub fn job_text(&self, job: JobLine) -> String {
        numbered_text(self.noun, job)
    }

    /// A range that lines of a sheet were joined to.
    pub fn joined(&mut self, job: JobLine, lines: &[u64]) {
        if self.json {
            let mut fields = self.ranged(job.line, "verb", job.verb.word(), job.range);
            fields["lines"] = json!(runs(lines));
            return self.object("range", fields);
        }
        self.out.line(&format!("{}: {}", self.job_text(job), runs_text(LINE, lines)));
    }

    /// The bytes that a line of a script has read, or a part of them.
    pub fn script_bytes(&mut self, job: JobLine, bytes: &[u8]) {
        if !self.json {
            self.out.line(&self.job_text(job));
        }
        self.bytes(job.line, job.range.offset, bytes);
        self.end_bytes();
    }

    /// Bytes from `offset` on: rows of 16 that start where the first call began, until `end_bytes`.
    pub fn bytes(&mut self, line: u64, offset: u64, bytes: &[u8]) {
        if self.json {
            let mut fields = self.ranged(line, "verb", "read", Range { offset, length: bytes.len() as u64 });
            fields["hex"] = hex(bytes).into();
            return self.object("bytes", fields);
        }
        if self.row.1.is_empty() {
            self.row.0 = offset;
        }
        let (start, rest) = bytes.split_at(bytes.len().min(ROW - self.row.1.len()));
        self.row.1.extend_from_slice(start);
        if self.row.1.len() < ROW {
            return;
        }
        self.end_bytes();
        let mut at = offset + start.len() as u64;
        for row in rest.chunks(ROW) {
            if row.len() == ROW {
                self.print_row(at, row);
            } else {
                self.row = (at, row.to_vec());
            }
            at += row.len() as u64;
        }
    }

    /// The last row of a dump, where it is not full.
    pub fn end_bytes(&mut self) {
        let (offset, row) = std::mem::replace(&mut self.row, (0, Vec::with_capacity(ROW)));
        if !row.is_empty() {
            self.print_row(offset, &row);
        }
        if self.out.is_terminal() {
            self.out.flush();
        }
    }

    fn print_row(&mut self, offset: u64, row: &[u8]) {
        self.out.put(row_text(offset, row).as_bytes());
    }

    /// Which lines were done and which not, of a run that stopped.
    pub fn lines(&mut self, lines: &Lines) {
        if self.json {
            let partly: Vec<_> = lines.partly.iter().map(|(line, done, of)| json!([line, done, of])).collect();
            let (done, failed, unbegun) = (runs(&lines.done), runs(&lines.failed), runs(&lines.unbegun));
            let fields = json!({ "done": done, "failed": failed, "partly": partly, "not_begun": unbegun });
            return self.object(&format!("{}s", self.noun), fields);
        }
        for (what, numbers) in [("done", &lines.done), ("failed", &lines.failed), ("not begun", &lines.unbegun)] {
            if !numbers.is_empty() {
                self.out.line(&format!("{what}: {}", runs_text(self.noun, numbers)));
            }
        }
        for (line, done, of) in &lines.partly {
            self.out.line(&format!("partly done: {}{done} of {of} bytes", at(self.noun, *line)));
        }
    }

    /// What all jobs of a script, or ranges of a sheet, took or would take.
    pub fn total(&mut self, jobs: u64, tally: Tally) {
        if !self.json {
            let what = if self.plan { "would make " } else { "" };
            self.out.line(&format!("{} ended: {what}{}", self.counted(jobs), cost(tally)));
        }
    }

    /// So many jobs of a script, or ranges of a sheet.
    pub fn counted(&self, jobs: u64) -> String {
        let noun = if self.noun == RANGE { RANGE } else { "job" };
        format!("{jobs} {noun}{}", plural(jobs))
    }

    /// The last object of a run.
    pub fn end(&mut self, status: i32, jobs: u64, tally: Tally) {
        if self.json {
            self.object("end", tallied(json!({ "status": status, "jobs": jobs }), tally));
        }
    }

    /// An object on a line; the field `event` says what it is.
    pub fn object(&mut self, event: &str, fields: Value) {
        let mut all = Map::new();
        all.insert("event".into(), event.into());
        if let Value::Object(fields) = fields {
            all.extend(fields);
        }
        self.out.line(&Value::Object(all).to_string());
    }

    fn ranged(&self, line: u64, name: &str, word: &str, range: Range) -> Value {
        let mut fields = Map::new();
        if line != 0 {
            fields.insert(self.noun.into(), line.into());
        }
        fields.insert(name.into(), word.into());
        fields.insert("offset".into(), range.offset.into());
        fields.insert("length".into(), range.length.into());
        Value::Object(fields)
    }
}

fn tallied(mut fields: Value, tally: Tally) -> Value {
    fields["requests"] = tally.requests.into();
    fields["bytes_read"] = tally.read.into();
    fields["bytes_written"] = tally.written.into();
    fields
}

fn kind_word(kind: Kind) -> &'static str {
    match kind {
        Kind::Read => "read",
        Kind::Write => "write",
        Kind::Zero => "zero",
        Kind::AllocatedZero => "alloc",
        Kind::Discard => "discard",
    }
}

fn at(noun: &str, number: u64) -> String {
    if number == 0 {
        return String::new();
    }
    format!("{noun} {number}: ")
}

fn numbered_text(noun: &str, job: JobLine) -> String {
    format!("{}{} {}", at(noun, job.line), job.verb.word(), job.range)
}

/// A job as it was typed: its line, what, and which range.
pub fn job_text(job: JobLine) -> String {
    numbered_text(LINE, job)
}

/// What an answer that is not 0 means.
pub fn answer_text(answer: Answer) -> String {
    match answer {
        Answer::Done => "done".into(),
        Answer::Unsupported => "unsupported (1)".into(),
        Answer::Failed(code) => reason_of(code.into()),
        Answer::Overflow => "the blocks around the range end past 2^64 - 1 (207)".into(),
    }
}

/// What a word has at its end where there are so many.
pub fn plural(count: u64) -> &'static str {
    if count == 1 {
        return "";
    }
    "s"
}

fn cost(tally: Tally) -> String {
    let requests = plural(tally.requests);
    format!("{} request{requests}, {} bytes read, {} bytes written", tally.requests, tally.read, tally.written)
}

fn hex(bytes: &[u8]) -> String {
    let mut text = String::with_capacity(2 * bytes.len());
    for byte in bytes {
        let _ = write!(text, "{byte:02x}");
    }
    text
}

/// A row of a dump: the offset in hex and in decimal, bytes as hex, bytes as text. Built by hand: long looks print
/// millions of them.
fn row_text(offset: u64, row: &[u8]) -> String {
    const DIGITS: &[u8; 16] = b"0123456789abcdef";
    let mut text = format!("{offset:#010x} {offset:>10}  ");
    for byte in row {
        text.push(DIGITS[usize::from(byte >> 4)].into());
        text.push(DIGITS[usize::from(byte & 15)].into());
        text.push(' ');
    }
    text.extend(std::iter::repeat_n(' ', 3 * (ROW - row.len())));
    text.push_str(" |");
    text.extend(row.iter().map(|&b| if (b' '..=b'~').contains(&b) { char::from(b) } else { '.' }));
    text.push_str("|\n");
    text
}

/// Numbers that follow each other, as first and last.
fn runs(numbers: &[u64]) -> Vec<[u64; 2]> {
    let mut runs: Vec<[u64; 2]> = Vec::new();
    for &number in numbers {
        match runs.last_mut() {
            Some([_, last]) if *last + 1 == number => *last = number,
            _ => runs.push([number, number]),
        }
    }
    runs
}

fn runs_text(noun: &str, numbers: &[u64]) -> String {
    let texts: Vec<String> = runs(numbers)
        .into_iter()
        .map(|[first, last]| if first == last { first.to_string() } else { format!("{first}-{last}") })
        .collect();
    format!("{noun}{} {}", plural(numbers.len() as u64), texts.join(", "))
}

#[cfg(test)]
mod tests {
    use super::*;

    #[test]
    fn a_row_has_both_offsets_hex_and_text() {
        let full = "0x00000280        640  42 4c 41 44 45 20 33 20 20 46 49 4e 45 20 50 49  |BLADE 3  FINE PI|\n";
        assert_eq!(row_text(640, b"BLADE 3  FINE PI"), full);
        let short = "0x100000000 4294967296  00 7e 7f ff                                      |.~..|\n";
        assert_eq!(row_text(1 << 32, b"\x00~\x7f\xff"), short);
    }

    #[test]
    fn lines_are_told_in_runs() {
        assert_eq!(runs_text(LINE, &[3]), "line 3");
        assert_eq!(runs_text(LINE, &[1, 2, 3, 7, 9, 10]), "lines 1-3, 7, 9-10");
        assert_eq!(runs_text(RANGE, &[1, 2]), "ranges 1-2");
    }

    #[test]
    fn costs_have_their_plural() {
        let one = Tally { requests: 1, read: 512, written: 0 };
        assert_eq!(cost(one), "1 request, 512 bytes read, 0 bytes written");
        assert_eq!(cost(Tally { requests: 3, ..one }), "3 requests, 512 bytes read, 0 bytes written");
    }
}
