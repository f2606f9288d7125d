//! The jobs of a run, handed to the runner one after the other, and what becomes of them.

use crate::numbers::Range;
use crate::progress::Progress;
use crate::report::{answer_text, Lines, Report};
use crate::script::{Entry, JobLine, Script, Verb};
use crate::system;
use crate::trouble::{reason, refusal_text};
use pitch_dock::{Answer, Code, Ended, Job, Kind, Next, Source, Tally};
use std::collections::BTreeMap;
use std::fs::File;
use std::io;
use std::os::unix::fs::FileExt;

/// A zero or discard is cut at the multiples of this, a multiple of every alignment: so that it can be interrupted, and
/// progress shown.
const LONGEST_ZERO: u64 = 4 << 20;
/// How many parts of a look may be read ahead of the one that is printed next.
const AHEAD: u64 = 16;

/// Where the bytes of writes come from.
#[derive(Debug)]
pub enum Bytes {
    /// There are no writes.
    None,
    /// The hex digits of a script.
    Script(Script),
    /// The bytes themselves: of one write, or of several one after the other.
    Memory(Vec<u8>),
    /// A file, from an offset on.
    File(File, u64),
}

impl Bytes {
    /// Puts bytes `from`.. of a write, which starts at `start`, into `bytes`.
    fn put(&self, start: usize, from: u64, bytes: &mut [u8]) -> io::Result<()> {
        match self {
            Bytes::None => {}
            Bytes::Script(script) => script.put_bytes(start, from, bytes),
            Bytes::Memory(all) => bytes.copy_from_slice(&all[start + from as usize..][..bytes.len()]),
            Bytes::File(file, first) => file.read_exact_at(bytes, first + from)?,
        }
        Ok(())
    }
}

/// How reads are printed.
#[derive(Clone, Copy, Debug, PartialEq, Eq)]
pub enum Print {
    /// Each as it ends, after its line: a script's.
    Lines,
    /// In the order of offsets, as rows: a look's.
    Rows,
    /// In the order of offsets, the bytes themselves.
    Raw,
    /// Not at all: a plan's.
    Nothing,
}

/// What was asked for at once and is neither done nor given up: a line of a script, a range of a sheet, or a command.
struct Open {
    entry: usize,
    /// How many of its jobs are in flight, and whether all were handed out.
    in_flight: u32,
    is_whole: bool,
    done: u64,
    tally: Tally,
    failure: Option<(u8, String)>,
}

/// A job that the runner has.
struct Seat {
    number: u64,
    entry: usize,
    /// Where its bytes start in those of its entry.
    from: u64,
    /// How many bytes of it progress was told of.
    told: u64,
}

/// What became of an entry.
#[derive(Clone, Copy, Debug, PartialEq, Eq)]
enum State {
    Unbegun,
    Open,
    Done,
    Failed,
}

/// The jobs of a run.
pub struct Work<'a> {
    entries: &'a [Entry],
    bytes: &'a Bytes,
    report: &'a mut Report,
    progress: Progress,
    print: Print,
    /// How many bytes a read or a write of the runner's has at most.
    longest: u64,
    /// The entry that is handed out next, and from which of its bytes on.
    at: usize,
    from: u64,
    given: u64,
    open: Vec<Open>,
    seats: Vec<Seat>,
    states: Vec<State>,
    /// The bytes of the next write, where they come from a file.
    ready: Vec<u8>,
    /// Parts of a look that were read before their turn, and up to where it is printed.
    held: BTreeMap<u64, Vec<u8>>,
    printed: u64,
    /// Whether a job has failed: then nothing new is begun.
    is_failed: bool,
    /// The first failure.
    failure: Option<String>,
}

/// How a run of jobs has ended.
pub struct End {
    /// The first failure.
    pub failure: Option<String>,
    /// Whether every entry is done.
    pub is_whole: bool,
    /// How many entries have ended.
    pub ended: u64,
    /// Which of them came to what.
    pub lines: Lines,
}

fn kind_of(verb: Verb) -> Kind {
    match verb {
        Verb::Read => Kind::Read,
        Verb::Write => Kind::Write,
        Verb::Zero => Kind::Zero,
        Verb::Alloc => Kind::AllocatedZero,
        Verb::Discard => Kind::Discard,
    }
}

/// The part of a range from byte `from` of it on that ends at the next multiple of `unit`, or with the range.
fn part(range: Range, from: u64, unit: u64) -> Range {
    let offset = range.offset + from;
    let left = range.length - from;
    Range { offset, length: left.min(unit - offset % unit) }
}

impl<'a> Work<'a> {
    /// The work of these entries, which were looked over: every range ends below 2^63.
    pub fn new(entries: &'a [Entry], bytes: &'a Bytes, report: &'a mut Report, print: Print, longest: u64) -> Work<'a> {
        let total = entries.iter().filter_map(Entry::job).fold(0u64, |sum, job| sum.saturating_add(job.range.length));
        let is_printing = matches!(print, Print::Rows | Print::Raw) && report.out.is_terminal();
        Work {
            entries,
            bytes,
            report,
            progress: Progress::new(total, print != Print::Nothing && !is_printing),
            print,
            longest,
            at: 0,
            from: 0,
            given: 0,
            open: Vec::with_capacity(pitch_dock::SLOTS + 1),
            seats: Vec::with_capacity(pitch_dock::SLOTS),
            states: vec![State::Unbegun; entries.len()],
            ready: Vec::new(),
            held: BTreeMap::new(),
            printed: 0,
            is_failed: false,
            failure: None,
        }
    }

    /// Whether nothing new is to be begun.
    fn is_stopped(&self) -> bool {
        self.is_failed || system::is_interrupted() || self.report.out.is_broken()
    }

    /// Hands out the next part of a job.
    fn hand_out(&mut self, job: JobLine, start: usize) -> Next {
        let unit = if matches!(job.verb, Verb::Read | Verb::Write) { self.longest } else { LONGEST_ZERO };
        if job.verb == Verb::Read && self.is_ordered() && self.from >= self.printed + AHEAD * self.longest {
            return Next::Later;
        }
        let part = part(job.range, self.from, unit);
        if job.verb == Verb::Write && matches!(self.bytes, Bytes::File(..)) {
            self.ready.resize(part.length as usize, 0);
            if let Err(error) = self.bytes.put(start, self.from, &mut self.ready) {
                let why = match error.kind() {
                    io::ErrorKind::UnexpectedEof => "the file has become shorter".into(),
                    _ => reason(&error),
                };
                self.failure = Some(format!("--from: {why}"));
                self.is_failed = true;
                return Next::End;
            }
        }
        self.note_given(part.length, job.range.length);
        Next::Job(Job { kind: kind_of(job.verb), offset: part.offset, length: part.length })
    }

    fn is_ordered(&self) -> bool {
        matches!(self.print, Print::Rows | Print::Raw)
    }

    /// A part of the entry at hand has got the next number.
    fn note_given(&mut self, length: u64, whole: u64) {
        let entry = self.at;
        self.seats.push(Seat { number: self.given, entry, from: self.from, told: 0 });
        self.given += 1;
        if self.from == 0 {
            self.states[entry] = State::Open;
            self.open.push(Open {
                entry,
                in_flight: 0,
                is_whole: false,
                done: 0,
                tally: Tally::default(),
                failure: None,
            });
        }
        self.from += length;
        let is_whole = self.from == whole;
        if let Some(open) = self.open.iter_mut().find(|open| open.entry == entry) {
            open.in_flight += 1;
            open.is_whole = is_whole;
        }
        if is_whole {
            self.at += 1;
            self.from = 0;
        }
    }

    /// The line of the job of this number.
    fn line_of(&self, number: u64) -> u64 {
        let seat = self.seats.iter().find(|seat| seat.number == number);
        seat.and_then(|seat| self.entries[seat.entry].job()).map_or(0, |job| job.line)
    }

    /// A part has ended: its entry too, where it was the last.
    fn note_ended(&mut self, seat: &Seat, ended: &Ended, failure: Option<(u8, String)>) {
        let Some(i) = self.open.iter().position(|open| open.entry == seat.entry) else { return };
        let open = &mut self.open[i];
        open.in_flight -= 1;
        open.tally.requests += ended.tally.requests;
        open.tally.read += ended.tally.read;
        open.tally.written += ended.tally.written;
        if failure.is_none() {
            open.done += ended.job.length;
        }
        if open.failure.is_none() {
            open.failure = failure;
        }
        let is_over = open.in_flight == 0 && (open.is_whole || open.failure.is_some());
        if is_over {
            let open = self.open.swap_remove(i);
            self.close(open);
        }
    }

    /// An entry has ended.
    fn close(&mut self, open: Open) {
        let Some(job) = self.entries[open.entry].job() else { return };
        let is_told = self.print == Print::Rows && job.verb.is_change();
        if self.is_ordered() {
            self.report.end_bytes();
        }
        let report = &mut *self.report;
        match open.failure {
            None => {
                self.states[open.entry] = State::Done;
                self.progress.aside(|| report.ended(job, Ok(()), 0, open.tally, is_told));
            }
            Some((number, why)) => {
                self.states[open.entry] = State::Failed;
                self.progress.aside(|| report.ended(job, Err(&why), number, open.tally, true));
                self.failure.get_or_insert_with(|| format!("{}: {why}", self.report.job_text(job)));
            }
        }
    }

    /// The bytes of a read that has ended, from `from` of its entry on.
    fn show(&mut self, seat: &Seat, offset: u64, bytes: &[u8]) {
        let Some(job) = self.entries[seat.entry].job() else { return };
        match self.print {
            Print::Nothing => {}
            Print::Lines => {
                let range = Range { offset, length: bytes.len() as u64 };
                let report = &mut *self.report;
                self.progress.aside(|| report.script_bytes(JobLine { range, ..job }, bytes));
            }
            Print::Rows | Print::Raw if seat.from == self.printed => {
                self.print_next(job.range.offset, bytes);
                while let Some(bytes) = self.held.remove(&self.printed) {
                    self.print_next(job.range.offset, &bytes);
                }
            }
            Print::Rows | Print::Raw => {
                self.held.insert(seat.from, bytes.to_vec());
            }
        }
    }

    fn print_next(&mut self, start: u64, bytes: &[u8]) {
        match self.print {
            Print::Raw => self.report.out.put(bytes),
            _ => self.report.bytes(0, start + self.printed, bytes),
        }
        self.printed += bytes.len() as u64;
    }

    /// What the run came to.
    pub fn finish(mut self) -> End {
        self.progress.end();
        if self.is_ordered() {
            self.report.end_bytes();
        }
        let mut lines = Lines::default();
        for (i, entry) in self.entries.iter().enumerate() {
            let Some(job) = entry.job() else { continue };
            match self.states[i] {
                State::Unbegun => lines.unbegun.push(job.line),
                State::Done => lines.done.push(job.line),
                State::Failed => lines.failed.push(job.line),
                State::Open => {
                    let done = self.open.iter().find(|open| open.entry == i).map_or(0, |open| open.done);
                    lines.partly.push((job.line, done, job.range.length));
                }
            }
        }
        let ended = (lines.done.len() + lines.failed.len()) as u64;
        let is_whole = lines.unbegun.is_empty() && lines.partly.is_empty() && lines.failed.is_empty();
        End { failure: self.failure, is_whole, ended, lines }
    }
}

impl Source for Work<'_> {
    fn next(&mut self) -> Next {
        if self.is_stopped() {
            return Next::End;
        }
        match self.entries.get(self.at) {
            None => Next::End,
            Some(Entry::Barrier) => {
                self.states[self.at] = State::Done;
                self.at += 1;
                Next::Barrier
            }
            Some(&Entry::Job { verb, range, line, start }) => self.hand_out(JobLine { line, verb, range }, start),
        }
    }

    fn fill(&mut self, number: u64, _: &Job, bytes: &mut [u8]) {
        if matches!(self.bytes, Bytes::File(..)) {
            return bytes.copy_from_slice(&self.ready);
        }
        let Some(seat) = self.seats.iter().find(|seat| seat.number == number) else { return };
        let Entry::Job { start, .. } = self.entries[seat.entry] else { return };
        // Bytes that are in memory are there: only those of a file may fail, and these were put before.
        let _ = self.bytes.put(start, seat.from, bytes);
    }

    fn ended(&mut self, ended: &Ended, bytes: &[u8]) {
        let Some(i) = self.seats.iter().position(|seat| seat.number == ended.number) else { return };
        let seat = self.seats.swap_remove(i);
        let failure = match ended.outcome {
            Ok(Answer::Done) => None,
            Ok(answer) => Some((answer.number(), answer_text(answer))),
            Err(refusal) => Some((refusal.number(), refusal_text(refusal))),
        };
        if failure.is_none() {
            self.progress.add(ended.job.length - seat.told.min(ended.job.length));
            if ended.job.kind == Kind::Read {
                self.show(&seat, ended.job.offset, bytes);
            }
        }
        self.is_failed |= failure.is_some();
        self.note_ended(&seat, ended, failure);
    }

    fn told(&mut self, told: &pitch_dock::Told<'_>) {
        let is_zeroing = |job: &JobLine| matches!(job.verb, Verb::Zero | Verb::Alloc);
        let entries = self.entries;
        if told.request.kind == Kind::Write && told.code == Code::DONE {
            let seat = self.seats.iter_mut().find(|seat| seat.number == told.number);
            if let Some(seat) = seat.filter(|seat| entries[seat.entry].job().as_ref().is_some_and(is_zeroing)) {
                seat.told += told.request.length;
                self.progress.add(told.request.length);
            }
        }
        if self.report.is_tracing() {
            let waiting: Vec<u64> = told.waiting.iter().map(|(_, number)| self.line_of(number)).collect();
            let line = self.line_of(told.number);
            let report = &mut *self.report;
            self.progress.aside(|| report.request(line, &told.request, told.code, &waiting));
        }
    }
}

#[cfg(test)]
mod tests {
    use super::*;
    use crate::script::Form;

    #[test]
    fn parts_end_at_multiples_and_cover_the_range() {
        for (offset, length, unit) in
            [(0, 0, 4), (0, 1, 4), (3, 1, 4), (3, 2, 4), (5, 20, 4), (8, 8, 4), (1000, 5000, 1536)]
        {
            let range = Range { offset, length };
            let mut from = 0;
            while from < length {
                let part = part(range, from, unit);
                let end = part.end().unwrap();
                assert_eq!(part.offset, offset + from);
                assert!(part.length > 0 && part.offset / unit == (end - 1) / unit);
                assert!(end % unit == 0 || end == offset + length);
                from += part.length;
            }
            assert_eq!(from, length);
        }
        assert_eq!(part(Range { offset: 7, length: 0 }, 0, 4), Range { offset: 7, length: 0 });
    }

    #[test]
    fn bytes_come_from_where_they_are_said_to() {
        let mut bytes = [0; 2];
        Bytes::Memory(vec![1, 2, 3, 4]).put(0, 1, &mut bytes).unwrap();
        assert_eq!(bytes, [2, 3]);
        Bytes::Memory(vec![1, 2, 3, 4]).put(1, 1, &mut bytes).unwrap();
        assert_eq!(bytes, [3, 4]);
        let script = Script::parse(Form::Script, b"write 0 0a0b0c0d".to_vec()).unwrap();
        Bytes::Script(script).put(8, 2, &mut bytes).unwrap();
        assert_eq!(bytes, [0x0c, 0x0d]);
        let path = std::env::temp_dir().join(format!("pitchcase-work-{}", std::process::id()));
        std::fs::write(&path, b"abcdef").unwrap();
        let file = Bytes::File(File::open(&path).unwrap(), 1);
        std::fs::remove_file(&path).unwrap();
        file.put(0, 2, &mut bytes).unwrap();
        assert_eq!(&bytes, b"de");
        assert_eq!(file.put(0, 4, &mut bytes).unwrap_err().kind(), io::ErrorKind::UnexpectedEof);
    }
}
