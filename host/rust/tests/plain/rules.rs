//! Document 01's rules: which requests a job makes, in which order.

use pitch_dock::{Code, Job, Kind, Settings};
use std::ops::Range;

/// A stage of a job: reads that fill its bounce buffer, then a request.
#[derive(Clone, Debug)]
pub struct Stage {
    pub kind: Kind,
    /// What the stage is asked to change or to read, before padding.
    pub asked: Range<u64>,
    pub request: Range<u64>,
    pub reads: Vec<Range<u64>>,
}

/// What comes after a stage.
#[derive(Clone, Copy, Debug, PartialEq, Eq)]
enum Course {
    Last,
    Middle,
    Head,
    Fallback,
}

/// A job and where it stands.
#[derive(Clone, Debug)]
pub struct Plan {
    settings: Settings,
    range: Range<u64>,
    middle: Range<u64>,
    course: Course,
    pub stage: Stage,
    reads_told: usize,
    /// Its answer's number, once it has ended.
    pub answer: Option<u8>,
}

fn down(x: u64, align: u64) -> u64 {
    x - x % align
}

fn up(x: u64, align: u64) -> u64 {
    x.next_multiple_of(align)
}

/// The greater of the alignments of memory and of requests.
pub fn longer(settings: &Settings) -> u64 {
    settings.mem.max(settings.req)
}

/// "If H + T equals the padded length: one read of all. Otherwise a read of the first H bytes if H > 0, then of the
/// last T if T > 0."
fn reads(settings: &Settings, asked: &Range<u64>, padded: &Range<u64>) -> Vec<Range<u64>> {
    let head = up(asked.start - padded.start, longer(settings));
    let tail = up(padded.end - asked.end, longer(settings));
    if head + tail == padded.end - padded.start {
        return vec![padded.clone()];
    }
    let both = [padded.start..padded.start + head, padded.end - tail..padded.end];
    both.into_iter().filter(|read| !read.is_empty()).collect()
}

/// The padded range of a read or a write.
fn padded(settings: &Settings, asked: &Range<u64>) -> Range<u64> {
    let start = down(asked.start, settings.req);
    start..start + up(up(asked.end, settings.req) - start, longer(settings))
}

/// Whether a range has whole request blocks.
fn is_whole(settings: &Settings, range: &Range<u64>) -> bool {
    range.start.is_multiple_of(settings.req) && range.end.is_multiple_of(settings.req)
}

/// A read or a write of bytes that lie aligned in memory or not: direct or padded.
fn transfer(settings: &Settings, kind: Kind, asked: Range<u64>, aligned: bool) -> Stage {
    if aligned && is_whole(settings, &asked) {
        return Stage { kind, request: asked.clone(), asked, reads: Vec::new() };
    }
    let request = padded(settings, &asked);
    let reads = if kind == Kind::Write { reads(settings, &asked, &request) } else { Vec::new() };
    Stage { kind, asked, request, reads }
}

/// A write of zeroes from the bounce buffer, whose start is aligned.
fn zero_write(settings: &Settings, asked: Range<u64>) -> Stage {
    let aligned = (asked.end - asked.start).is_multiple_of(longer(settings));
    transfer(settings, Kind::Write, asked, aligned)
}

/// Whether bytes at this address can go straight to the store.
fn is_aligned(settings: &Settings, address: usize, length: u64) -> bool {
    let any = settings.mem == 1 && settings.req == 1;
    any || (address as u64).is_multiple_of(settings.mem) && length.is_multiple_of(longer(settings))
}

/// Whether a read or a write of bytes at this address needs more than the bounce buffer.
pub fn is_too_long(settings: &Settings, job: &Job, address: usize) -> bool {
    let range = job.offset..job.offset + job.length;
    let direct = is_aligned(settings, address, job.length) && is_whole(settings, &range);
    let padded = padded(settings, &range);
    !direct && padded.end - padded.start > settings.bounce
}

impl Plan {
    /// A job with a request to make; its bytes, if it has any, lie at this address.
    pub fn new(settings: &Settings, job: &Job, address: usize) -> Plan {
        let range = job.offset..job.offset + job.length;
        let align = if job.kind == Kind::Discard { settings.discard } else { settings.zero };
        let middle = up(range.start, align)..down(range.end, align);
        let whole = Stage { kind: job.kind, asked: middle.clone(), request: middle.clone(), reads: Vec::new() };
        let (stage, course) = match job.kind {
            Kind::Read | Kind::Write => {
                let aligned = is_aligned(settings, address, job.length);
                (transfer(settings, job.kind, range.clone(), aligned), Course::Last)
            }
            Kind::Discard => (whole, Course::Last),
            _ if middle.is_empty() => (zero_write(settings, range.clone()), Course::Last),
            _ => (whole, Course::Middle),
        };
        assert!(!stage.request.is_empty(), "a discard with nothing to do has no plan");
        Plan { settings: *settings, range, middle, course, stage, reads_told: 0, answer: None }
    }

    /// The request that is out next.
    pub fn request(&self) -> (Kind, Range<u64>) {
        match self.stage.reads.get(self.reads_told) {
            Some(read) => (Kind::Read, read.clone()),
            None => (self.stage.kind, self.stage.request.clone()),
        }
    }

    /// Whether the request that is out next is the stage's own, and not a read before it.
    pub fn is_last_of_stage(&self) -> bool {
        self.reads_told == self.stage.reads.len()
    }

    /// The request was told this code.
    pub fn tell(&mut self, code: Code) {
        if code == Code::UNSUPPORTED && self.course == Course::Middle {
            let first = self.chunk_from(self.range.start);
            self.enter(first, Course::Fallback);
        } else if code == Code::UNSUPPORTED && self.stage.kind == Kind::Discard {
            self.answer = Some(0);
        } else if code != Code::DONE {
            self.answer = Some(code.number());
        } else if self.is_last_of_stage() {
            self.after_stage();
        } else {
            self.reads_told += 1;
        }
    }

    fn enter(&mut self, stage: Stage, course: Course) {
        (self.stage, self.course, self.reads_told) = (stage, course, 0);
    }

    /// The chunk of zeroes from here on: of the bounce buffer's length, or up to the next request block.
    fn chunk_from(&self, start: u64) -> Stage {
        let most = if start.is_multiple_of(self.settings.req) {
            start + self.settings.bounce
        } else {
            up(start, self.settings.req)
        };
        zero_write(&self.settings, start..most.min(self.range.end))
    }

    fn after_stage(&mut self) {
        let at = self.stage.asked.end;
        let (start, end) = (self.range.start, self.range.end);
        match self.course {
            Course::Middle if start < self.middle.start => {
                self.enter(zero_write(&self.settings, start..self.middle.start), Course::Head);
            }
            Course::Middle | Course::Head if self.middle.end < end => {
                self.enter(zero_write(&self.settings, self.middle.end..end), Course::Last);
            }
            Course::Fallback if at < end => {
                let chunk = self.chunk_from(at);
                self.enter(chunk, Course::Fallback);
            }
            _ => self.answer = Some(0),
        }
    }
}
