//! Document 01's rules, written from the document alone: what is refused, and which requests a job makes; and document
//! 02's joining of segments that touch, for pushes that build a vector.

use crate::side::{Alignments, Begin, Job, Kind, Lent, Opening, Segment, SLOTS};
use std::ops::Range;

/// The numbers of document 01's table.
pub const UNFIT: u8 = 201;
pub const SEGMENT: u8 = 202;
pub const OVERLAP: u8 = 203;
pub const FULL: u8 = 204;
pub const BUFFER: u8 = 205;
pub const TOO_LONG: u8 = 206;
pub const OVERFLOW: u8 = 207;
pub const SLOT: u8 = 208;
pub const NO_ANSWER: u8 = 209;
pub const UNALIGNED: u8 = 210;

/// Document 02: a drive table with a row that breaks an alignment limit.
pub const ROW: u8 = 212;

/// The first code that is no answer of the store.
pub const FIRST_NO_ANSWER: u8 = 200;
pub const LONGEST_BOUNCE: u64 = 1_048_576;
pub const LONGEST_VECTOR: u64 = 1_048_576;
pub const MOST_SEGMENTS: usize = 16;
const LARGEST_ALIGNMENT: u64 = 65_536;

fn down(x: u64, align: u64) -> u64 {
    x - x % align
}

/// Rounded up; None where the sum x + (align - 1) is past 2^64 - 1.
fn up(x: u64, align: u64) -> Option<u64> {
    Some(down(x.checked_add(align - 1)?, align))
}

fn is_alignment(x: u64) -> bool {
    x.is_power_of_two() && x <= LARGEST_ALIGNMENT
}

/// What opening answers for the settings: 0 or 201.
pub fn settings(align: &Alignments, bounce: u64) -> u8 {
    let aligned = [align.mem, align.req, align.zero, align.discard].into_iter().all(is_alignment);
    let fits = aligned
        && bounce.is_multiple_of(align.length())
        && bounce >= 2 * align.zero + 2 * align.length()
        && bounce <= LONGEST_BOUNCE;
    if fits {
        0
    } else {
        UNFIT
    }
}

/// What opening answers: 0, 201, then 205.
pub fn opening(o: &Opening) -> u8 {
    if settings(&o.align, o.bounce) != 0 {
        return UNFIT;
    }
    let ends = |b: &Lent| b.address.checked_add(b.length).is_some();
    let scratch = o.scratch.length >= SLOTS as u64 * o.bounce && o.scratch.address.is_multiple_of(o.align.mem);
    if ends(&o.data) && ends(&o.scratch) && scratch {
        0
    } else {
        BUFFER
    }
}

/// Whether a segment is not empty and lies in data of that length.
fn lies_in(s: &Segment, data: u64) -> bool {
    s.length > 0 && s.start.checked_add(s.length).is_some_and(|end| end <= data)
}

/// What building a vector answers: 0 or 202.
pub fn vector(segments: &[Segment], data: u64) -> u8 {
    let inside = segments.iter().all(|s| lies_in(s, data));
    let fits = inside && segments.len() <= MOST_SEGMENTS && total(segments) <= LONGEST_VECTOR;
    if fits {
        0
    } else {
        SEGMENT
    }
}

/// Whether a pushed segment lengthens the last one: it starts where that one ends. An empty one joins no other, and the
/// length of both is a number.
fn lengthens(last: &Segment, s: &Segment) -> bool {
    let touches = last.start.checked_add(last.length) == Some(s.start);
    touches && last.length > 0 && s.length > 0 && last.length.checked_add(s.length).is_some()
}

/// The list that segments leave which are pushed one after the other. It is a vector over the data exactly where every
/// push is accepted: an empty segment stays in it, one outside the data is only lengthened, and neither count nor total
/// ever shrinks.
pub fn pushed(segments: &[Segment]) -> Vec<Segment> {
    let mut list: Vec<Segment> = Vec::with_capacity(segments.len());
    for s in segments {
        match list.last_mut() {
            Some(last) if lengthens(last, s) => last.length += s.length,
            _ => list.push(*s),
        }
    }
    list
}

pub fn total(segments: &[Segment]) -> u64 {
    segments.iter().map(|s| s.length).fold(0, u64::saturating_add)
}

/// Whether two segments share a byte.
pub fn overlap(a: &Segment, b: &Segment) -> bool {
    a.start < b.start.saturating_add(b.length) && b.start < a.start.saturating_add(a.length)
}

/// `is_aligned` of a vector over data at `address`.
pub fn is_aligned(segments: &[Segment], address: u64, align: &Alignments) -> bool {
    let fits = |s: &Segment| (address + s.start).is_multiple_of(align.mem) && s.length.is_multiple_of(align.length());
    (align.mem == 1 && align.req == 1) || segments.iter().all(fits)
}

/// A stage of a job (document 01: a piece of it): reads where it is a padded write, then its request.
#[derive(Clone, Debug, PartialEq, Eq)]
pub struct Stage {
    pub kind: Kind,
    pub asked: Range<u64>,
    pub request: Range<u64>,
    pub reads: Vec<Range<u64>>,
    /// Whether it goes through the bounce buffer, which then starts at the request's start.
    pub bounced: bool,
    /// Whether the request is padded: a padded write has a strong blocker.
    pub padded: bool,
}

impl Stage {
    fn direct(kind: Kind, range: Range<u64>, bounced: bool) -> Self {
        Stage { kind, asked: range.clone(), request: range, reads: Vec::new(), bounced, padded: false }
    }

    /// Whether it enters a blocker: all but reads.
    pub fn blocks(&self) -> bool {
        self.kind != Kind::Read
    }

    /// A read or write of a range, direct or padded; None is 207.
    fn transfer(align: &Alignments, kind: Kind, asked: Range<u64>, aligned: bool, bounced: bool) -> Option<Self> {
        let length = asked.end - asked.start;
        let r = align.req;
        if asked.start.is_multiple_of(r) && length.is_multiple_of(r) && aligned {
            return Some(Stage::direct(kind, asked, bounced));
        }
        let start = down(asked.start, r);
        let padded = up(up(asked.end, r)? - start, align.length())?;
        let request = start..start.checked_add(padded)?;
        let reads = if kind == Kind::Write { reads_first(&asked, &request, align.length()) } else { Vec::new() };
        Some(Stage { kind, asked, request, reads, bounced: true, padded: true })
    }

    /// A write of zeroes from the bounce buffer's start, whose address is a multiple of M; None is 207.
    fn zeroes(align: &Alignments, asked: Range<u64>) -> Option<Self> {
        let aligned = (asked.end - asked.start).is_multiple_of(align.length());
        Stage::transfer(align, Kind::Write, asked, aligned, true)
    }
}

/// What a padded write reads first.
fn reads_first(asked: &Range<u64>, padded: &Range<u64>, l: u64) -> Vec<Range<u64>> {
    let edge = |n: u64| n.div_ceil(l) * l;
    let head = edge(asked.start - padded.start);
    let tail = edge(padded.end - asked.end);
    if head + tail == padded.end - padded.start {
        return vec![padded.clone()];
    }
    let ends = [padded.start..padded.start + head, padded.end - tail..padded.end];
    ends.into_iter().filter(|r| !r.is_empty()).collect()
}

/// What follows a stage.
#[derive(Clone, Copy, Debug, PartialEq, Eq)]
enum Then {
    End,
    Head,
    Tail,
    /// The next chunk of `write_full_zeroes`.
    Chunk,
}

/// A job with the codes told so far: its stage and the request that it makes next, or its final answer.
#[derive(Clone, Debug)]
pub struct Course {
    align: Alignments,
    bounce: u64,
    range: Range<u64>,
    middle: Range<u64>,
    stage: Stage,
    then: Then,
    /// How many of the stage's reads are done.
    reads_done: usize,
    answer: Option<u8>,
}

/// What a job begins with, as far as it depends on its own range and vector.
pub enum First {
    Done,
    Refused(u8),
    Starts(Course),
}

/// The part of a range between multiples of an alignment, empty or reversed where there is none; None is 207.
fn middle(offset: u64, length: u64, align: u64) -> Option<Range<u64>> {
    let end = offset.checked_add(length)?;
    Some(up(offset, align)?..down(end, align))
}

impl First {
    /// In the table's order, from `empty job done` to 206. Vector and settings were accepted.
    pub fn of(o: &Opening, begin: &Begin) -> First {
        if begin.length == 0 && begin.job != Job::Discard {
            return First::Done;
        }
        let Some(end) = begin.offset.checked_add(begin.length) else {
            return First::Refused(OVERFLOW);
        };
        let range = begin.offset..end;
        match begin.job {
            Job::Read => First::vector(o, begin, range, Kind::Read),
            Job::Write => First::vector(o, begin, range, Kind::Write),
            Job::Zeroes => First::zeroes(o, range, Kind::Zero),
            Job::AllocatedZeroes => First::zeroes(o, range, Kind::AllocatedZero),
            Job::Discard => First::discard(o, range),
        }
    }

    fn vector(o: &Opening, begin: &Begin, range: Range<u64>, kind: Kind) -> First {
        let aligned = is_aligned(&begin.segments, o.data.address, &o.align);
        let Some(stage) = Stage::transfer(&o.align, kind, range.clone(), aligned, false) else {
            return First::Refused(OVERFLOW);
        };
        if stage.bounced && stage.request.end - stage.request.start > o.bounce {
            return First::Refused(TOO_LONG);
        }
        First::Starts(Course::new(o, range, 0..0, stage, Then::End))
    }

    fn zeroes(o: &Opening, range: Range<u64>, kind: Kind) -> First {
        let Some(middle) = middle(range.start, range.end - range.start, o.align.zero) else {
            return First::Refused(OVERFLOW);
        };
        if !middle.is_empty() {
            let stage = Stage::direct(kind, middle.clone(), false);
            return First::Starts(Course::new(o, range, middle, stage, Then::Head));
        }
        match Stage::zeroes(&o.align, range.clone()) {
            None => First::Refused(OVERFLOW),
            Some(stage) => First::Starts(Course::new(o, range, middle, stage, Then::End)),
        }
    }

    fn discard(o: &Opening, range: Range<u64>) -> First {
        match middle(range.start, range.end - range.start, o.align.discard) {
            None => First::Refused(OVERFLOW),
            Some(middle) if middle.is_empty() => First::Done,
            Some(middle) => {
                let stage = Stage::direct(Kind::Discard, middle, false);
                First::Starts(Course::new(o, range, 0..0, stage, Then::End))
            }
        }
    }
}

impl Course {
    fn new(o: &Opening, range: Range<u64>, middle: Range<u64>, stage: Stage, then: Then) -> Self {
        Course { align: o.align, bounce: o.bounce, range, middle, stage, then, reads_done: 0, answer: None }
    }

    pub fn stage(&self) -> &Stage {
        &self.stage
    }

    pub fn answer(&self) -> Option<u8> {
        self.answer
    }

    /// The request's kind and range.
    pub fn request(&self) -> (Kind, Range<u64>) {
        match self.stage.reads.get(self.reads_done) {
            Some(read) => (Kind::Read, read.clone()),
            None => (self.stage.kind, self.stage.request.clone()),
        }
    }

    /// Whether all reads of the stage are done, so that its bytes are in the bounce buffer.
    pub fn reads_are_done(&self) -> bool {
        self.reads_done == self.stage.reads.len()
    }

    /// The code of its request is told. Whether the stage ended.
    pub fn told(&mut self, code: u8) -> bool {
        let (kind, _) = self.request();
        match (code, kind) {
            (0, _) if !self.reads_are_done() => self.reads_done += 1,
            (0, _) => self.stage_done(),
            (1, Kind::Zero | Kind::AllocatedZero) => self.chunk(self.range.start),
            (1, Kind::Discard) => self.answer = Some(0),
            _ => self.answer = Some(code),
        }
        self.answer.is_some() || self.reads_done == 0
    }

    fn stage_done(&mut self) {
        match self.then {
            Then::End => self.answer = Some(0),
            Then::Head if self.range.start < self.middle.start => {
                self.enter(self.range.start..self.middle.start, Then::Tail)
            }
            Then::Head | Then::Tail if self.middle.end < self.range.end => {
                self.enter(self.middle.end..self.range.end, Then::End)
            }
            Then::Head | Then::Tail => self.answer = Some(0),
            Then::Chunk => self.chunk(self.stage.asked.end),
        }
    }

    /// The chunk of `write_full_zeroes` that starts at `start`; at the range's end the job is done.
    fn chunk(&mut self, start: u64) {
        if start == self.range.end {
            self.answer = Some(0);
            return;
        }
        let mut length = self.bounce.min(self.range.end - start);
        if !start.is_multiple_of(self.align.req) {
            length = length.min(self.align.req - start % self.align.req);
        }
        self.enter(start..start + length, Then::Chunk);
    }

    /// A later stage of a zero job; where its sums overflow, the job ends with 207.
    fn enter(&mut self, asked: Range<u64>, then: Then) {
        self.reads_done = 0;
        match Stage::zeroes(&self.align, asked) {
            None => self.answer = Some(OVERFLOW),
            Some(stage) => (self.stage, self.then) = (stage, then),
        }
    }
}

/// A job in flight, as far as 203 needs it.
pub struct InFlight<'a> {
    pub reads: bool,
    pub segments: &'a [Segment],
}

/// Whether the begin's segments overlap where they must not: refusal 203.
fn overlaps(begin: &Begin, in_flight: &[InFlight]) -> bool {
    let reads = begin.job == Job::Read;
    let itself = begin.segments.iter().enumerate().any(|(i, s)| begin.segments[i + 1..].iter().any(|t| overlap(s, t)));
    let meets = |other: &InFlight| {
        (reads || other.reads) && begin.segments.iter().any(|s| other.segments.iter().any(|t| overlap(s, t)))
    };
    (reads && itself) || in_flight.iter().any(meets)
}

/// When a vector that does not fit is refused.
#[derive(Clone, Copy, Debug, PartialEq, Eq)]
pub enum VectorTest {
    /// Where it is built, before its begin: scripts of `replay`.
    Built,
    /// In its begin, in the table's order.
    Begun,
}

/// What begin answers, in the table's order, over data of `data` bytes.
pub fn begin(o: &Opening, (data, test): (u64, VectorTest), begin: &Begin, in_flight: &[InFlight]) -> First {
    let fits = vector(&begin.segments, data) == 0;
    if !fits && test == VectorTest::Built {
        return First::Refused(SEGMENT);
    }
    if opening(o) != 0 {
        return First::Refused(opening(o));
    }
    if data != o.data.length {
        return First::Refused(BUFFER);
    }
    if !fits {
        return First::Refused(SEGMENT);
    }
    match First::of(o, begin) {
        First::Starts(_) if overlaps(begin, in_flight) => First::Refused(OVERLAP),
        First::Starts(_) if in_flight.len() == SLOTS => First::Refused(FULL),
        first => first,
    }
}

/// The planner's answer: 0, 201, 210, then 207.
pub fn planner(o: &Opening, offset: u64, length: u64) -> u8 {
    if settings(&o.align, o.bounce) != 0 {
        return UNFIT;
    }
    if !(offset.is_multiple_of(o.align.req) && length.is_multiple_of(o.align.req)) {
        return UNALIGNED;
    }
    match offset.checked_add(length) {
        None => OVERFLOW,
        Some(_) => 0,
    }
}

/// How many chunks the planner plans, and chunk i: of the share each but the last; past the last one empty at the end.
pub fn planned_chunk(o: &Opening, offset: u64, length: u64, i: u64) -> (u64, u64) {
    let skipped = i.saturating_mul(o.bounce).min(length);
    (offset + skipped, o.bounce.min(length - skipped))
}
