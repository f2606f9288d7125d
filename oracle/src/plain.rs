//! Document 01's plain byte store, and demand 3 on a list: after every event the store equals it, and at collect all is done that is
//! owed.
//!
//! It knows jobs with the codes told, and no blockers, no scratch, no waiting.

use crate::document::{self, Course, First, InFlight, VectorTest};
use crate::event::{row_opening, Event};
use crate::imago_side::CLOSED;
use crate::session::{separately, Answer, Observed};
use crate::side::{Act, Begin, Due, Job, Kind, Opening, Side, SLOTS};
use crate::store::{Content, Store};
use crate::trace;
use std::ops::Range;

struct PlainJob {
    begin: Begin,
    /// The vector's bytes at begin.
    bytes: Vec<u8>,
    course: Course,
    /// The ranges of its write and zero steps with code 0.
    covered: Vec<Range<u64>>,
    /// What its read yielded.
    yielded: Option<Vec<u8>>,
}

pub struct Plain {
    opening: Opening,
    store: Store,
    test: VectorTest,
    jobs: [Option<PlainJob>; SLOTS],
}

/// The bytes of segments, joined.
fn gathered(begin: &Begin, data: &[u8]) -> Vec<u8> {
    let parts = begin.segments.iter().map(|s| &data[s.start as usize..(s.start + s.length) as usize]);
    parts.flatten().copied().collect()
}

/// Whether the ranges cover all of `whole`.
fn cover(ranges: &[Range<u64>], whole: &Range<u64>) -> bool {
    let mut sorted = ranges.to_vec();
    sorted.sort_by_key(|r| r.start);
    let reached = sorted.iter().fold(whole.start, |at, r| if r.start <= at { at.max(r.end) } else { at });
    whole.end <= reached
}

impl PlainJob {
    /// The step of its request, which is carried out.
    fn step(&mut self, store: &mut Store, act: Act) {
        let (kind, range) = self.course.request();
        let length = range.end - range.start;
        let asked = self.course.stage().asked.clone();
        match kind {
            Kind::Read if self.begin.job == Job::Read && act.code == 0 => {
                let mut bytes = vec![0; self.begin.length as usize];
                store.read(self.begin.offset, act, &mut bytes);
                self.yielded = Some(bytes);
            }
            Kind::Read => {}
            Kind::Write if self.begin.job == Job::Write => store.write(asked.start, act, &self.bytes),
            Kind::Write => store.zero(asked.start, asked.end - asked.start, act),
            Kind::Zero | Kind::AllocatedZero => store.zero(range.start, length, act),
            Kind::Discard => store.discard(range.start, length, act),
        }
        if act.code == 0 && matches!(kind, Kind::Write | Kind::Zero | Kind::AllocatedZero) {
            self.covered.push(asked);
        }
    }

    /// What a job answered 0 owes and does not have.
    fn owes(&self, data: &[u8]) -> Option<&'static str> {
        let range = self.begin.offset..self.begin.offset + self.begin.length;
        match self.begin.job {
            Job::Read if self.yielded.as_deref() != Some(&gathered(&self.begin, data)[..]) => {
                Some("a read answered 0 does not hold what its step yielded")
            }
            Job::Write if !self.covered.contains(&range) => Some("a write answered 0 has no write step"),
            Job::Zeroes | Job::AllocatedZeroes if !cover(&self.covered, &range) => {
                Some("a zero job answered 0 does not cover its range")
            }
            _ => None,
        }
    }
}

impl Plain {
    pub fn new(content: &Content) -> Self {
        let store = content.store.clone();
        Plain { opening: CLOSED, store, test: content.test, jobs: Default::default() }
    }

    /// Feeds the event with what the side answered, and says what breaks document 01's rules.
    pub fn feed(&mut self, event: &Event, seen: &Observed, side: &impl Side) -> Option<String> {
        let events = separately(event, &seen.answer);
        let broken = events.iter().find_map(|(event, answer)| self.feed_separate(event, answer, side.data()));
        broken.or_else(|| self.views(seen)).or_else(|| self.stores(side.store()))
    }

    fn feed_separate(&mut self, event: &Event, answer: &Answer, data: &[u8]) -> Option<String> {
        match event {
            Event::OpenRow { row, bounce } => self.open(&row_opening(*row, *bounce), answer),
            Event::Open(opening) => self.open(opening, answer),
            Event::Store { offset, length, byte } => {
                self.store.fill(*offset, *length, *byte);
                None
            }
            Event::Begin(begin) => self.begin(begin, answer, data),
            Event::Carry { slot, act } if *answer == Answer::Done => {
                let job = self.jobs[*slot as usize].as_mut();
                job.map_or(Some("a carry in a free slot".to_owned()), |j| {
                    j.step(&mut self.store, *act);
                    None
                })
            }
            Event::Tell { slot, code } if *answer == Answer::Done => {
                let job = self.jobs[*slot as usize].as_mut();
                job.map_or(Some("a tell in a free slot".to_owned()), |j| {
                    j.course.told(*code);
                    None
                })
            }
            Event::Collect(slot) => self.collect(*slot as usize, answer, data),
            _ => None,
        }
    }

    fn open(&mut self, opening: &Opening, answer: &Answer) -> Option<String> {
        self.opening = *opening;
        self.jobs = Default::default();
        let owed = match document::opening(opening) {
            0 => Answer::Done,
            refusal => Answer::Refused(refusal),
        };
        expect(&owed, answer)
    }

    fn begin(&mut self, begin: &Begin, answer: &Answer, data: &[u8]) -> Option<String> {
        let jobs = self.jobs.iter().flatten();
        let in_flight: Vec<InFlight> =
            jobs.map(|j| InFlight { reads: j.begin.job == Job::Read, segments: &j.begin.segments }).collect();
        let owed = match document::begin(&self.opening, (data.len() as u64, self.test), begin, &in_flight) {
            First::Done => Answer::Done,
            First::Refused(refusal) => Answer::Refused(refusal),
            First::Starts(course) => {
                let slot = self.jobs.iter().position(Option::is_none).expect("not 204");
                let bytes = if begin.job == Job::Write { gathered(begin, data) } else { Vec::new() };
                self.jobs[slot] =
                    Some(PlainJob { begin: begin.clone(), bytes, course, covered: Vec::new(), yielded: None });
                Answer::Slot(slot)
            }
        };
        expect(&owed, answer)
    }

    fn collect(&mut self, slot: usize, answer: &Answer, data: &[u8]) -> Option<String> {
        let job = self.jobs.get(slot).and_then(Option::as_ref);
        let Some(code) = job.and_then(|j| j.course.answer()) else {
            return expect(&Answer::Refused(document::SLOT), answer);
        };
        let job = self.jobs[slot].take().expect("the slot has a job");
        let missing = (code == 0).then(|| job.owes(data)).flatten();
        expect(&Answer::Code(code), answer).or_else(|| missing.map(|text| format!("slot {slot}: {text}")))
    }

    /// Every request that is out and every final answer is the one that the job and the codes told give.
    fn views(&self, seen: &Observed) -> Option<String> {
        if seen.views.len() != self.jobs.iter().flatten().count() {
            return Some("other slots have a job than the plain byte store has".to_owned());
        }
        seen.views.iter().find_map(|view| {
            let job = self.jobs[view.slot].as_ref();
            let fits = job.is_some_and(|j| is_owed(&j.course, &view.due));
            (!fits).then(|| format!("slot {}: {} is not what the rules give", view.slot, trace::due(&view.due)))
        })
    }

    /// As `Store::settle`.
    pub fn settle(&mut self) {
        self.store.settle();
    }

    fn stores(&self, store: &Store) -> Option<String> {
        let at = self.store.difference(store)?;
        Some(format!("store offset {at}: {} in the plain byte store, {}", self.store.byte(at), store.byte(at)))
    }
}

/// Whether a slot may show this: a job that waits shows no request, and ends not.
fn is_owed(course: &Course, due: &Due) -> bool {
    match (due, course.answer()) {
        (Due::Answer(code), Some(answer)) => *code == answer,
        (Due::Waiting, None) => true,
        (Due::Make(r), None) => (r.kind, r.offset..r.offset.saturating_add(r.length)) == course.request(),
        _ => false,
    }
}

fn expect(owed: &Answer, answer: &Answer) -> Option<String> {
    (owed != answer).then(|| format!("the rules give{}", trace::answer(owed)))
}
