//! Document 01's rules run as a side: the course of each job, blockers that note one another, and shares of a scratch.

use crate::document::{self, Course, First, InFlight, VectorTest};
use crate::imago_side::CLOSED;
use crate::side::{Act, Begin, Begun, Blockers, Due, Job, Kind, Opening, Piece, Request, Segment, Side, SLOTS};
use crate::store::{Content, Store};
use std::ops::Range;

/// A blocker that is entered, and those that it noted and that are still there.
struct Entered {
    range: Range<u64>,
    strong: bool,
    noted: [bool; SLOTS],
}

#[derive(Default)]
pub struct NotedBlockers {
    entered: [Option<Entered>; SLOTS],
}

/// Ranges overlap when each starts before the other ends; they may be empty.
fn overlap(a: &Range<u64>, b: &Range<u64>) -> bool {
    a.start < b.end && b.start < a.end
}

impl NotedBlockers {
    /// Which blockers the one of `slot` waits for, and whether each is strong.
    pub fn noted(&self, slot: usize) -> impl Iterator<Item = (usize, bool)> + '_ {
        let own = self.entered[slot].as_ref();
        let is_noted = move |other: usize| own.is_some_and(|e| e.noted[other]);
        self.entered.iter().enumerate().filter_map(move |(i, e)| Some((i, e.as_ref()?.strong)).filter(|_| is_noted(i)))
    }

    pub fn is_strong(&self, slot: usize) -> bool {
        self.entered[slot].as_ref().is_some_and(|e| e.strong)
    }
}

impl Blockers for NotedBlockers {
    fn enter(&mut self, slot: usize, range: Range<u64>, strong: bool) {
        let notes = |e: &Entered| (strong || e.strong) && overlap(&e.range, &range);
        let noted = std::array::from_fn(|i| self.entered[i].as_ref().is_some_and(notes));
        self.entered[slot] = Some(Entered { range, strong, noted });
    }

    fn waits(&self, slot: usize) -> bool {
        self.noted(slot).next().is_some()
    }

    fn leave(&mut self, slot: usize) {
        self.entered[slot] = None;
        for other in self.entered.iter_mut().flatten() {
            other.noted[slot] = false;
        }
    }
}

struct DocumentJob {
    begin: Begin,
    course: Course,
}

/// Document 01's rules over blockers of some kind.
pub struct RulesSide<B> {
    jobs: [Option<DocumentJob>; SLOTS],
    blockers: B,
    opening: Opening,
    data: Vec<u8>,
    scratch: Vec<u8>,
    store: Store,
    test: VectorTest,
}

/// Document 01's rules over its own blockers.
pub type DocumentSide = RulesSide<NotedBlockers>;

fn range_of(s: &Segment) -> Range<usize> {
    s.start as usize..(s.start + s.length) as usize
}

impl<B: Blockers + Default> RulesSide<B> {
    pub fn new(content: &Content) -> Self {
        RulesSide {
            jobs: Default::default(),
            blockers: B::default(),
            opening: CLOSED,
            data: content.data.clone(),
            scratch: Vec::new(),
            store: content.store.clone(),
            test: content.test,
        }
    }

    fn job(&self, slot: usize) -> Option<&DocumentJob> {
        self.jobs.get(slot)?.as_ref()
    }

    pub fn blockers(&self) -> &B {
        &self.blockers
    }

    pub fn course(&self, slot: usize) -> Option<&Course> {
        self.job(slot).map(|j| &j.course)
    }

    fn in_flight(&self) -> Vec<InFlight<'_>> {
        let jobs = self.jobs.iter().flatten();
        jobs.map(|j| InFlight { reads: j.begin.job == Job::Read, segments: &j.begin.segments }).collect()
    }

    /// A range of the store that lies in the bounce buffer of `slot`, which starts at the stage's request.
    fn in_scratch(&self, slot: usize, course: &Course, range: Range<u64>) -> Segment {
        let share = slot as u64 * self.opening.bounce;
        Segment { start: share + (range.start - course.stage().request.start), length: range.end - range.start }
    }

    fn request(&self, slot: usize, job: &DocumentJob) -> Request {
        let (kind, range) = job.course.request();
        let pieces = match kind {
            Kind::Read | Kind::Write if job.course.stage().bounced => {
                vec![Piece::Scratch(self.in_scratch(slot, &job.course, range.clone()))]
            }
            Kind::Read | Kind::Write => job.begin.segments.iter().copied().map(Piece::Data).collect(),
            _ => Vec::new(),
        };
        Request { kind, offset: range.start, length: range.end - range.start, pieces }
    }

    /// The stage of `slot` is entered: its blocker, and its bytes where it reads nothing first.
    fn enter(&mut self, slot: usize) {
        let stage = self.job(slot).expect("the slot has a job").course.stage();
        let (range, padded) = (stage.request.clone(), stage.padded);
        if stage.blocks() {
            self.blockers.enter(slot, range, padded);
        }
        self.fill(slot);
    }

    /// Once all reads of a write through the bounce buffer are done, its asked part takes the vector's bytes, or zeroes.
    fn fill(&mut self, slot: usize) {
        let job = self.job(slot).expect("the slot has a job");
        let stage = job.course.stage();
        if !(stage.kind == Kind::Write && stage.bounced && job.course.reads_are_done()) {
            return;
        }
        let part = range_of(&self.in_scratch(slot, &job.course, stage.asked.clone()));
        let mut bytes: Vec<u8> = Vec::with_capacity(part.len());
        job.begin.segments.iter().for_each(|s| bytes.extend(&self.data[range_of(s)]));
        bytes.resize(part.len(), 0);
        self.scratch[part].copy_from_slice(&bytes);
    }

    /// The asked bytes of a padded read go from the bounce buffer into its segments, each filled before the next.
    fn hand_out(&mut self, slot: usize) {
        let job = self.job(slot).expect("the slot has a job");
        let asked = self.in_scratch(slot, &job.course, job.course.stage().asked.clone());
        let mut from = asked.start as usize;
        for s in job.begin.segments.clone() {
            let to = from + s.length as usize;
            self.data[range_of(&s)].copy_from_slice(&self.scratch[from..to]);
            from = to;
        }
    }
}

impl<B: Blockers + Default> Side for RulesSide<B> {
    fn open(&mut self, opening: &Opening) -> u8 {
        self.jobs = Default::default();
        self.blockers = B::default();
        self.opening = *opening;
        let answer = document::opening(opening);
        if answer == 0 {
            self.scratch = vec![0; opening.scratch.length as usize];
        }
        answer
    }

    fn begin(&mut self, begin: &Begin) -> Begun {
        match document::begin(&self.opening, (self.data.len() as u64, self.test), begin, &self.in_flight()) {
            First::Done => Begun::Done,
            First::Refused(refusal) => Begun::Refused(refusal),
            First::Starts(course) => {
                let slot = self.jobs.iter().position(Option::is_none).expect("not 204");
                self.jobs[slot] = Some(DocumentJob { begin: begin.clone(), course });
                self.enter(slot);
                Begun::Slot(slot)
            }
        }
    }

    fn next(&self, slot: usize) -> Due {
        let Some(job) = self.job(slot) else { return Due::Refused(document::SLOT) };
        match job.course.answer() {
            Some(code) => Due::Answer(code),
            None if self.blockers.waits(slot) => Due::Waiting,
            None => Due::Make(self.request(slot, job)),
        }
    }

    fn carry(&mut self, slot: usize, act: Act) {
        let Due::Make(r) = self.next(slot) else { panic!("a request is out") };
        match r.kind {
            Kind::Zero | Kind::AllocatedZero => self.store.zero(r.offset, r.length, act),
            Kind::Discard => self.store.discard(r.offset, r.length, act),
            Kind::Read | Kind::Write => {
                let mut at = r.offset;
                for piece in &r.pieces {
                    let bytes = match piece {
                        Piece::Data(s) => &mut self.data[range_of(s)],
                        Piece::Scratch(s) => &mut self.scratch[range_of(s)],
                    };
                    match r.kind {
                        Kind::Read => self.store.read(at, act, bytes),
                        _ => self.store.write(at, act, bytes),
                    }
                    at += bytes.len() as u64;
                }
            }
        }
    }

    fn tell(&mut self, slot: usize, code: u8) -> u8 {
        let Due::Make(_) = self.next(slot) else { return document::SLOT };
        if code >= document::FIRST_NO_ANSWER {
            return document::NO_ANSWER;
        }
        let stage = self.job(slot).expect("the slot has a job").course.stage();
        let blocks = stage.blocks();
        if code == 0 && stage.kind == Kind::Read && stage.bounced {
            self.hand_out(slot);
        }
        let course = &mut self.jobs[slot].as_mut().expect("the slot has a job").course;
        let ended = course.told(code);
        let is_last = course.answer().is_some();
        match (ended, is_last) {
            (false, _) => self.fill(slot),
            (true, _) if !blocks => {}
            (true, true) => self.blockers.leave(slot),
            (true, false) => {
                self.blockers.leave(slot);
                self.enter(slot);
            }
        }
        0
    }

    fn collect(&mut self, slot: usize) -> Result<u8, u8> {
        let answer = self.course(slot).and_then(Course::answer).ok_or(document::SLOT)?;
        self.jobs[slot] = None;
        Ok(answer)
    }

    fn store(&self) -> &Store {
        &self.store
    }

    fn store_mut(&mut self) -> &mut Store {
        &mut self.store
    }

    fn data(&self) -> &[u8] {
        &self.data
    }

    fn data_mut(&mut self) -> &mut [u8] {
        &mut self.data
    }
}
