//! imago's own functions behind document 01's events.
//!
//! imago has no slots and no refusals but its "wrap-around" (207): the others are document 01's, and imago is not asked where
//! one of them applies. It has no scratch either: a piece in one of its bounce buffers is named by the place that document 01
//! gives it, the job's share, from the bounce buffer's start on.

use crate::document::{self, Course, First, InFlight, VectorTest};
use crate::executor::Task;
use crate::memory::Data;
use crate::port::{self, Memory, Pending, Port};
use crate::side::{Act, Alignments, Begin, Begun, Due, Job, Kind, Lent, Opening, Piece, Request, Segment, Side, SLOTS};
use crate::store::{Content, Store};
use imago::StorageExt;
use std::sync::Arc;
use std::{io, slice};

/// A job in flight.
struct Running {
    begin: Begin,
    /// None once it ended.
    task: Option<Task<io::Result<()>>>,
    answer: u8,
    /// Where document 01's bounce buffer starts on the store; it says nothing else about the job.
    course: Option<Course>,
    /// The address of imago's bounce buffer in this stage, once seen.
    bounce: Option<usize>,
}

pub struct ImagoSide {
    /// Before `data` and `port`, to which they point.
    jobs: [Option<Running>; SLOTS],
    port: Arc<Port>,
    opening: Opening,
    data: Data,
    store: Store,
    test: VectorTest,
}

/// No dock is open: every begin is refused with 201.
pub const CLOSED: Opening = Opening {
    align: Alignments::new(0, 0, 0, 0),
    bounce: 0,
    data: Lent { address: 0, length: 0 },
    scratch: Lent { address: 0, length: 0 },
};

/// The job as imago's future. Its vector points to the data.
fn future_of(port: &Arc<Port>, data: &Data, begin: &Begin) -> Task<io::Result<()>> {
    let port = Arc::clone(port);
    let (offset, length) = (begin.offset, begin.length);
    match begin.job {
        Job::Read => {
            let v = data.vector_mut(&begin.segments);
            Task::new(async move { port.readv(v, offset).await })
        }
        Job::Write => {
            let v = data.vector(&begin.segments);
            Task::new(async move { port.writev(v, offset).await })
        }
        Job::Zeroes => Task::new(async move { port.write_zeroes(offset, length).await }),
        Job::AllocatedZeroes => Task::new(async move { port.write_allocated_zeroes(offset, length).await }),
        Job::Discard => Task::new(async move { port.discard(offset, length).await }),
    }
}

impl ImagoSide {
    pub fn new(content: &Content) -> Self {
        ImagoSide {
            jobs: Default::default(),
            port: Arc::new(Port::new(CLOSED.align)),
            opening: CLOSED,
            data: Data::new(&content.data),
            store: content.store.clone(),
            test: content.test,
        }
    }

    fn in_flight(&self) -> Vec<InFlight<'_>> {
        let jobs = self.jobs.iter().flatten();
        jobs.map(|j| InFlight { reads: j.begin.job == Job::Read, segments: &j.begin.segments }).collect()
    }

    fn job(&self, slot: usize) -> Option<&Running> {
        self.jobs.get(slot)?.as_ref()
    }

    /// Asks imago: a job that ends at once takes no slot.
    fn ask(&mut self, begin: &Begin, course: Option<Course>) -> Begun {
        let slot = self.jobs.iter().position(Option::is_none).unwrap_or(port::SPARE);
        let mut task = future_of(&self.port, &self.data, begin);
        self.port.poll_for(slot);
        if let Some(result) = task.poll() {
            return match port::answer_of(result) {
                0 => Begun::Done,
                refusal => Begun::Refused(refusal),
            };
        }
        if slot == port::SPARE {
            return Begun::Refused(document::FULL);
        }
        self.jobs[slot] = Some(Running { begin: begin.clone(), task: Some(task), answer: 0, course, bounce: None });
        Begun::Slot(slot)
    }

    fn poll(&mut self, slot: usize) {
        self.port.poll_for(slot);
        let Some(job) = &mut self.jobs[slot] else { return };
        let Some(task) = &mut job.task else { return };
        if let Some(result) = task.poll() {
            job.answer = port::answer_of(result);
            job.task = None;
        }
    }

    fn woken(&self) -> Option<usize> {
        let is_woken = |j: &Running| j.task.as_ref().is_some_and(Task::is_woken);
        self.jobs.iter().position(|j| j.as_ref().is_some_and(is_woken))
    }

    /// How far into the bounce buffer a request's bytes lie: those of the second read of a padded write lie at its end.
    fn in_bounce(&self, slot: usize, pending: &Pending) -> u64 {
        let course = self.job(slot).and_then(|j| j.course.as_ref());
        let start = course.map_or(pending.offset, |c| c.stage().request.start);
        pending.offset.saturating_sub(start)
    }

    fn piece(&self, slot: usize, pending: &Pending, memory: &Memory) -> Piece {
        let length = memory.length as u64;
        match self.data.position(memory.address) {
            Some(start) => Piece::Data(Segment { start, length }),
            None => {
                let start = slot as u64 * self.opening.bounce + self.in_bounce(slot, pending);
                Piece::Scratch(Segment { start, length })
            }
        }
    }

    /// The name of a piece rests on this: within a stage, imago's bounce buffer stays where it is.
    fn check_bounce(&mut self, slot: usize, pending: &Pending) {
        let shift = self.in_bounce(slot, pending) as usize;
        let outside = |m: &&Memory| self.data.position(m.address).is_none();
        let Some(memory) = pending.pieces.iter().find(outside) else { return };
        let base = memory.address - shift;
        let job = self.jobs[slot].as_mut().expect("the request has a job");
        assert_eq!(*job.bounce.get_or_insert(base), base, "imago's bounce buffer moved within a stage");
        if pending.kind == Kind::Write {
            job.bounce = None;
        }
    }
}

impl Side for ImagoSide {
    fn open(&mut self, opening: &Opening) -> u8 {
        self.jobs = Default::default();
        self.opening = *opening;
        self.port = Arc::new(Port::new(opening.align));
        self.data.move_to(opening.data.address);
        document::opening(opening)
    }

    fn begin(&mut self, begin: &Begin) -> Begun {
        let data = self.data.bytes().len() as u64;
        match document::begin(&self.opening, (data, self.test), begin, &self.in_flight()) {
            First::Refused(refusal) if refusal != document::OVERFLOW => Begun::Refused(refusal),
            First::Starts(course) => self.ask(begin, Some(course)),
            First::Refused(_) | First::Done => self.ask(begin, None),
        }
    }

    fn next(&self, slot: usize) -> Due {
        let Some(job) = self.job(slot) else { return Due::Refused(document::SLOT) };
        if job.task.is_none() {
            return Due::Answer(job.answer);
        }
        let Some(pending) = self.port.pending(slot) else { return Due::Waiting };
        let pieces = pending.pieces.iter().map(|m| self.piece(slot, &pending, m)).collect();
        Due::Make(Request { kind: pending.kind, offset: pending.offset, length: pending.length, pieces })
    }

    fn carry(&mut self, slot: usize, act: Act) {
        let pending = self.port.pending(slot).expect("a request is out");
        self.check_bounce(slot, &pending);
        match pending.kind {
            Kind::Zero | Kind::AllocatedZero => self.store.zero(pending.offset, pending.length, act),
            Kind::Discard => self.store.discard(pending.offset, pending.length, act),
            Kind::Read | Kind::Write => {
                let mut at = pending.offset;
                for m in &pending.pieces {
                    // SAFETY: the job that lent this memory is suspended until its tell, and nothing else refers to it.
                    let piece = unsafe { slice::from_raw_parts_mut(m.address as *mut u8, m.length) };
                    match pending.kind {
                        Kind::Read => self.store.read(at, act, piece),
                        _ => self.store.write(at, act, piece),
                    }
                    at += m.length as u64;
                }
            }
        }
    }

    fn tell(&mut self, slot: usize, code: u8) -> u8 {
        let out = self.job(slot).is_some_and(|j| j.task.is_some()) && self.port.has_pending(slot);
        if !out {
            return document::SLOT;
        }
        if code >= document::FIRST_NO_ANSWER {
            return document::NO_ANSWER;
        }
        let job = self.jobs[slot].as_mut().expect("the slot has a job");
        if let Some(course) = &mut job.course {
            course.told(code);
        }
        self.port.tell(slot, code);
        self.poll(slot);
        while let Some(woken) = self.woken() {
            self.poll(woken);
        }
        0
    }

    fn collect(&mut self, slot: usize) -> Result<u8, u8> {
        match self.job(slot) {
            Some(job) if job.task.is_none() => {
                let answer = job.answer;
                self.jobs[slot] = None;
                Ok(answer)
            }
            _ => Err(document::SLOT),
        }
    }

    fn store(&self) -> &Store {
        &self.store
    }

    fn store_mut(&mut self) -> &mut Store {
        &mut self.store
    }

    fn data(&self) -> &[u8] {
        self.data.bytes()
    }

    fn data_mut(&mut self) -> &mut [u8] {
        self.data.bytes_mut()
    }
}
