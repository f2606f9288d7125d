//! The runner: serves jobs until they are done.

use crate::answer::{Answer, Kind};
use crate::code::Code;
use crate::dock::{Dock, Settings, SLOTS};
use crate::raw::{Loan, Sight};
use crate::refusal::Refusal;
use crate::store::Store;
use crate::vector::Vector;
use std::ops::Range;
use std::thread;

mod crew;
mod list;
mod seats;
mod source;

use crew::{Crew, Desk, InPlace, Workers};
pub use list::JobList;
use seats::{Seats, State};
pub use source::{Ended, Job, Next, Source, Tally, Told, Waiting};

/// Which of the requests that are due is carried out next.
#[derive(Clone, Copy, Debug, Default, PartialEq, Eq)]
pub enum Order {
    /// The one that has been due longest.
    #[default]
    First,
    /// That of the next slot after the one taken last.
    RoundRobin,
    /// As this seed draws it.
    Seed(u64),
}

/// Serves jobs of a source on a store: begins them as slots get free, up to eight at once, has their requests carried
/// out, tells the codes, and hands the answers to the source.
///
/// The data is cut into eight parts, one for each slot, and a job's bytes lie in its slot's part. Where two jobs in
/// flight change the same byte of the store, either may come last; a barrier between them decides it.
pub struct Runner<'buf> {
    dock: Dock<'buf>,
    /// The length of a slot's part of the data.
    part: usize,
    order: Order,
    seats: Seats,
    gate: Gate,
    /// How many jobs the source has given in this run.
    asked: u64,
    /// What the requests of jobs that have ended came to.
    tally: Tally,
}

/// Whether the source is asked for jobs.
#[derive(Clone, Copy, PartialEq, Eq)]
enum Gate {
    Open,
    /// When no job is in flight.
    Barrier,
    /// When a job has ended.
    Later,
    /// No more.
    Over,
}

impl<'buf> Runner<'buf> {
    /// Opens a runner. Scratch has at least 8 bounce buffers and starts at a multiple of `mem`: [`crate::Room`] has
    /// both buffers. [`Refusal::Unfit`], [`Refusal::Buffer`].
    pub fn open(settings: &Settings, data: &'buf mut [u8], scratch: &'buf mut [u8]) -> Result<Runner<'buf>, Refusal> {
        let eighth = data.len() / SLOTS;
        let dock = Dock::open(settings, data, scratch)?;
        let past = eighth % settings.mem as usize;
        let part = if past < eighth { eighth - past } else { eighth };
        let order = Order::default();
        let tally = Tally::default();
        Ok(Runner { dock, part, order, seats: Seats::new(order), gate: Gate::Open, asked: 0, tally })
    }

    /// How many bytes a read or a write may have: an eighth of the data, rounded down to the memory alignment where
    /// that leaves any. A longer one is refused with [`Refusal::Segment`].
    pub fn longest(&self) -> u64 {
        self.part as u64
    }

    /// Sets in which order due requests are carried out; [`Order::First`] where it is not called. With worker threads
    /// it is the order in which they take them.
    pub fn set_order(&mut self, order: Order) {
        self.order = order;
    }

    /// Runs the source's jobs in place, until all have ended: this thread carries out the requests, one after the
    /// other, and nothing is allocated. What all requests came to.
    ///
    /// # Panics
    ///
    /// Where source or store panic. The runner is of no use then, and panics when it is run again; its buffers are.
    pub fn run<J: Source + ?Sized, S: Store + ?Sized>(&mut self, jobs: &mut J, store: &S) -> Tally {
        self.serve(jobs, &mut InPlace { store, done: None })
    }

    /// Runs the source's jobs, until all have ended, with requests carried out by 1 to 8 worker threads, so that as
    /// many are out together. The threads end with the run; where the system gives fewer, these do, and where it gives
    /// none the run is in place. What all requests came to.
    ///
    /// This is for stores that take their time: to hand a request to a thread and back costs some microseconds, so that
    /// on a store that answers at once [`Runner::run`] is faster.
    ///
    /// # Panics
    ///
    /// As [`Runner::run`], after the requests that workers are at.
    pub fn run_threads<J: Source + ?Sized, S: Store + ?Sized>(
        &mut self,
        workers: usize,
        jobs: &mut J,
        store: &S,
    ) -> Tally {
        let desk = Desk::new();
        thread::scope(|scope| {
            let hire = |_| thread::Builder::new().name("store".into()).spawn_scoped(scope, || desk.work(store)).ok();
            let hired: Vec<_> = (0..workers.clamp(1, SLOTS)).map_while(hire).collect();
            let mut crew = Workers::new(&desk, hired.len());
            let tally = if hired.is_empty() { self.run(jobs, store) } else { self.serve(jobs, &mut crew) };
            drop(crew);
            // The scope would wait for them too; a join is what tools see that follow threads.
            hired.into_iter().for_each(|worker| worker.join().expect("a worker hands on panics of the store"));
            tally
        })
    }

    /// Begins jobs, hands out their requests and takes them back until the source has no more and all have ended.
    fn serve<J: Source + ?Sized>(&mut self, jobs: &mut J, crew: &mut impl Crew<'buf>) -> Tally {
        assert!(self.seats.is_empty(), "an earlier run of this runner panicked: open another");
        self.seats = Seats::new(self.order);
        (self.gate, self.asked, self.tally) = (Gate::Open, 0, Tally::default());
        loop {
            self.begin_jobs(jobs);
            while crew.is_free() {
                let Some(slot) = self.seats.take_due(self.order) else { break };
                crew.hand_out(self.dock.lend(slot).expect("a request that is due is out"));
            }
            let Some((loan, code)) = crew.take_back() else { break };
            self.complete(loan, code, jobs);
        }
        assert!(self.seats.is_empty(), "by document 01's waiting rule not all jobs wait");
        self.tally
    }

    /// Asks the source for jobs and begins them while there is a free slot and the gate is open.
    fn begin_jobs<J: Source + ?Sized>(&mut self, jobs: &mut J) {
        loop {
            if self.gate != Gate::Over && self.seats.is_empty() {
                self.gate = Gate::Open;
            }
            let Some(slot) = self.seats.free().filter(|_| self.gate == Gate::Open) else { return };
            match jobs.next() {
                Next::Job(job) => self.begin(slot, job, jobs),
                Next::Barrier => self.gate = Gate::Barrier,
                Next::Later => self.gate = Gate::Later,
                Next::End => self.gate = Gate::Over,
            }
        }
    }

    /// Begins a job in `slot`, the lowest free one.
    fn begin<J: Source + ?Sized>(&mut self, slot: usize, job: Job, jobs: &mut J) {
        let number = self.asked;
        self.asked += 1;
        let outcome = match self.submit(slot, number, &job, jobs) {
            Sight::Refused(refusal) => Err(refusal),
            Sight::Answer(answer) => Ok(answer),
            Sight::Waiting(begun) => return self.sit_down(slot, begun, (number, job), jobs),
            Sight::Make(out) => {
                self.sit_down(slot, out.slot, (number, job), jobs);
                return self.seats.mark_due(slot);
            }
        };
        jobs.ended(&Ended { number, job, outcome, tally: Tally::default() }, &[]);
    }

    /// Puts a job that has begun into its slot, where it waits for now.
    fn sit_down<J: Source + ?Sized>(&mut self, slot: usize, begun: usize, (number, job): (u64, Job), jobs: &mut J) {
        assert_eq!(begun, slot, "begin takes the lowest free slot");
        self.seats.put(slot, number, job);
        jobs.begun(slot, number, &job);
    }

    fn submit<J: Source + ?Sized>(&mut self, slot: usize, number: u64, job: &Job, jobs: &mut J) -> Sight {
        let vector = match self.vector(slot, job) {
            Ok(vector) => vector,
            Err(refusal) => return Sight::Refused(refusal),
        };
        if job.kind == Kind::Write {
            jobs.fill(number, job, self.bytes(slot, job));
        }
        self.dock.submit(job.kind, (job.offset, job.length), &vector)
    }

    /// Where in the data the bytes of a job in a slot lie. The job is not longer than the slot's part.
    fn range(&self, slot: usize, job: &Job) -> Range<usize> {
        let start = slot * self.part;
        start..start + job.length as usize
    }

    /// The vector of a job in a slot: the bytes of a read or a write as one segment, which is never empty.
    fn vector(&self, slot: usize, job: &Job) -> Result<Vector, Refusal> {
        match job.length {
            _ if !matches!(job.kind, Kind::Read | Kind::Write) => Ok(Vector::new()),
            0 => Ok(Vector::new()),
            length if length > self.longest() => Err(Refusal::Segment),
            length => Ok(Vector::of(slot * self.part, length as usize)),
        }
    }

    /// The bytes of a job in a slot that is not in flight.
    fn bytes(&mut self, slot: usize, job: &Job) -> &mut [u8] {
        let range = self.range(slot, job);
        self.dock.data_mut(range).expect("a slot's part is used by its job alone")
    }

    /// Takes a request back that was carried out, hands in its code, and sees what has changed by it.
    fn complete<J: Source + ?Sized>(&mut self, loan: Loan<'buf>, code: Code, jobs: &mut J) {
        let (slot, request) = (loan.slot(), loan.request());
        let sight = self.dock.take_back(loan, code.number());
        let seat = self.seats.seat(slot);
        seat.tally.count(&request, code);
        let number = seat.number;
        let answer = self.note(slot, sight);
        for waiting in 0..SLOTS {
            if self.seats.waits(waiting) && waiting != slot {
                let sight = self.dock.sight(waiting);
                let ended = self.note(waiting, sight);
                assert_eq!(ended, None, "a job does not end while it waits");
            }
        }
        jobs.told(&Told { slot, number, request, code, waiting: Waiting { seats: &self.seats } });
        if let Some(answer) = answer {
            self.end(slot, answer, jobs);
        }
    }

    /// Notes what the job in a slot in flight needs now; its answer where it has ended.
    fn note(&mut self, slot: usize, sight: Sight) -> Option<Answer> {
        match sight {
            Sight::Waiting(_) => self.seats.seat(slot).state = State::Waiting,
            Sight::Make(_) => self.seats.mark_due(slot),
            Sight::Answer(answer) => return Some(answer),
            Sight::Refused(refusal) => panic!("the slot is in flight, and each code is an answer: {refusal}"),
        }
        None
    }

    /// Frees the slot of a job that has ended, and shows its bytes to the source.
    fn end<J: Source + ?Sized>(&mut self, slot: usize, answer: Answer, jobs: &mut J) {
        let seat = self.seats.leave(slot);
        self.tally.add(&seat.tally);
        if self.gate == Gate::Later {
            self.gate = Gate::Open;
        }
        let ended = Ended { number: seat.number, job: seat.job, outcome: Ok(answer), tally: seat.tally };
        let shown = seat.job.kind == Kind::Read && answer == Answer::Done;
        jobs.ended(&ended, if shown { self.bytes(slot, &seat.job) } else { &[] });
    }
}

#[cfg(test)]
mod separate_tests;
#[cfg(test)]
mod tests;
