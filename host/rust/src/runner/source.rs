//! Where jobs come from, and what their source is told.

use super::seats::Seats;
use crate::answer::{Answer, Kind, Request};
use crate::code::Code;
use crate::refusal::Refusal;
use std::fmt;

/// A job: what to do with a byte range of the store. A job of kind [`Kind::Zero`] or [`Kind::AllocatedZero`] makes the
/// whole range zeroes, one of kind [`Kind::Discard`] forgets the whole discard blocks within it.
#[derive(Clone, Copy, Debug, PartialEq, Eq)]
pub struct Job {
    /// What to do.
    pub kind: Kind,
    /// Where on the store the range starts.
    pub offset: u64,
    /// How many bytes it has: for a read or a write at most [`crate::Runner::longest`], for the others any number.
    pub length: u64,
}

/// What a source says when it is asked for a job. One that never says [`Next::End`] is asked forever.
#[derive(Clone, Copy, Debug, PartialEq, Eq)]
pub enum Next {
    /// This one.
    Job(Job),
    /// None now: ask again when all jobs in flight have ended, at once where there is none.
    Barrier,
    /// None now: ask again when a job in flight has ended, at once where there is none.
    Later,
    /// No more: nothing new is begun, the jobs in flight are finished, and the source is not asked again.
    End,
}

/// What requests have come to. One that failed, or is unsupported, counts as a request and moves no bytes.
#[derive(Clone, Copy, Debug, Default, PartialEq, Eq)]
pub struct Tally {
    /// Requests carried out, of any kind.
    pub requests: u64,
    /// Bytes that read requests have read, padding among them.
    pub read: u64,
    /// Bytes that write requests have written, padding among them.
    pub written: u64,
}

/// How a job has ended.
#[derive(Clone, Copy, Debug, PartialEq, Eq)]
pub struct Ended {
    /// Its number: the first job that the source gave in this run has 0, the next 1.
    pub number: u64,
    /// The job.
    pub job: Job,
    /// Its answer; or why it was refused, and then nothing was done.
    pub outcome: Result<Answer, Refusal>,
    /// What its requests came to.
    pub tally: Tally,
}

/// A request that was carried out and told, for a trace.
#[derive(Clone, Copy, Debug)]
pub struct Told<'a> {
    /// The slot of its job.
    pub slot: usize,
    /// The number of its job.
    pub number: u64,
    /// The request.
    pub request: Request,
    /// What the store said of it.
    pub code: Code,
    /// The jobs that wait after it.
    pub waiting: Waiting<'a>,
}

/// Where jobs come from. All its functions are called on the thread that called the runner.
pub trait Source {
    /// The next job, or that there is none now. Asked whenever a slot is free.
    fn next(&mut self) -> Next;

    /// Puts the bytes of a write into `bytes`, which has the job's length. Called once for each write that is not too
    /// long, before it is begun.
    fn fill(&mut self, number: u64, job: &Job, bytes: &mut [u8]);

    /// A job has ended, or was refused when it was to begin. `bytes` are those of a read that is answered
    /// [`Answer::Done`], otherwise none.
    fn ended(&mut self, ended: &Ended, bytes: &[u8]);

    /// A job has begun, in this slot. One without a request to make takes none, and only its end is told.
    fn begun(&mut self, _slot: usize, _number: u64, _job: &Job) {}

    /// A request was carried out, and its code told to the dock.
    fn told(&mut self, _told: &Told<'_>) {}
}

/// The jobs that wait for others.
#[derive(Clone, Copy)]
pub struct Waiting<'a> {
    pub(super) seats: &'a Seats,
}

impl Waiting<'_> {
    /// Slot and number of each, in the order of slots.
    pub fn iter(&self) -> impl Iterator<Item = (usize, u64)> + '_ {
        self.seats.waiting()
    }
}

impl fmt::Debug for Waiting<'_> {
    fn fmt(&self, f: &mut fmt::Formatter<'_>) -> fmt::Result {
        f.debug_list().entries(self.iter()).finish()
    }
}

impl Tally {
    /// Counts a request that came to this code.
    pub(super) fn count(&mut self, request: &Request, code: Code) {
        self.requests += 1;
        match request.kind {
            Kind::Read if code == Code::DONE => self.read += request.length,
            Kind::Write if code == Code::DONE => self.written += request.length,
            _ => {}
        }
    }

    /// Adds what another has counted.
    pub(super) fn add(&mut self, other: &Tally) {
        self.requests += other.requests;
        self.read += other.read;
        self.written += other.written;
    }
}
