//! A source that is a list.

use super::source::{Ended, Job, Next, Source};
use crate::answer::Kind;
use std::collections::VecDeque;

/// A list of jobs, and after a run how each has ended. Its jobs have the numbers 0, 1, .. in the order in which they
/// were added. It is run once, and takes no more jobs afterwards.
#[derive(Clone, Debug, Default)]
pub struct JobList {
    left: VecDeque<Next>,
    jobs: Vec<Entry>,
    over: bool,
}

/// A job of the list: the bytes that it writes or has read, and how it has ended.
#[derive(Clone, Debug, Default)]
struct Entry {
    bytes: Vec<u8>,
    ended: Option<Ended>,
}

impl JobList {
    /// An empty list.
    pub fn new() -> JobList {
        JobList::default()
    }

    /// Adds a read of `length` bytes at `offset`; its number.
    pub fn read(&mut self, offset: u64, length: u64) -> u64 {
        self.add(Job { kind: Kind::Read, offset, length }, Vec::new())
    }

    /// Adds a write of `bytes` at `offset`; its number.
    pub fn write(&mut self, offset: u64, bytes: &[u8]) -> u64 {
        self.add(Job { kind: Kind::Write, offset, length: bytes.len() as u64 }, bytes.to_vec())
    }

    /// Adds zeroes over `length` bytes at `offset`, to be kept allocated if `allocate`; their number.
    pub fn zeroes(&mut self, allocate: bool, offset: u64, length: u64) -> u64 {
        let kind = if allocate { Kind::AllocatedZero } else { Kind::Zero };
        self.add(Job { kind, offset, length }, Vec::new())
    }

    /// Adds a discard of the whole discard blocks within `length` bytes at `offset`; its number.
    pub fn discard(&mut self, offset: u64, length: u64) -> u64 {
        self.add(Job { kind: Kind::Discard, offset, length }, Vec::new())
    }

    /// Adds a barrier: what comes after it begins when all before it have ended.
    pub fn barrier(&mut self) {
        self.left.push_back(Next::Barrier);
    }

    /// How the job of this number has ended; None where it has not.
    pub fn ended(&self, number: u64) -> Option<&Ended> {
        self.jobs.get(number as usize)?.ended.as_ref()
    }

    /// The bytes of the job of this number: what a write writes, or what a read answered 0 has read; otherwise none.
    pub fn bytes(&self, number: u64) -> &[u8] {
        self.jobs.get(number as usize).map_or(&[], |entry| &entry.bytes)
    }

    fn add(&mut self, job: Job, bytes: Vec<u8>) -> u64 {
        assert!(!self.over, "a list that was run takes no more jobs: the numbers of a run begin at 0");
        self.left.push_back(Next::Job(job));
        self.jobs.push(Entry { bytes, ended: None });
        self.jobs.len() as u64 - 1
    }
}

impl Source for JobList {
    fn next(&mut self) -> Next {
        let next = self.left.pop_front();
        self.over = next.is_none();
        next.unwrap_or(Next::End)
    }

    fn fill(&mut self, number: u64, _job: &Job, bytes: &mut [u8]) {
        bytes.copy_from_slice(&self.jobs[number as usize].bytes);
    }

    fn ended(&mut self, ended: &Ended, bytes: &[u8]) {
        let entry = &mut self.jobs[ended.number as usize];
        entry.ended = Some(*ended);
        if ended.job.kind == Kind::Read {
            entry.bytes = bytes.to_vec();
        }
    }
}
