//! The dock behind its C boundary, over a store in memory.

use crate::dock_words::{Reply, Row, Shown, Words, ANSWERED, NO_NUMBER, OUT, WAITING};
use crate::floor::{Copies, Copy};
use crate::work::{memory, mixed, store, Case, Job, Kind, DATA, SHARE};
use std::time::{Duration, Instant};

/// By which calls the jobs are served.
#[derive(Clone, Copy, PartialEq, Eq)]
pub enum Form {
    /// begin, next, piece, tell, collect.
    Separate,
    /// submit, complete, and show of what waits.
    Combined,
}

pub struct Dock {
    words: Words,
    pub data: &'static mut [u8],
    pub scratch: &'static mut [u8],
    pub store: &'static mut [u8],
}

fn row(job: &Job) -> Row {
    let mut row = [0; 34];
    row[..4].copy_from_slice(&[1, job.length as u64, job.start as u64, job.length as u64]);
    row
}

fn slot(reply: Reply) -> usize {
    assert!(reply.number == NO_NUMBER && reply.count == 1, "the job gets a slot: {reply:?}");
    reply.value[0] as usize
}

const READ: u64 = 0;
const WRITE: u64 = 1;
/// What next says of a free slot.
const NO_SLOT: u64 = 208;

impl Dock {
    pub fn new(align: [u64; 4]) -> Self {
        let (data, scratch, store) = (memory(DATA), memory(8 * SHARE), store());
        mixed(store, 1);
        mixed(data, 2);
        mixed(scratch, 3);
        let mut words = Words::default();
        let buffers = [data.as_ptr() as u64, DATA as u64, scratch.as_ptr() as u64, 8 * SHARE as u64];
        assert_eq!(words.open(align, SHARE as u64, buffers), 0, "the dock opens");
        Dock { words, data, scratch, store }
    }

    fn begin(&mut self, job: &Job) -> usize {
        let (data, scratch) = (&*self.data, &mut *self.scratch);
        slot(match job.kind {
            Kind::Read => self.words.begin_read(job.offset, &row(job), data, scratch),
            Kind::Write => self.words.begin_write(job.offset, &row(job), data, scratch),
            Kind::Zeroes => self.words.begin_zeroes(false, job.offset, job.length as u64, data, scratch),
        })
    }

    /// The request, as kind, offset, length and count of pieces, is carried out.
    fn carry(&mut self, slot: usize, request: [u64; 4]) {
        let [kind, offset, length, pieces] = request;
        if kind > WRITE {
            return self.store[offset as usize..(offset + length) as usize].fill(0);
        }
        let mut at = offset as usize;
        for i in 0..pieces as usize {
            let [buffer, start, length, _] = self.words.piece(slot, i, (DATA, 8 * SHARE)).value;
            self.carry_piece(kind, at, [buffer, start, length]);
            at += length as usize;
        }
    }

    /// A piece, as buffer, start and length, is read from the store at `at`, or written there.
    fn carry_piece(&mut self, kind: u64, at: usize, [buffer, start, length]: [u64; 3]) {
        let bytes = if buffer == 0 { &mut *self.data } else { &mut *self.scratch };
        let piece = &mut bytes[start as usize..(start + length) as usize];
        let stored = &mut self.store[at..at + piece.len()];
        match kind {
            READ => piece.copy_from_slice(stored),
            _ => stored.copy_from_slice(piece),
        }
    }

    /// The copies that the requests of a case make, in their order: its jobs are served once, in turn.
    pub fn copies(&mut self, case: &Case) -> Vec<Copy> {
        let mut copies = Vec::new();
        let slots: Vec<usize> = case.jobs.iter().map(|job| self.begin(job)).collect();
        let mut left = slots.len();
        while left > 0 {
            for &slot in &slots {
                self.note_copies(slot, &mut copies);
                left -= usize::from(self.is_in_flight(slot) && self.serve(slot));
            }
        }
        copies
    }

    fn is_in_flight(&self, slot: usize) -> bool {
        let reply = self.words.next(slot, (DATA, 8 * SHARE));
        reply.number != NO_SLOT
    }

    /// Notes the copies of the request that is out for a slot, if one is.
    fn note_copies(&self, slot: usize, copies: &mut Vec<Copy>) {
        let reply = self.words.next(slot, (DATA, 8 * SHARE));
        if reply.number != NO_NUMBER || reply.count != 4 {
            return;
        }
        let [kind, offset, length, pieces] = reply.value;
        if kind > WRITE {
            copies.push(Copy::Zeroes(offset as usize..(offset + length) as usize));
        }
        let mut at = offset as usize;
        for i in 0..pieces as usize {
            let [buffer, start, length, _] = self.words.piece(slot, i, (DATA, 8 * SHARE)).value;
            let part = (buffer, start as usize..(start + length) as usize);
            copies.push(if kind == READ { Copy::FromStore(part, at) } else { Copy::ToStore(part, at) });
            at += length as usize;
        }
    }

    /// Makes them, and nothing else.
    pub fn make_copies(&mut self, copies: &[Copy]) {
        Copies { data: self.data, scratch: self.scratch, store: self.store }.make(copies);
    }

    fn tell(&mut self, slot: usize, code: u8) {
        let told = self.words.tell(slot, code, self.data, self.scratch);
        debug_assert_eq!(told, 0);
    }

    /// What the job in a slot needs. Whether it ended.
    fn serve(&mut self, slot: usize) -> bool {
        let reply = self.words.next(slot, (DATA, 8 * SHARE));
        if reply.number != NO_NUMBER {
            assert_eq!(self.words.collect(slot, (DATA, 8 * SHARE)), 0, "the job is answered 0");
            return true;
        }
        if reply.count == 4 {
            self.carry(slot, reply.value);
            self.tell(slot, 0);
        }
        false
    }

    pub fn run(&mut self, case: &Case, form: Form) {
        match (&case.jobs[..], form) {
            ([job], Form::Separate) => {
                let slot = self.begin(job);
                while !self.serve(slot) {}
            }
            (jobs, Form::Separate) => self.several(jobs),
            ([job], Form::Combined) => {
                let mut shown = [0; 9];
                self.submit(job, &mut shown);
                while shown[0] != ANSWERED {
                    self.complete(&mut shown);
                }
            }
            (jobs, Form::Combined) => self.several_combined(jobs),
        }
    }

    fn submit(&mut self, job: &Job, shown: &mut Shown) {
        let (data, scratch) = (&*self.data, &mut *self.scratch);
        match job.kind {
            Kind::Read => self.words.submit_read(job.offset, &row(job), data, scratch, shown),
            Kind::Write => self.words.submit_write(job.offset, &row(job), data, scratch, shown),
            Kind::Zeroes => {
                self.words.submit_zeroes(false, [job.offset, job.length as u64], data, scratch, shown);
            }
        }
    }

    /// The request that is shown, whose pieces are one at most, is carried out and completed, which shows the next.
    fn complete(&mut self, shown: &mut Shown) {
        let [what, slot, kind, offset, length, pieces, buffer, start, bytes] = *shown;
        assert!(what == OUT && pieces <= 1, "a request of one piece is out: {shown:?}");
        if kind > WRITE {
            self.store[offset as usize..(offset + length) as usize].fill(0);
        } else {
            self.carry_piece(kind, offset as usize, [buffer, start, bytes]);
        }
        self.words.complete(slot as usize, 0, self.data, self.scratch, shown);
        assert!(shown[0] != ANSWERED || shown[1] == 0, "the job is answered 0: {shown:?}");
    }

    /// Every job is served in turn, until all ended; one that waits is shown again in its turn.
    fn several_combined(&mut self, jobs: &[Job]) {
        let mut shown = [[ANSWERED, 0, 0, 0, 0, 0, 0, 0, 0]; 8];
        for (shown, job) in shown.iter_mut().zip(jobs) {
            self.submit(job, shown);
        }
        while shown.iter().any(|shown| shown[0] != ANSWERED) {
            for shown in &mut shown {
                match shown[0] {
                    ANSWERED => {}
                    WAITING => self.words.show(shown[1] as usize, (DATA, 8 * SHARE), shown),
                    _ => self.complete(shown),
                }
            }
        }
    }

    /// Every job is served in turn, until all ended.
    fn several(&mut self, jobs: &[Job]) {
        let mut slots = [None; 8];
        for (slot, job) in slots.iter_mut().zip(jobs) {
            *slot = Some(self.begin(job));
        }
        while slots.iter().any(Option::is_some) {
            for slot in &mut slots {
                if slot.is_some_and(|s| self.serve(s)) {
                    *slot = None;
                }
            }
        }
    }

    /// Runs a job whose first request is told `first`, and gives the time of the longest tell: the one that copies.
    pub fn longest_tell(&mut self, job: &Job, first: u8) -> Duration {
        let slot = self.begin(job);
        let (mut longest, mut code) = (Duration::ZERO, first);
        loop {
            let reply = self.words.next(slot, (DATA, 8 * SHARE));
            if reply.number != NO_NUMBER {
                assert_eq!(self.words.collect(slot, (DATA, 8 * SHARE)), 0, "the job is answered 0");
                return longest;
            }
            self.carry(slot, reply.value);
            let start = Instant::now();
            self.tell(slot, code);
            longest = longest.max(start.elapsed());
            code = 0;
        }
    }
}
