//! A runner makes one combined call for each request; here the same jobs are served by the separate calls, the long way
//! round. What the source sees, and what is on the store at the end, is the same.

use super::*;
use crate::answer::{Begun, Due, Piece};
use crate::draw::Draw;
use crate::room::Room;
use crate::stores::{Faults, FaultyStore};
use std::io::{IoSlice, IoSliceMut};

const LONGEST: usize = 3000;
const STORE: usize = 40_000;

/// Jobs drawn from a seed, and all that their source sees, in order.
struct Drawn {
    draw: Draw,
    left: u64,
    seen: Vec<String>,
}

impl Source for Drawn {
    fn next(&mut self) -> Next {
        if self.left == 0 {
            return Next::End;
        }
        self.left -= 1;
        let kinds = [Kind::Read, Kind::Write, Kind::Write, Kind::Zero, Kind::AllocatedZero, Kind::Discard];
        let unit = [1, 1, 512, 4096][self.draw.below(4) as usize];
        let offset = match self.draw.below(20) {
            0 => u64::MAX - self.draw.below(3000),
            _ => self.draw.below(9000) / unit * unit,
        };
        let length = match self.draw.below(12) {
            0 => 0,
            1 => LONGEST as u64 + 1,
            2 | 3 => unit,
            _ => 1 + self.draw.below(LONGEST as u64),
        };
        Next::Job(Job { kind: kinds[self.draw.below(6) as usize], offset, length })
    }

    fn fill(&mut self, number: u64, job: &Job, bytes: &mut [u8]) {
        self.seen.push(format!("fill {number} {job:?}"));
        bytes.fill(number as u8);
    }

    fn ended(&mut self, ended: &Ended, bytes: &[u8]) {
        self.seen.push(format!("ended {ended:?} {bytes:?}"));
    }

    fn begun(&mut self, slot: usize, number: u64, job: &Job) {
        self.seen.push(format!("begun {slot} {number} {job:?}"));
    }

    fn told(&mut self, told: &Told<'_>) {
        self.seen.push(format!("{told:?}"));
    }
}

/// Serves jobs by separate calls.
struct Separately<'a> {
    dock: Dock<'a>,
    seats: Seats,
    asked: u64,
}

impl Separately<'_> {
    fn run(&mut self, order: Order, jobs: &mut Drawn, store: &FaultyStore) {
        let mut over = false;
        loop {
            while let Some(slot) = self.seats.free().filter(|_| !over) {
                match jobs.next() {
                    Next::Job(job) => self.begin(slot, job, jobs),
                    _ => over = true,
                }
            }
            let Some(slot) = self.seats.take_due(order) else { return };
            self.serve(slot, jobs, store);
        }
    }

    fn begin(&mut self, slot: usize, job: Job, jobs: &mut Drawn) {
        let (number, range) = (self.asked, slot * LONGEST..slot * LONGEST + (job.length as usize).min(LONGEST));
        self.asked += 1;
        let mut vector = Vector::new();
        if !range.is_empty() {
            vector.push(range.start, range.len());
        }
        let begun = match job.kind {
            Kind::Read | Kind::Write if job.length > LONGEST as u64 => Err(Refusal::Segment),
            Kind::Read => self.dock.begin_read(job.offset, &vector),
            Kind::Write => {
                jobs.fill(number, &job, self.dock.data_mut(range).unwrap());
                self.dock.begin_write(job.offset, &vector)
            }
            Kind::Zero => self.dock.begin_zeroes(false, job.offset, job.length),
            Kind::AllocatedZero => self.dock.begin_zeroes(true, job.offset, job.length),
            Kind::Discard => self.dock.begin_discard(job.offset, job.length),
        };
        let outcome = match begun {
            Ok(Begun::Slot(begun)) => {
                assert_eq!(begun, slot);
                self.seats.put(slot, number, job);
                jobs.begun(slot, number, &job);
                return self.look_at(slot);
            }
            Ok(Begun::Done) => Ok(Answer::Done),
            Err(refusal) => Err(refusal),
        };
        jobs.ended(&Ended { number, job, outcome, tally: Tally::default() }, &[]);
    }

    fn look_at(&mut self, slot: usize) {
        match self.dock.next(slot).unwrap() {
            Due::Waiting => self.seats.seat(slot).state = State::Waiting,
            Due::Make(_) => self.seats.mark_due(slot),
            Due::Answer(_) => {}
        }
    }

    fn serve(&mut self, slot: usize, jobs: &mut Drawn, store: &FaultyStore) {
        let Ok(Due::Make(request)) = self.dock.next(slot) else { panic!("a request is out") };
        let code = match request.kind {
            Kind::Zero => store.zero(request.offset, request.length),
            Kind::AllocatedZero => store.allocated_zero(request.offset, request.length),
            Kind::Discard => store.discard(request.offset, request.length),
            Kind::Read | Kind::Write => match self.dock.piece(slot, 0).unwrap() {
                Piece::Fill(bytes) => store.read(request.offset, &mut [IoSliceMut::new(bytes)]),
                Piece::Take(bytes) => store.write(request.offset, &[IoSlice::new(bytes)]),
            },
        };
        self.dock.tell(slot, code.number()).unwrap();
        self.seats.seat(slot).tally.count(&request, code);
        let number = self.seats.seat(slot).number;
        self.look_at(slot);
        for waiting in 0..SLOTS {
            if self.seats.waits(waiting) {
                self.look_at(waiting);
            }
        }
        jobs.told(&Told { slot, number, request, code, waiting: Waiting { seats: &self.seats } });
        if let Ok(Due::Answer(answer)) = self.dock.next(slot) {
            self.end(slot, answer, jobs);
        }
    }

    fn end(&mut self, slot: usize, answer: Answer, jobs: &mut Drawn) {
        assert_eq!(self.dock.collect(slot), Ok(answer));
        let seat = self.seats.leave(slot);
        let ended = Ended { number: seat.number, job: seat.job, outcome: Ok(answer), tally: seat.tally };
        let shown = seat.job.kind == Kind::Read && answer == Answer::Done;
        let start = slot * LONGEST;
        let bytes = if shown { &self.dock.data()[start..start + seat.job.length as usize] } else { &[] };
        jobs.ended(&ended, bytes);
    }
}

fn store(seed: u64) -> FaultyStore {
    let mut draw = Draw::new(seed);
    let (failing, unsupported) = ([0, 40, 9][draw.below(3) as usize], [0, 1, 3][draw.below(3) as usize]);
    let faults = Faults { seed: draw.any(), failing, unsupported, ..Faults::default() };
    FaultyStore::new((0..STORE as u32).map(|i| (i % 249) as u8).collect(), faults)
}

fn drawn(seed: u64) -> Drawn {
    Drawn { draw: Draw::new(!seed), left: 60, seen: Vec::new() }
}

#[test]
fn a_runner_makes_what_separate_calls_make_in_every_order() {
    let mut lines = 0;
    for seed in 0..240 {
        let settings = Settings::of_row([0, 1, 2, 4][seed as usize % 4], 16_384).unwrap();
        // All parts of the data start at the same place modulo the alignments here and there.
        let settings = Settings { mem: settings.mem.min(8), ..settings };
        let order = [Order::First, Order::RoundRobin, Order::Seed(seed)][seed as usize % 3];
        let (stores, mut jobs) = ([store(seed), store(seed)], [drawn(seed), drawn(seed)]);
        let mut rooms = [Room::new(&settings, LONGEST), Room::new(&settings, LONGEST)];
        let [first, second] = rooms.each_mut().map(Room::parts);
        let mut runner = Runner::open(&settings, first.0, first.1).unwrap();
        assert_eq!(runner.longest(), LONGEST as u64);
        runner.set_order(order);
        runner.run(&mut jobs[0], &stores[0]);
        let dock = Dock::open(&settings, second.0, second.1).unwrap();
        Separately { dock, seats: Seats::new(order), asked: 0 }.run(order, &mut jobs[1], &stores[1]);
        assert_eq!(jobs[0].seen, jobs[1].seen, "seed {seed}");
        assert!(stores[0].look(<[u8]>::to_vec) == stores[1].look(<[u8]>::to_vec), "seed {seed}");
        lines += jobs[0].seen.len();
    }
    assert!(lines > 30_000, "{lines}");
}
