//! The bytes of a request that a worker holds are its own: while it holds those of a read, nobody else touches them,
//! and while it holds those of a write, nobody changes them. The store here has no lock, so that `races/run` finds
//! whatever touches them at the same time.

use pitch_dock::{Answer, Code, Ended, Job, Kind, Next, Room, Runner, Settings, Source, Store, Tally, Told};
use std::env;
use std::hint::black_box;
use std::io::{IoSlice, IoSliceMut};
use std::thread;
use std::time::Duration;

const LONGEST: usize = 5000;
const HELD: Duration = Duration::from_micros(300);

/// What a read of the store at this offset gives, in each byte.
fn filling(offset: u64) -> u8 {
    (offset / 512) as u8 ^ 0x5a
}

/// A store that holds the bytes for a while, and looks whether they have changed meanwhile. It touches them one by one:
/// of memset and memcpy valgrind misses races.
struct Holder;

fn code(kept: bool) -> Code {
    if kept {
        Code::DONE
    } else {
        Code::failed(71)
    }
}

impl Store for Holder {
    fn read(&self, offset: u64, pieces: &mut [IoSliceMut<'_>]) -> Code {
        for byte in pieces.iter_mut().flat_map(|piece| piece.iter_mut()) {
            *byte = black_box(filling(offset));
        }
        thread::sleep(HELD);
        let mut bytes = pieces.iter().flat_map(|piece| piece.iter());
        code(bytes.all(|byte| black_box(*byte) == filling(offset)))
    }

    fn write(&self, _offset: u64, pieces: &[IoSlice<'_>]) -> Code {
        let bytes = || pieces.iter().flat_map(|piece| piece.iter()).map(|byte| black_box(*byte));
        let before: Vec<u8> = bytes().collect();
        thread::sleep(HELD);
        code(bytes().eq(before))
    }
}

/// Jobs of all kinds over and beside each other.
struct Jobs {
    left: u64,
    drawn: u64,
    /// Where each job's last request started, by number.
    last: Vec<u64>,
}

impl Jobs {
    fn below(&mut self, count: u64) -> u64 {
        self.drawn = self.drawn.wrapping_mul(6_364_136_223_846_793_005).wrapping_add(1_442_695_040_888_963_407);
        (self.drawn >> 33) % count
    }
}

impl Source for Jobs {
    fn next(&mut self) -> Next {
        if self.left == 0 {
            return Next::End;
        }
        self.left -= 1;
        self.last.push(0);
        let kinds = [Kind::Read, Kind::Read, Kind::Write, Kind::Write, Kind::Zero];
        let kind = kinds[self.below(5) as usize];
        let unit = [1, 512, 4096][self.below(3) as usize];
        let (offset, length) = (self.below(30_000) / unit * unit, (1 + self.below(4000)).next_multiple_of(unit));
        Next::Job(Job { kind, offset, length })
    }

    fn fill(&mut self, number: u64, _job: &Job, bytes: &mut [u8]) {
        bytes.fill(number as u8);
    }

    fn told(&mut self, told: &Told<'_>) {
        self.last[told.number as usize] = told.request.offset;
    }

    fn ended(&mut self, ended: &Ended, bytes: &[u8]) {
        assert_eq!(ended.outcome, Ok(Answer::Done), "{ended:?}");
        let filled = filling(self.last[ended.number as usize]);
        assert!(bytes.iter().all(|&byte| byte == filled), "{ended:?}");
    }
}

fn run(row: usize, jobs: u64, seed: u64) -> Tally {
    let settings = Settings::of_row(row, 16_384).expect("a row");
    let mut room = Room::new(&settings, LONGEST);
    let (data, scratch) = room.parts();
    let mut runner = Runner::open(&settings, data, scratch).expect("settings that fit");
    let mut source = Jobs { left: jobs, drawn: seed, last: Vec::new() };
    runner.run_threads(8, &mut source, &Holder)
}

#[test]
fn bytes_that_are_lent_are_the_holder_s_alone() {
    let number = |name: &str, or: u64| env::var(name).map_or(or, |text| text.parse().expect("a number"));
    let (jobs, seed) = (number("DOCK_JOBS", 300), number("DOCK_SEED", 1));
    for row in 0..6 {
        let tally = run(row, jobs, seed);
        println!("row {row}: {tally:?}");
        assert!(tally.requests > jobs);
    }
}
