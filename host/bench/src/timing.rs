//! Rounds of a call, long enough to be timed.

use std::time::{Duration, Instant};

const ROUND: Duration = Duration::from_millis(20);

/// The times of one side.
#[derive(Default)]
pub struct Timed {
    calls: u32,
    rounds: Vec<f64>,
}

#[repr(C)]
#[derive(Default)]
struct Timespec {
    seconds: i64,
    nanoseconds: i64,
}

/// Linux' number of the clock that runs while this thread does.
const THREAD_TIME: i32 = 3;

extern "C" {
    fn clock_gettime(clock: i32, time: *mut Timespec) -> i32;
}

/// Processor time of this thread: other programs on the machine do not count.
fn thread_time() -> Duration {
    let mut time = Timespec::default();
    // SAFETY: the pointer is valid, and the struct is C's on 64-bit Linux.
    assert_eq!(unsafe { clock_gettime(THREAD_TIME, &mut time) }, 0, "Linux has this clock");
    Duration::new(time.seconds as u64, time.nanoseconds as u32)
}

fn calls_take(calls: u32, f: &mut impl FnMut()) -> Duration {
    let start = thread_time();
    (0..calls).for_each(|_| f());
    thread_time() - start
}

/// So many calls that they take a round; the calls made to find out warm up.
fn calls_of_a_round(f: &mut impl FnMut()) -> u32 {
    let mut calls = 1;
    while calls_take(calls, f) < ROUND {
        calls *= 2;
    }
    calls
}

impl Timed {
    pub fn round(&mut self, mut f: impl FnMut()) {
        if self.calls == 0 {
            self.calls = calls_of_a_round(&mut f);
        }
        self.rounds.push(calls_take(self.calls, &mut f).as_nanos() as f64 / f64::from(self.calls));
    }

    /// Of the rounds, ns for a call.
    pub fn median(&self) -> f64 {
        median(&mut self.rounds.clone())
    }

    /// The round least disturbed by the rest of the machine.
    pub fn least(&self) -> f64 {
        self.rounds.iter().copied().fold(f64::INFINITY, f64::min)
    }
}

pub fn median(times: &mut [f64]) -> f64 {
    times.sort_by(f64::total_cmp);
    times[times.len() / 2]
}

/// The time of one long call, in ns.
pub fn once(f: impl FnOnce()) -> f64 {
    let start = Instant::now();
    f();
    start.elapsed().as_nanos() as f64
}
