//! What the runner costs. `speed FILE` times padded ten-byte writes in place on a file that it makes there, best in
//! memory, and the same system calls without a dock; then eight jobs on a store that takes a millisecond a request, by
//! threads and one after the other.

use pitch_dock::{Code, Ended, FileStore, Job, JobList, Kind, Next, Room, Runner, Settings, Source, Store, Tally};
use std::error::Error;
use std::fs::File;
use std::io::{IoSlice, IoSliceMut};
use std::os::unix::fs::FileExt;
use std::time::{Duration, Instant};
use std::{env, thread};

const SIZE: u64 = 1 << 20;
const JOBS: u64 = 15_000;
const ROUNDS: usize = 15;
const BLOCK: u64 = 512;
const BOUNCE: u64 = 65_536;
const EDIT: u64 = 10;
const LATENCY: Duration = Duration::from_millis(1);

/// Writes of ten bytes all over a file.
struct Edits {
    left: u64,
    failed: u64,
}

/// Where edit `i` starts.
fn place(i: u64) -> u64 {
    i.wrapping_mul(0x9e37_79b9_7f4a_7c15) % (SIZE - EDIT)
}

impl Source for Edits {
    fn next(&mut self) -> Next {
        if self.left == 0 {
            return Next::End;
        }
        self.left -= 1;
        Next::Job(Job { kind: Kind::Write, offset: place(self.left), length: EDIT })
    }

    fn fill(&mut self, _number: u64, _job: &Job, bytes: &mut [u8]) {
        bytes.fill(0xaa);
    }

    fn ended(&mut self, ended: &Ended, _bytes: &[u8]) {
        self.failed += u64::from(ended.outcome.map_or(1, |answer| answer.number()) != 0);
    }
}

/// A store that does nothing, slowly.
struct Slow;

impl Store for Slow {
    fn read(&self, _offset: u64, _pieces: &mut [IoSliceMut<'_>]) -> Code {
        thread::sleep(LATENCY);
        Code::DONE
    }

    fn write(&self, _offset: u64, _pieces: &[IoSlice<'_>]) -> Code {
        thread::sleep(LATENCY);
        Code::DONE
    }
}

/// Least and median time of several rounds.
fn time(rounds: usize, mut work: impl FnMut()) -> (Duration, Duration) {
    let mut times: Vec<Duration> = (0..rounds)
        .map(|_| {
            let start = Instant::now();
            work();
            start.elapsed()
        })
        .collect();
    times.sort();
    (times[0], times[rounds / 2])
}

fn show(name: &str, jobs: u64, (least, median): (Duration, Duration)) {
    let each = |time: Duration| time.as_secs_f64() * 1e6 / jobs as f64;
    println!("{name:<44} {:>10.2} {:>10.2}", each(least), each(median));
}

/// The system calls of the edits, one after the other: two reads of a block and a write.
fn bare(file: &File) -> std::io::Result<()> {
    let mut block = [0; BLOCK as usize];
    for i in 0..JOBS {
        let at = place(i) / BLOCK * BLOCK;
        file.read_at(&mut block, at)?;
        file.read_at(&mut block, at)?;
        file.write_all_at(&block, at)?;
    }
    Ok(())
}

fn time_edits(path: &str, runner: &mut Runner<'_>) -> Result<(), Box<dyn Error>> {
    let file = File::options().read(true).write(true).create(true).truncate(true).open(path)?;
    file.set_len(SIZE + BLOCK)?;
    let calls = time(ROUNDS, || bare(&file).expect("the file can be read and written"));
    show("system calls alone", JOBS, calls);
    let store = FileStore::new(file);
    let mut wrong = 0;
    let in_place = time(ROUNDS, || {
        let mut edits = Edits { left: JOBS, failed: 0 };
        runner.run(&mut edits, &store);
        wrong += edits.failed;
    });
    show("runner in place", JOBS, in_place);
    let threads = time(3, || {
        runner.run_threads(8, &mut Edits { left: JOBS, failed: 0 }, &store);
    });
    show("runner with 8 threads", JOBS, threads);
    assert_eq!(wrong, 0, "edits failed");
    Ok(())
}

/// Eight edits of ten bytes in eight blocks.
fn eight() -> JobList {
    let mut jobs = JobList::new();
    for i in 0..8 {
        jobs.write(i * BLOCK + 100, &[0xaa; EDIT as usize]);
    }
    jobs
}

fn time_slow(runner: &mut Runner<'_>) {
    let made = Tally { requests: 24, read: 16 * BLOCK, written: 8 * BLOCK };
    let alone = time(5, || assert_eq!(runner.run(&mut eight(), &Slow), made));
    let together = time(5, || assert_eq!(runner.run_threads(8, &mut eight(), &Slow), made));
    show("eight edits, 1 ms a request, one by one", 1, alone);
    show("eight edits, 1 ms a request, 8 threads", 1, together);
    println!("ratio of the medians {:.3}", together.1.as_secs_f64() / alone.1.as_secs_f64());
}

fn main() -> Result<(), Box<dyn Error>> {
    let path = env::args().nth(1).ok_or("speed FILE")?;
    let settings = Settings::of_row(1, BOUNCE).ok_or("no such row")?;
    let mut room = Room::new(&settings, 32_768);
    let (data, scratch) = room.parts();
    let mut runner = Runner::open(&settings, data, scratch)?;
    println!("{:<44} {:>10} {:>10}", "microseconds", "least", "median");
    time_edits(&path, &mut runner)?;
    time_slow(&mut runner);
    Ok(())
}
