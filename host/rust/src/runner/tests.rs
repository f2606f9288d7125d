use super::*;
use crate::room::Room;
use crate::stores::MemoryStore;
use std::collections::VecDeque;
use std::io::{IoSlice, IoSliceMut};
use std::panic::{catch_unwind, AssertUnwindSafe};
use std::sync::{Condvar, Mutex};
use std::time::Duration;

const LONGEST: usize = 5000;

/// Calls `test` with a runner of drive row 1, bounce buffers of 4096 bytes, and longest jobs of 5000.
fn with_runner<T>(test: impl FnOnce(&mut Runner<'_>) -> T) -> T {
    let settings = Settings::of_row(1, 4096).unwrap();
    let mut room = Room::new(&settings, LONGEST);
    let (data, scratch) = room.parts();
    test(&mut Runner::open(&settings, data, scratch).unwrap())
}

/// Runs in place where `workers` is 0, otherwise with so many.
fn run(runner: &mut Runner<'_>, workers: usize, jobs: &mut dyn Source, store: &dyn Store) -> Tally {
    match workers {
        0 => runner.run(jobs, store),
        _ => runner.run_threads(workers, jobs, store),
    }
}

/// What a source saw, in order.
#[derive(Clone, Debug, PartialEq)]
enum Seen {
    Asked,
    Filled(u64),
    Begun(usize, u64),
    Told { number: u64, request: (Kind, u64, u64), code: u8, waiting: Vec<(usize, u64)> },
    Ended(u64, Result<u8, Refusal>),
}

/// Says what it was given, and keeps what it saw. Writes have their number in each byte.
#[derive(Default)]
struct Script {
    says: VecDeque<Next>,
    seen: Vec<Seen>,
    /// Say no more once a job has failed.
    stops: bool,
    failed: bool,
}

impl Script {
    fn new(says: impl IntoIterator<Item = Next>) -> Script {
        Script { says: says.into_iter().collect(), ..Script::default() }
    }

    fn ends(&self) -> Vec<(u64, Result<u8, Refusal>)> {
        let ends = self.seen.iter().filter_map(|seen| match seen {
            Seen::Ended(number, outcome) => Some((*number, *outcome)),
            _ => None,
        });
        ends.collect()
    }

    /// The numbers of the jobs whose requests were carried out, in that order.
    fn served(&self) -> Vec<u64> {
        let told = self.seen.iter().filter_map(|seen| match seen {
            Seen::Told { number, .. } => Some(*number),
            _ => None,
        });
        told.collect()
    }
}

impl Source for Script {
    fn next(&mut self) -> Next {
        self.seen.push(Seen::Asked);
        if self.stops && self.failed {
            return Next::End;
        }
        self.says.pop_front().unwrap_or(Next::End)
    }

    fn fill(&mut self, number: u64, _job: &Job, bytes: &mut [u8]) {
        self.seen.push(Seen::Filled(number));
        bytes.fill(number as u8);
    }

    fn ended(&mut self, ended: &Ended, _bytes: &[u8]) {
        let outcome = ended.outcome.map(|answer| answer.number());
        self.failed |= outcome != Ok(0);
        self.seen.push(Seen::Ended(ended.number, outcome));
    }

    fn begun(&mut self, slot: usize, number: u64, _job: &Job) {
        self.seen.push(Seen::Begun(slot, number));
    }

    fn told(&mut self, told: &Told<'_>) {
        let request = (told.request.kind, told.request.offset, told.request.length);
        let waiting = told.waiting.iter().collect();
        self.seen.push(Seen::Told { number: told.number, request, code: told.code.number(), waiting });
    }
}

fn job(kind: Kind, offset: u64, length: u64) -> Next {
    Next::Job(Job { kind, offset, length })
}

fn write(offset: u64, length: u64) -> Next {
    job(Kind::Write, offset, length)
}

fn store() -> MemoryStore {
    MemoryStore::new(vec![0xee; 16_384])
}

#[test]
fn edits_of_one_block_change_their_bytes_alone_and_a_read_after_a_barrier_shows_them() {
    for workers in [0, 1, 2, 8, 100] {
        let store = store();
        let mut list = JobList::new();
        let first = list.write(100, b"0123456789");
        let second = list.write(300, b"abcdefghij");
        list.barrier();
        let look = list.read(98, 14);
        let tally = with_runner(|runner| run(runner, workers, &mut list, &store));
        assert_eq!(list.bytes(look), b"\xee\xee0123456789\xee\xee");
        assert_eq!(list.ended(first).unwrap().outcome, Ok(Answer::Done));
        assert_eq!(list.ended(second).unwrap().tally, Tally { requests: 3, read: 1024, written: 512 });
        assert_eq!(tally, Tally { requests: 7, read: 2560, written: 1024 });
        assert_eq!(store.bytes().iter().filter(|&&byte| byte == 0xee).count(), 16_384 - 20);
    }
}

#[test]
fn a_trace_has_each_request_and_who_waits() {
    let told = |number, kind, waiting: &[(usize, u64)]| Seen::Told {
        number,
        request: (kind, 0, 512),
        code: 0,
        waiting: waiting.to_vec(),
    };
    let mut script = Script::new([write(100, 10), write(300, 10)]);
    with_runner(|runner| runner.run(&mut script, &store()));
    let begins = [[Seen::Asked, Seen::Filled(0), Seen::Begun(0, 0)], [Seen::Asked, Seen::Filled(1), Seen::Begun(1, 1)]];
    let first = [
        Seen::Asked,
        told(0, Kind::Read, &[(1, 1)]),
        told(0, Kind::Read, &[(1, 1)]),
        told(0, Kind::Write, &[]),
        Seen::Ended(0, Ok(0)),
    ];
    let second = [told(1, Kind::Read, &[]), told(1, Kind::Read, &[]), told(1, Kind::Write, &[]), Seen::Ended(1, Ok(0))];
    assert_eq!(script.seen, [&begins.concat()[..], &first, &second].concat());
}

#[test]
fn a_source_that_says_nothing_is_asked_once() {
    for workers in [0, 1, 8] {
        let mut script = Script::new([]);
        assert_eq!(with_runner(|runner| run(runner, workers, &mut script, &store())), Tally::default());
        assert_eq!(script.seen, [Seen::Asked]);
    }
}

#[test]
fn barriers_at_the_start_in_a_row_and_at_the_end_are_passed() {
    for workers in [0, 3] {
        for pause in [Next::Barrier, Next::Later] {
            let says = [pause, pause, write(0, 512), pause, pause, write(0, 512), pause, pause];
            let mut script = Script::new(says);
            with_runner(|runner| run(runner, workers, &mut script, &store()));
            assert_eq!(script.ends(), [(0, Ok(0)), (1, Ok(0))]);
            assert_eq!(script.served(), [0, 1], "the second begins when the first has ended");
        }
    }
}

#[test]
fn later_lets_another_begin_when_one_has_ended_and_a_barrier_when_all_have() {
    let one = [write(0, 512), write(512, 512), Next::Later, write(1024, 512)];
    let mut script = Script::new(one);
    with_runner(|runner| runner.run(&mut script, &store()));
    let begins =
        |script: &Script, number| script.seen.iter().position(|s| matches!(s, Seen::Begun(_, n) if *n == number));
    let ends =
        |script: &Script, number| script.seen.iter().position(|s| matches!(s, Seen::Ended(n, _) if *n == number));
    assert!(ends(&script, 0) < begins(&script, 2) && begins(&script, 2) < ends(&script, 1));
    let all = [write(0, 512), write(512, 512), Next::Barrier, write(1024, 512)];
    let mut script = Script::new(all);
    with_runner(|runner| runner.run(&mut script, &store()));
    assert!(ends(&script, 0) < begins(&script, 2) && ends(&script, 1) < begins(&script, 2));
}

#[test]
fn jobs_without_a_request_are_done_without_a_slot() {
    let kinds = [Kind::Read, Kind::Write, Kind::Zero, Kind::AllocatedZero, Kind::Discard];
    for workers in [0, 2] {
        let mut script =
            Script::new(kinds.map(|kind| job(kind, 700, 0)).into_iter().chain([job(Kind::Discard, 100, 400)]));
        let tally = with_runner(|runner| run(runner, workers, &mut script, &store()));
        assert_eq!((tally, script.ends()), (Tally::default(), (0..6).map(|number| (number, Ok(0))).collect()));
        assert!(!script.seen.iter().any(|seen| matches!(seen, Seen::Begun(..))));
    }
}

#[test]
fn refused_jobs_are_told_to_the_source_and_the_run_goes_on() {
    let longest = LONGEST as u64;
    let says = [
        job(Kind::Read, 0, longest + 1),
        write(0, u64::MAX),
        job(Kind::Read, 100, longest),
        write(u64::MAX, 1),
        job(Kind::Zero, u64::MAX - 5, 6),
        job(Kind::Discard, 1, u64::MAX),
        write(0, 512),
    ];
    let outcomes = [Err(202), Err(202), Err(206), Err(207), Err(207), Err(207), Ok(0)];
    for workers in [0, 8] {
        let mut script = Script::new(says);
        let tally = with_runner(|runner| run(runner, workers, &mut script, &store()));
        let ends: Vec<_> = script.ends().into_iter().map(|(_, outcome)| outcome.map_err(|r| r.number())).collect();
        assert_eq!(ends, outcomes);
        assert_eq!(tally, Tally { requests: 1, read: 0, written: 512 });
        let filled = script.seen.iter().filter(|seen| matches!(seen, Seen::Filled(_))).count();
        assert_eq!(filled, 2, "a write that is too long is not filled");
    }
}

#[test]
fn without_data_only_reads_and_writes_are_refused() {
    let settings = Settings::of_row(1, 4096).unwrap();
    for length in [0, 7, 8] {
        let (mut data, mut scratch) = (vec![0; length], vec![0; 8 * 4096]);
        let mut runner = Runner::open(&settings, &mut data, &mut scratch).unwrap();
        assert_eq!(runner.longest(), length as u64 / 8);
        let mut script = Script::new([job(Kind::Read, 0, 2), write(5, 0), job(Kind::Zero, 10, 100)]);
        runner.run(&mut script, &store());
        assert_eq!(script.ends(), [(0, Err(Refusal::Segment)), (1, Ok(0)), (2, Ok(0))]);
    }
}

#[test]
fn parts_of_the_data_start_at_multiples_of_the_memory_alignment() {
    let settings = Settings::of_row(4, 12_288).unwrap();
    let mut room = Room::new(&settings, 10_000);
    let (data, scratch) = room.parts();
    let runner = Runner::open(&settings, &mut data[..8 * 9000], scratch).unwrap();
    assert_eq!(runner.longest(), 8192);
    let (data, scratch) = room.parts();
    assert_eq!(Runner::open(&settings, &mut data[..8 * 3000], scratch).unwrap().longest(), 3000);
}

/// Jobs 0 and 1 edit one block, so that 1 waits; when it becomes due, 2 has been due longer, but 1 is next in turn.
#[test]
fn the_order_decides_whose_request_is_next() {
    let served = |order| {
        let mut script = Script::new([write(100, 10), write(200, 10), write(2100, 10)]);
        with_runner(|runner| {
            runner.set_order(order);
            runner.run(&mut script, &store())
        });
        script.served()
    };
    assert_eq!(served(Order::First), [0, 2, 0, 2, 0, 2, 1, 1, 1]);
    assert_eq!(served(Order::RoundRobin), [0, 2, 0, 2, 0, 1, 2, 1, 1]);
    assert_eq!(served(Order::Seed(5)), served(Order::Seed(5)));
    assert!((0..20).any(|seed| served(Order::Seed(seed)) != served(Order::Seed(5))));
}

/// A store that fails once with EIO, after so many requests, and otherwise does nothing.
struct FailsOnce(Mutex<i32>);

impl FailsOnce {
    fn code(&self) -> Code {
        let mut left = self.0.lock().unwrap();
        *left -= 1;
        if *left == -1 {
            Code::failed(5)
        } else {
            Code::DONE
        }
    }
}

impl Store for FailsOnce {
    fn read(&self, _offset: u64, _pieces: &mut [IoSliceMut<'_>]) -> Code {
        self.code()
    }

    fn write(&self, _offset: u64, _pieces: &[IoSlice<'_>]) -> Code {
        self.code()
    }
}

#[test]
fn after_a_failure_the_source_stops_and_what_is_in_flight_is_finished() {
    for workers in [0, 1, 8] {
        let mut script = Script { stops: true, ..Script::new((0..100).map(|i| write(512 * i, 512))) };
        with_runner(|runner| run(runner, workers, &mut script, &FailsOnce(Mutex::new(3))));
        let ends = script.ends();
        let begins = |seen: &[Seen]| seen.iter().filter(|seen| matches!(seen, Seen::Begun(..))).count();
        let failed: Vec<_> = ends.iter().filter(|(_, outcome)| *outcome == Ok(5)).collect();
        assert_eq!((ends.len(), failed.len()), (begins(&script.seen), 1));
        let at = script.seen.iter().position(|seen| matches!(seen, Seen::Ended(_, Ok(5)))).unwrap();
        assert_eq!(begins(&script.seen[at..]), 0);
        assert!(workers > 1 || ends.len() == 8 + 3, "three jobs were done before, and their slots taken again");
    }
}

#[test]
fn failed_requests_are_counted_and_move_nothing() {
    let mut list = JobList::new();
    let edit = list.write(100, b"0123456789");
    let tally = with_runner(|runner| runner.run(&mut list, &FailsOnce(Mutex::new(1))));
    let ended = list.ended(edit).unwrap();
    assert_eq!((ended.outcome, ended.tally), (Ok(Answer::Failed(5)), tally));
    assert_eq!(tally, Tally { requests: 2, read: 512, written: 0 });
}

#[test]
fn a_store_that_cannot_zero_is_written() {
    let mut list = JobList::new();
    let zeroes = list.zeroes(true, 100, 1000);
    let discard = list.discard(0, 4096);
    with_runner(|runner| runner.run(&mut list, &FailsOnce(Mutex::new(1000))));
    let tally = list.ended(zeroes).unwrap().tally;
    assert_eq!(tally, Tally { requests: 5, read: 1024, written: 1536 });
    assert_eq!(list.ended(discard).unwrap().outcome, Ok(Answer::Done));
}

/// A store in which each read waits until so many are out together.
struct Meeting {
    wanted: usize,
    here: Mutex<usize>,
    came: Condvar,
}

impl Store for Meeting {
    fn read(&self, _offset: u64, _pieces: &mut [IoSliceMut<'_>]) -> Code {
        let mut here = self.here.lock().unwrap();
        *here += 1;
        self.came.notify_all();
        let wait = self.came.wait_timeout_while(here, Duration::from_secs(20), |here| *here < self.wanted);
        if wait.unwrap().1.timed_out() {
            Code::failed(62)
        } else {
            Code::DONE
        }
    }

    fn write(&self, _offset: u64, _pieces: &[IoSlice<'_>]) -> Code {
        Code::DONE
    }
}

#[test]
fn as_many_requests_are_out_together_as_there_are_workers() {
    for wanted in [1, 3, 8] {
        let meeting = Meeting { wanted, here: Mutex::new(0), came: Condvar::new() };
        let mut script = Script::new((0..8).map(|i| job(Kind::Read, 512 * i, 512)));
        with_runner(|runner| runner.run_threads(wanted, &mut script, &meeting));
        assert!(script.ends().iter().all(|(_, outcome)| *outcome == Ok(0)));
    }
}

/// A store that panics at the write of the block at 1024, and is slow elsewhere.
struct Panics;

impl Store for Panics {
    fn read(&self, _offset: u64, _pieces: &mut [IoSliceMut<'_>]) -> Code {
        std::thread::sleep(Duration::from_millis(1));
        Code::DONE
    }

    fn write(&self, offset: u64, _pieces: &[IoSlice<'_>]) -> Code {
        assert_ne!(offset, 1024, "the store's own panic");
        Code::DONE
    }
}

/// The message of the panic that a run ends with.
fn panic_of(run: impl FnOnce()) -> String {
    let panicked = catch_unwind(AssertUnwindSafe(run)).expect_err("the run panics");
    let text = panicked.downcast_ref::<String>().cloned();
    text.or_else(|| panicked.downcast_ref::<&str>().map(|text| text.to_string())).expect("a message")
}

#[test]
fn a_store_s_panic_goes_on_in_the_caller_and_the_buffers_can_be_used_again() {
    let settings = Settings::of_row(1, 4096).unwrap();
    let mut room = Room::new(&settings, LONGEST);
    for workers in [0, 1, 8] {
        let (data, scratch) = room.parts();
        let mut runner = Runner::open(&settings, data, scratch).unwrap();
        let mut script = Script::new((0..40).map(|i| write(100 + 512 * i, 10)));
        let message = panic_of(|| _ = run(&mut runner, workers, &mut script, &Panics));
        assert!(message.contains("the store's own panic"), "{message}");
        let message = panic_of(|| _ = run(&mut runner, workers, &mut Script::new([]), &store()));
        assert!(message.contains("open another"), "{message}");
    }
    let (data, scratch) = room.parts();
    let mut script = Script::new([write(100, 10)]);
    Runner::open(&settings, data, scratch).unwrap().run(&mut script, &store());
    assert_eq!(script.ends(), [(0, Ok(0))]);
}

/// A source that panics when a job has ended.
struct PanicsAtEnd(Script);

impl Source for PanicsAtEnd {
    fn next(&mut self) -> Next {
        self.0.next()
    }

    fn fill(&mut self, number: u64, job: &Job, bytes: &mut [u8]) {
        self.0.fill(number, job, bytes);
    }

    fn ended(&mut self, _ended: &Ended, _bytes: &[u8]) {
        panic!("the source's own panic");
    }
}

#[test]
fn a_source_s_panic_goes_on_and_no_worker_is_waited_for_in_vain() {
    for workers in [0, 1, 8] {
        let mut source = PanicsAtEnd(Script::new((0..20).map(|i| write(512 * i, 512))));
        let message = panic_of(|| _ = with_runner(|runner| run(runner, workers, &mut source, &store())));
        assert!(message.contains("the source's own panic"), "{message}");
    }
}

#[test]
fn a_runner_runs_again_and_numbers_begin_anew() {
    with_runner(|runner| {
        for workers in [0, 8, 0, 2] {
            let mut script = Script::new((0..20).map(|i| write(100 + 300 * i, 10)));
            let tally = run(runner, workers, &mut script, &store());
            let mut ends = script.ends();
            ends.sort_by_key(|&(number, _)| number);
            assert_eq!(ends, (0..20).map(|number| (number, Ok(0))).collect::<Vec<_>>());
            assert!(tally.requests >= 40);
        }
    });
}

#[test]
fn a_list_that_was_run_takes_no_more_jobs() {
    let mut list = JobList::new();
    let first = list.write(0, &[1; 512]);
    assert_eq!((list.ended(first), list.ended(7), list.bytes(7)), (None, None, &[][..]));
    with_runner(|runner| runner.run(&mut list, &store()));
    assert!(list.ended(first).is_some());
    assert!(panic_of(|| _ = list.read(0, 1)).contains("takes no more jobs"));
}
