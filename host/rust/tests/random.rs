//! Random runs on a store that fails, delays and tears, in place and with threads, against the plain byte store: each
//! request is the one that document 01's rules give; after each request its range, and after each job all bytes, are
//! the plain byte store's; a read shows what its step yielded. Settings, jobs and faults are drawn from a seed.
//!
//!     DOCK_JOBS=100000 DOCK_SEED=1 cargo test --release --test random -- --ignored --nocapture

mod plain;

use pitch_dock::{
    Ended, Faults, FaultyStore, Job, Kind, Next, Order, Refusal, Room, Runner, Settings, Source, Table, Tally, Told,
};
use plain::rules::{is_too_long, longer};
use plain::{Places, Plain};
use std::env;
use std::sync::{Arc, Mutex, MutexGuard, PoisonError};
use std::time::Duration;

const STORE: usize = 150_000;
/// No range that is drawn ends past this.
const LENGTH: usize = STORE + 300_000;
const JOBS_OF_A_RUN: u64 = 80;
const LONGEST: usize = 6000;

/// Numbers drawn from a seed, by splitmix64.
struct Draw(u64);

impl Draw {
    fn any(&mut self) -> u64 {
        self.0 = self.0.wrapping_add(0x9e37_79b9_7f4a_7c15);
        let x = (self.0 ^ (self.0 >> 30)).wrapping_mul(0xbf58_476d_1ce4_e5b9);
        let x = (x ^ (x >> 27)).wrapping_mul(0x94d0_49bb_1331_11eb);
        x ^ (x >> 31)
    }

    fn below(&mut self, count: u64) -> u64 {
        self.any() % count
    }

    fn bytes(&mut self, length: usize) -> Vec<u8> {
        let mut bytes: Vec<u8> = (0..length.div_ceil(8)).flat_map(|_| self.any().to_le_bytes()).collect();
        bytes.truncate(length);
        bytes
    }
}

/// A built-in drive row, or one of a table with other alignments; and a share that fits them.
fn draw_settings(draw: &mut Draw) -> Settings {
    let mut settings = Settings::of_row(draw.below(6) as usize, 0).expect("a row");
    if draw.below(3) == 0 {
        let rows: Vec<[u64; 4]> = (0..1 + draw.below(64)).map(|_| [(); 4].map(|()| 1 << draw.below(13))).collect();
        let table = Table::of_rows(&rows).expect("rows that fit");
        settings = table.settings(draw.below(rows.len() as u64) as usize, 0).expect("a row");
    }
    let unit = longer(&settings);
    let least = (2 * settings.zero).next_multiple_of(unit) + 2 * unit;
    settings.bounce = least + unit * draw.below(4);
    settings
}

fn draw_faults(draw: &mut Draw, threads: bool) -> Faults {
    let failing = [0, 30, 8][draw.below(3) as usize];
    let unsupported = [0, 1, 3][draw.below(3) as usize];
    let delayed = if threads { [0, 20, 4][draw.below(3) as usize] } else { 0 };
    Faults { seed: draw.any(), failing, unsupported, delayed, delay: Duration::from_micros(20) }
}

/// What a run has come to.
#[derive(Clone, Copy, Debug, Default)]
struct Counts {
    jobs: u64,
    done: u64,
    failed: u64,
    refused: u64,
    requests: u64,
    waited: u64,
    barriers: u64,
}

/// What the source said last, besides jobs.
#[derive(PartialEq)]
enum Said {
    Nothing,
    Barrier,
    Later,
}

/// Jobs that are drawn, and checked when they have ended.
struct Drawn<'run> {
    draw: Draw,
    settings: Settings,
    places: Places,
    plain: Arc<Mutex<Plain>>,
    store: &'run FaultyStore,
    said: Said,
    in_flight: u64,
    ended_since: u64,
    /// The bytes of the write that is to begin.
    filled: Vec<u8>,
    /// The slots of the jobs in flight, by number.
    slots: Vec<(u64, usize)>,
    told: Tally,
    counts: Counts,
}

fn lock(plain: &Mutex<Plain>) -> MutexGuard<'_, Plain> {
    plain.lock().unwrap_or_else(PoisonError::into_inner)
}

impl<'run> Drawn<'run> {
    fn new(
        draw: Draw,
        settings: Settings,
        places: Places,
        plain: Arc<Mutex<Plain>>,
        store: &'run FaultyStore,
    ) -> Drawn<'run> {
        Drawn {
            draw,
            settings,
            places,
            plain,
            store,
            said: Said::Nothing,
            in_flight: 0,
            ended_since: 0,
            filled: Vec::new(),
            slots: Vec::new(),
            told: Tally::default(),
            counts: Counts::default(),
        }
    }

    fn draw_job(&mut self) -> Job {
        let kind = [Kind::Read, Kind::Write, Kind::Write, Kind::Zero, Kind::AllocatedZero, Kind::Discard];
        let kind = kind[self.draw.below(6) as usize];
        let unit = if self.draw.below(2) == 0 { longer(&self.settings).max(64) } else { 1 };
        let spread = [2000, 20_000, STORE as u64 + 5000][self.draw.below(3) as usize];
        let offset = self.draw.below(spread) / unit * unit;
        let moves = matches!(kind, Kind::Read | Kind::Write);
        let most = [16, 1500, if moves { LONGEST as u64 + 500 } else { 140_000 }][self.draw.below(3) as usize];
        let length = self.draw.below(most) / unit * unit;
        if self.draw.below(100) == 0 {
            return Job { kind, offset: u64::MAX - self.draw.below(16), length: length + 16 };
        }
        Job { kind, offset, length }
    }

    /// How a job that gets no slot ends, by document 01's table and order. `slot` is the one it would have got.
    fn without_slot(&self, job: &Job, slot: usize) -> Option<Result<u8, Refusal>> {
        let moves = matches!(job.kind, Kind::Read | Kind::Write);
        let align = if job.kind == Kind::Discard { self.settings.discard } else { self.settings.zero };
        let end = job.offset.checked_add(job.length);
        let room = moves || job.offset.checked_add(align - 1).is_some();
        if moves && job.length > self.places.part as u64 {
            return Some(Err(Refusal::Segment));
        }
        if job.length == 0 && job.kind != Kind::Discard {
            return Some(Ok(0));
        }
        let Some(end) = end.filter(|_| room) else { return Some(Err(Refusal::Overflow)) };
        if job.kind == Kind::Discard && job.offset.next_multiple_of(align) >= end - end % align {
            return Some(Ok(0));
        }
        if moves && is_too_long(&self.settings, job, self.places.of_job(slot)) {
            return Some(Err(Refusal::TooLong));
        }
        None
    }

    fn lowest_free(&self) -> usize {
        (0..).find(|slot| self.slots.iter().all(|(_, taken)| taken != slot)).expect("a number")
    }

    /// What was said last holds: nothing is asked before it may be.
    fn check_asked(&self) {
        let may = match self.said {
            Said::Nothing => true,
            Said::Barrier => self.in_flight == 0,
            Said::Later => self.in_flight == 0 || self.ended_since > 0,
        };
        assert!(may, "asked for a job too early");
    }

    fn count_answer(&mut self, number: u8) {
        self.counts.done += u64::from(number == 0);
        self.counts.failed += u64::from(number != 0);
    }
}

impl Source for Drawn<'_> {
    fn next(&mut self) -> Next {
        self.check_asked();
        (self.said, self.ended_since) = (Said::Nothing, 0);
        if self.counts.jobs == JOBS_OF_A_RUN {
            return Next::End;
        }
        match self.draw.below(40) {
            0 => {
                self.said = Said::Barrier;
                self.counts.barriers += 1;
                Next::Barrier
            }
            1 => {
                self.said = Said::Later;
                Next::Later
            }
            _ => {
                self.counts.jobs += 1;
                Next::Job(self.draw_job())
            }
        }
    }

    fn fill(&mut self, number: u64, job: &Job, bytes: &mut [u8]) {
        assert_eq!((number + 1, job.length), (self.counts.jobs, bytes.len() as u64));
        self.filled = self.draw.bytes(bytes.len());
        bytes.copy_from_slice(&self.filled);
    }

    fn begun(&mut self, slot: usize, number: u64, job: &Job) {
        assert_eq!(self.without_slot(job, slot), None, "{job:?} takes a slot");
        assert_eq!(slot, self.lowest_free());
        self.in_flight += 1;
        self.slots.push((number, slot));
        let bytes = if job.kind == Kind::Write { std::mem::take(&mut self.filled) } else { Vec::new() };
        lock(&self.plain).begin(slot, job, bytes);
    }

    fn told(&mut self, told: &Told<'_>) {
        assert!(self.slots.contains(&(told.number, told.slot)));
        let request = told.request;
        let range = request.offset..request.offset + request.length;
        lock(&self.plain).tell(told.slot, (request.kind, range), told.code);
        self.counts.waited += told.waiting.iter().count() as u64;
        self.told.requests += 1;
        if told.code.number() == 0 {
            self.told.read += if request.kind == Kind::Read { request.length } else { 0 };
            self.told.written += if request.kind == Kind::Write { request.length } else { 0 };
        }
    }

    fn ended(&mut self, ended: &Ended, bytes: &[u8]) {
        self.ended_since += 1;
        let Some(at) = self.slots.iter().position(|(number, _)| *number == ended.number) else {
            let outcome = self.without_slot(&ended.job, self.lowest_free());
            assert_eq!(Some(ended.outcome.map(|answer| answer.number())), outcome, "{:?}", ended.job);
            self.counts.refused += u64::from(ended.outcome.is_err());
            self.counts.done += u64::from(ended.outcome.is_ok());
            return;
        };
        let (_, slot) = self.slots.swap_remove(at);
        self.in_flight -= 1;
        let number = ended.outcome.expect("a job in a slot is answered").number();
        self.count_answer(number);
        let (answer, yielded) = self.store.look(|store| {
            let mut plain = lock(&self.plain);
            assert!(plain.is_as(store), "all bytes after {ended:?}");
            plain.end(slot)
        });
        assert_eq!(number, answer, "the answer of {ended:?}");
        let shown = ended.job.kind == Kind::Read && number == 0;
        assert_eq!(bytes, if shown { &yielded[..] } else { &[] }, "the bytes of {ended:?}");
    }
}

/// A store with this content that the plain byte store follows.
fn followed(content: Vec<u8>, faults: Faults, plain: &Arc<Mutex<Plain>>) -> FaultyStore {
    let plain = Arc::clone(plain);
    FaultyStore::watched(content, faults, Box::new(move |carried, store| lock(&plain).carry(carried, store)))
}

/// One run: settings, content, faults and jobs as the seed says.
fn run(seed: u64, threads: bool) -> Counts {
    let mut draw = Draw(seed);
    let settings = draw_settings(&mut draw);
    let mut room = Room::new(&settings, LONGEST);
    let (data, scratch) = room.parts();
    data.copy_from_slice(&draw.bytes(data.len()));
    let data = &mut data[draw.below(3) as usize * 8..];
    let (data_at, scratch_at) = (data.as_ptr() as usize, scratch.as_ptr() as usize);
    let mut runner = Runner::open(&settings, data, scratch).expect("settings that fit");
    let (part, bounce) = (runner.longest() as usize, settings.bounce as usize);
    let places = Places { data: data_at, part, scratch: scratch_at, bounce };
    let content = draw.bytes(STORE);
    let plain = Arc::new(Mutex::new(Plain::new(settings, places.clone(), &content, LENGTH)));
    let store = followed(content, draw_faults(&mut draw, threads), &plain);
    runner.set_order([Order::First, Order::RoundRobin, Order::Seed(seed)][draw.below(3) as usize]);
    let workers = 1 + draw.below(8) as usize;
    let mut jobs = Drawn::new(draw, settings, places, plain, &store);
    let tally = if threads { runner.run_threads(workers, &mut jobs, &store) } else { runner.run(&mut jobs, &store) };
    assert_eq!((tally, jobs.in_flight), (jobs.told, 0));
    assert_eq!(lock(&jobs.plain).untold, [], "each request is carried out once");
    let Counts { jobs: asked, done, failed, refused, .. } = jobs.counts;
    assert_eq!(asked, done + failed + refused);
    Counts { requests: tally.requests, ..jobs.counts }
}

/// Says which run failed where one does.
struct Naming(u64, bool);

impl Drop for Naming {
    fn drop(&mut self) {
        if std::thread::panicking() {
            eprintln!("random: run of seed {}, threads {}", self.0, self.1);
        }
    }
}

/// Runs until there were so many jobs, every second run with threads, or all.
fn runs(jobs: u64, seed: u64, all_with_threads: bool) {
    let mut all = Counts::default();
    for i in 0.. {
        if all.jobs >= jobs {
            break;
        }
        let naming = Naming(seed.wrapping_mul(1_000_003).wrapping_add(i), all_with_threads || i % 2 == 1);
        let counts = run(naming.0, naming.1);
        all = Counts {
            jobs: all.jobs + counts.jobs,
            done: all.done + counts.done,
            failed: all.failed + counts.failed,
            refused: all.refused + counts.refused,
            requests: all.requests + counts.requests,
            waited: all.waited + counts.waited,
            barriers: all.barriers + counts.barriers,
        };
    }
    println!("{all:?}");
    let Counts { done, failed, refused, waited, barriers, .. } = all;
    let enough = done > jobs / 2 && failed > 0 && refused > 0 && waited > 0 && barriers > 0;
    assert!(enough || jobs < 1000, "runs that try too little");
}

#[test]
fn random_runs_are_as_on_the_plain_byte_store() {
    runs(20_000, 1, false);
}

#[test]
#[ignore = "takes longer: DOCK_JOBS jobs from DOCK_SEED on, all with threads where DOCK_THREADS is set"]
fn long_random_runs_are_as_on_the_plain_byte_store() {
    let number = |name: &str, or: u64| env::var(name).map_or(or, |text| text.parse().expect("a number"));
    runs(number("DOCK_JOBS", 100_000), number("DOCK_SEED", 2), env::var_os("DOCK_THREADS").is_some());
}
