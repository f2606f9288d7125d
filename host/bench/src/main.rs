//! imago and the dock on the same jobs, one run: see docs/BENCHMARKS.md.

mod dock_run;
#[allow(dead_code)] // the jobs here need no discard and no planner
#[path = "../../../oracle/src/dock_words.rs"]
mod dock_words;
mod floor;
mod imago_run;
/// What the shared declarations name of the oracle.
mod side {
    #[derive(Clone, Copy)]
    pub struct Segment {
        pub start: u64,
        pub length: u64,
    }
}
mod timing;
mod work;

use dock_run::{Dock, Form};
use imago_run::{Answers, Imago};
use timing::{median, Timed};
use work::{cases, Case, Job, Kind, LONG, R512, SHARE};

const ROUNDS: usize = 15;

/// The rounds of the store's own copies, of imago answered at once, answered later, and of the dock by separate and by combined calls.
fn time(case: &Case, rounds: usize) -> [Timed; 5] {
    let mut store = Dock::new(case.align);
    let copies = store.copies(case);
    let mut at_once = Imago::new(case.align, Answers::AtOnce);
    let mut later = Imago::new(case.align, Answers::Later);
    let [mut separate, mut combined] = [Dock::new(case.align), Dock::new(case.align)];
    let mut timed: [Timed; 5] = Default::default();
    for _ in 0..rounds {
        timed[0].round(|| store.make_copies(&copies));
        timed[1].round(|| at_once.run(case));
        timed[2].round(|| later.run(case));
        timed[3].round(|| separate.run(case, Form::Separate));
        timed[4].round(|| combined.run(case, Form::Combined));
    }
    for dock in [&separate, &combined] {
        assert!(later.store() == dock.store, "{}: imago and the dock leave different stores", case.name);
    }
    timed
}

/// The bytes that the long write moves, by memcpy: into the scratch, from there into the store.
fn plain_copies(dock: &mut Dock) {
    let (data, scratch) = (&dock.data[LONG.start..LONG.start + LONG.length], &mut *dock.scratch);
    scratch[..512].copy_from_slice(&dock.store[..512]);
    scratch[100..100 + LONG.length].copy_from_slice(data);
    let padded = (LONG.offset as usize + LONG.length).next_multiple_of(512);
    dock.store[..padded].copy_from_slice(&scratch[..padded]);
}

fn time_plain(rounds: usize) -> f64 {
    let mut dock = Dock::new(R512);
    let mut timed = Timed::default();
    (0..rounds).for_each(|_| timed.round(|| plain_copies(&mut dock)));
    timed.median()
}

fn table(rounds: usize, only: &str) {
    println!("ns for a job; then the combined form to imago, whole and with the store's own copies taken off both\n");
    print!("| Case | store alone | imago, at once | imago, later | separate | combined ");
    println!("| to at once | to later | less store: to at once | to later | least to least later |");
    println!("|---|---|---|---|---|---|---|---|---|---|---|");
    for case in cases().iter().filter(|case| case.name.starts_with(only)) {
        let timed = time(case, rounds);
        let [store, at_once, later, separate, combined] = timed.each_ref().map(|t| t.median() / case.jobs.len() as f64);
        let [_, _, least_later, _, least_combined] = timed.each_ref().map(Timed::least);
        let less = |imago: f64| (combined - store) / (imago - store);
        print!("| {} | {store:.0} | {at_once:.0} | {later:.0} | {separate:.0} | {combined:.0} ", case.name);
        print!("| {:.2} | {:.2} | {:.2} ", combined / at_once, combined / later, less(at_once));
        println!("| {:.2} | {:.2} |", less(later), least_combined / least_later);
    }
}

/// How fast a tell copies, and memcpy or memset of the same bytes, which `plain` times with the store's copies around it: medians in
/// bytes for a ns.
fn copy_row(name: &str, rounds: usize, job: &Job, first: u8, plain: impl Fn(&mut Dock) -> f64) {
    let mut dock = Dock::new(R512);
    let (mut tells, mut plains) = (Vec::new(), Vec::new());
    for _ in 0..rounds * 40 {
        tells.push(dock.longest_tell(job, first).as_nanos() as f64);
        plains.push(plain(&mut dock));
    }
    let speed = |times: &mut Vec<f64>| job.length as f64 / median(times);
    let (tell, plain) = (speed(&mut tells), speed(&mut plains));
    println!("| {name} | {} | {tell:.1} | {plain:.1} | {:.2} |", job.length, tell / plain);
}

fn copies(rounds: usize) {
    println!("\nThe bytes of e by memcpy, data to scratch and scratch to store: {:.0} ns", time_plain(rounds));
    let (start, end) = (LONG.start, LONG.start + LONG.length);
    let zeroes = Job { kind: Kind::Zeroes, offset: 0, start: 0, length: SHARE - 512 };
    println!("\n| Copy | Bytes | bytes/ns in tell | memcpy or memset | ratio |\n|---|---|---|---|---|");
    let padded = SHARE - 512;
    copy_row("data into the scratch (write)", rounds, &LONG, 0, |d| {
        let time = timing::once(|| d.scratch[100..100 + LONG.length].copy_from_slice(&d.data[start..end]));
        d.store[..padded].copy_from_slice(&d.scratch[..padded]);
        time
    });
    copy_row("scratch into the data (read)", rounds, &Job { kind: Kind::Read, ..LONG }, 0, |d| {
        d.scratch[..padded].copy_from_slice(&d.store[..padded]);
        timing::once(|| d.data[start..end].copy_from_slice(&d.scratch[100..100 + LONG.length]))
    });
    copy_row("zeroes into the scratch (fallback)", rounds, &zeroes, 1, |d| {
        d.store[..padded].fill(0);
        let time = timing::once(|| d.scratch[..padded].fill(0));
        d.store[..padded].copy_from_slice(&d.scratch[..padded]);
        time
    });
}

/// What follows an option.
fn option(name: &str) -> Option<String> {
    std::env::args().skip_while(|arg| arg != name).nth(1)
}

/// The cases on the dock alone, so many times each: for a profiler.
fn dock_alone(times: usize, form: Form, only: &str) {
    for case in cases().iter().filter(|case| case.name.starts_with(only)) {
        let mut dock = Dock::new(case.align);
        (0..times).for_each(|_| dock.run(case, form));
    }
}

/// `--rounds N`; `--case a` takes only the cases whose names start so; `--dock N` runs them N times on the dock by combined calls,
/// `--separate N` by separate ones, and times nothing; `--cases` lists them, each with its number of jobs.
fn main() {
    let rounds = option("--rounds").and_then(|n| n.parse().ok()).unwrap_or(ROUNDS);
    let only = option("--case").unwrap_or_default();
    if std::env::args().any(|arg| arg == "--cases") {
        return cases().iter().for_each(|case| println!("{} {}", case.jobs.len(), case.name));
    }
    for (name, form) in [("--dock", Form::Combined), ("--separate", Form::Separate)] {
        if let Some(times) = option(name).and_then(|n| n.parse().ok()) {
            return dock_alone(times, form, &only);
        }
    }
    table(rounds, &only);
    if only.is_empty() {
        copies(rounds);
    }
}
