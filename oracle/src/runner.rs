//! Runs over random lists: two sides in one process, or imago's side and the program `replay`.

use crate::compare::{compare, Difference};
use crate::event::Event;
use crate::lists::{random_list, random_list_over, Worlds, MEMORY, SCRIPTS};
use crate::parts;
use crate::progress::Progress;
use crate::random::Random;
use crate::replay::{first_difference, imago_trace, script, Replay, LONGEST_SCRIPT};
use crate::shrink::shrink;
use crate::side::{Blockers, Planner, Side, Vectors};
use crate::store::Content;
use std::io;
use std::sync::atomic::{AtomicU64, Ordering};
use std::sync::{Mutex, MutexGuard};
use std::thread;

/// How many lists, from which seed and from which of its lists on, and by how many threads.
#[derive(Clone, Copy)]
pub struct Run {
    pub lists: u64,
    pub seed: u64,
    pub from: u64,
    pub threads: usize,
}

impl Run {
    /// The first lists of a seed, one after the other.
    pub const fn of(lists: u64, seed: u64) -> Self {
        Run { lists, seed, from: 0, threads: 1 }
    }
}

/// A difference, in the smallest list found that shows it.
pub struct Found {
    pub list: Vec<Event>,
    pub difference: Difference,
}

impl Found {
    pub fn show(&self) {
        println!("the smallest list found, {} events:\n{}", self.list.len(), script(&self.list));
        println!("after event {}: {}", self.difference.at + 1, self.difference.what);
    }
}

/// Names the list in which a side, or imago itself, panics.
struct Named {
    seed: u64,
    list: u64,
}

impl Drop for Named {
    fn drop(&mut self) {
        if std::thread::panicking() {
            println!("panic in list {} of seed {}", self.list, self.seed);
        }
    }
}

/// What the threads of a run share.
struct Shared {
    run: Run,
    next: AtomicU64,
    progress: Mutex<Progress>,
    /// The lowest list found that differs.
    found: Mutex<Option<(u64, Found)>>,
}

impl Shared {
    fn new(run: Run) -> Self {
        Shared { run, next: AtomicU64::new(run.from), progress: Mutex::default(), found: Mutex::default() }
    }

    /// Lists until none is left or one differs.
    fn work(&self, make: impl Fn(u64) -> Vec<Event>, differs: impl Fn(u64, &[Event]) -> Option<Difference>) {
        while held(&self.found).is_none() {
            let list = self.next.fetch_add(1, Ordering::Relaxed);
            if list >= self.run.from + self.run.lists {
                return;
            }
            let _named = Named { seed: self.run.seed, list };
            let events = make(list);
            held(&self.progress).list(events.len());
            if let Some(difference) = differs(list, &events) {
                self.note(list, Found { list: events, difference });
            }
        }
    }

    fn note(&self, list: u64, what: Found) {
        held(&self.progress).difference();
        let mut found = held(&self.found);
        if found.as_ref().is_none_or(|(lowest, _)| list < *lowest) {
            *found = Some((list, what));
        }
    }
}

fn held<T>(lock: &Mutex<T>) -> MutexGuard<'_, T> {
    lock.lock().expect("no holder panics")
}

/// The smallest list found; the list itself where it differs only now and then, as where a side does not watch every call.
fn smallest(found: Found, differs: impl Fn(&[Event]) -> Option<Difference>) -> Found {
    let list = shrink(&found.list, |tried| differs(tried).is_some());
    match differs(&list) {
        Some(difference) => Found { list, difference },
        None => found,
    }
}

/// Compares the two sides, made anew for every list with the same content, up to the first difference.
pub fn run_lists<A: Side, B: Side>(
    run: Run,
    worlds: impl Into<Worlds>,
    left: impl Fn(&Content) -> A + Sync,
    right: impl Fn(&Content) -> B + Sync,
) -> (Progress, Option<Found>) {
    let worlds = worlds.into();
    let contents = [worlds.usual.content(), worlds.long.content()];
    let content = |list: u64| &contents[usize::from(Worlds::is_long(list))];
    let make = |list: u64| random_list_over(run.seed, list, worlds.of(list), content(list));
    let differs = |list: u64, events: &[Event]| {
        let content = content(list);
        compare(events, left(content), right(content), content)
    };
    let shared = Shared::new(run);
    thread::scope(|scope| {
        for _ in 0..run.threads {
            scope.spawn(|| shared.work(make, differs));
        }
    });
    let found = shared.found.into_inner().expect("no holder panics").map(|(number, found)| {
        println!("list {number} of seed {} differs", run.seed);
        smallest(found, |tried| differs(number, tried))
    });
    (shared.progress.into_inner().expect("no holder panics"), found)
}

/// The calls on blockers of one list, and how many calls a list has at least.
const BLOCKER_CALLS: u64 = 40;
const CALLS: usize = BLOCKER_CALLS as usize + 10;

/// Compares vectors, blockers and the planner of two sides; blockers are made anew for every list.
pub fn run_parts<X: Blockers, Y: Blockers>(
    run: Run,
    blockers: (impl Fn() -> X, impl Fn() -> Y),
    vectors: (&mut impl Vectors, &mut impl Vectors),
    planners: (&mut impl Planner, &mut impl Planner),
) -> (Progress, parts::Found) {
    let mut progress = Progress::default();
    for list in 0..run.lists {
        let mut random = Random::new(run.seed, list);
        let (mut left, mut right) = (blockers.0(), blockers.1());
        let found = parts::blockers(&mut random, &mut left, &mut right, BLOCKER_CALLS)
            .or_else(|| parts::vectors(&mut random, vectors.0, vectors.1))
            .or_else(|| parts::planner(&mut random, planners.0, planners.1));
        progress.list(CALLS);
        if found.is_some() {
            progress.difference();
            return (progress, found);
        }
    }
    (progress, None)
}

/// The bytes that vectors are over.
pub fn vector_data() -> Vec<u8> {
    (0..MEMORY.data).map(|i| (i * 7 % 251) as u8).collect()
}

/// Lists whose scripts together are one that `replay` takes, from number `from` on.
fn batch(run: Run, from: u64) -> Vec<Vec<Event>> {
    let mut batch = Vec::new();
    let mut bytes = 0;
    for list in from..run.lists {
        let _named = Named { seed: run.seed, list };
        let events = random_list(run.seed, list, SCRIPTS);
        bytes += script(&events).len();
        if bytes > LONGEST_SCRIPT {
            break;
        }
        batch.push(events);
    }
    batch
}

/// Compares imago's trace with that of `replay`, many lists to a script, up to the first difference.
pub fn run_replay(run: Run, replay: &Replay) -> io::Result<(Progress, Option<Found>)> {
    let mut progress = Progress::default();
    let mut at = 0;
    while at < run.lists {
        let batch = batch(run, at);
        at += batch.len() as u64;
        let all = batch.concat();
        let traced = imago_trace(&all, replay.fault);
        let text = replay.run(script(&all))?;
        batch.iter().for_each(|events| progress.list(events.len()));
        if traced.broken.is_some() || first_difference(&traced.lines, &text).is_some() {
            progress.difference();
            let list = shrink(&all, |tried| matches!(replay.compare(tried), Ok(Some(_))));
            let difference = replay.compare(&list)?.expect("the smallest list differs");
            return Ok((progress, Some(Found { list, difference })));
        }
    }
    Ok((progress, None))
}
