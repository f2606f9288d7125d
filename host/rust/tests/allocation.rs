//! A run in place allocates nothing, nor does a join.

use pitch_dock::{
    join, Answer, Ended, Job, Kind, MemoryStore, Next, Order, Room, Runner, Settings, SheetWrite, Source,
};
use std::alloc::{GlobalAlloc, Layout, System};
use std::cell::Cell;

/// The system's allocator, counted.
struct Counted;

thread_local! {
    /// How often this thread has allocated.
    static COUNT: Cell<u64> = const { Cell::new(0) };
}

// SAFETY: the system's allocator, called as it is called.
unsafe impl GlobalAlloc for Counted {
    unsafe fn alloc(&self, layout: Layout) -> *mut u8 {
        COUNT.set(COUNT.get() + 1);
        // SAFETY: as asked of this function's caller.
        unsafe { System.alloc(layout) }
    }

    unsafe fn dealloc(&self, start: *mut u8, layout: Layout) {
        // SAFETY: as asked of this function's caller.
        unsafe { System.dealloc(start, layout) }
    }
}

#[global_allocator]
static ALLOCATOR: Counted = Counted;

/// Jobs of all kinds, in blocks that they share.
struct Jobs {
    left: u64,
    done: u64,
}

impl Source for Jobs {
    fn next(&mut self) -> Next {
        if self.left == 0 {
            return Next::End;
        }
        self.left -= 1;
        let kinds = [Kind::Read, Kind::Write, Kind::Zero, Kind::AllocatedZero, Kind::Discard];
        let kind = kinds[(self.left % 5) as usize];
        Next::Job(Job { kind, offset: self.left * 97 % 6000, length: 1 + self.left % 900 })
    }

    fn fill(&mut self, number: u64, _job: &Job, bytes: &mut [u8]) {
        bytes.fill(number as u8);
    }

    fn ended(&mut self, ended: &Ended, _bytes: &[u8]) {
        self.done += u64::from(ended.outcome == Ok(Answer::Done));
    }
}

#[test]
fn an_allocation_is_counted() {
    let before = COUNT.get();
    drop(std::hint::black_box(Box::new(1)));
    assert_eq!(COUNT.get(), before + 1);
}

#[test]
fn a_run_in_place_allocates_nothing() {
    let settings = Settings::of_row(1, 4096).expect("a row");
    let mut room = Room::new(&settings, 1000);
    let (data, scratch) = room.parts();
    let mut runner = Runner::open(&settings, data, scratch).expect("settings that fit");
    let store = MemoryStore::new(vec![0; 16_384]);
    for order in [Order::First, Order::RoundRobin, Order::Seed(1)] {
        runner.set_order(order);
        let mut jobs = Jobs { left: 2000, done: 0 };
        let before = COUNT.get();
        runner.run(&mut jobs, &store);
        let after = COUNT.get();
        assert_eq!((after - before, jobs.done), (0, 2000), "{order:?}");
    }
}

#[test]
fn a_join_allocates_nothing() {
    let data = [7; 4096];
    let mut output = [0; 64 * 64];
    let writes: Vec<SheetWrite> =
        (0..65).map(|i| SheetWrite { offset: i * 1000 % 1700, start: 60 * i, length: 64 }).collect();
    let before = COUNT.get();
    let joined = join(&writes[..64], &data, &mut output);
    let short = join(&writes[..64], &data, &mut output[..63]);
    let many = join(&writes, &data, &mut output);
    let after = COUNT.get();
    assert_eq!((after - before, joined.is_ok(), short.is_ok(), many.is_ok()), (0, true, false, false));
    assert!(joined.is_ok_and(|joined| (1..64).contains(&joined.writes().len())));
}
