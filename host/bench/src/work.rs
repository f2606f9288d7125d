//! What is timed: jobs on a drive, the same for every side, and the memory that they use.

use std::alloc::{alloc_zeroed, Layout};
use std::slice;

/// M, R, Z, D of document 01's drive rows 1 and 4.
pub const R512: [u64; 4] = [1, 512, 512, 512];
pub const M4096: [u64; 4] = [4096, 512, 512, 512];

pub const SHARE: usize = 1 << 20;
pub const DATA: usize = 2 << 20;
pub const STORE: usize = 4 << 20;

#[derive(Clone, Copy, PartialEq, Eq)]
pub enum Kind {
    Read,
    Write,
    Zeroes,
}

/// A job; its one segment lies in the data from `start` on.
#[derive(Clone, Copy)]
pub struct Job {
    pub kind: Kind,
    pub offset: u64,
    pub start: usize,
    pub length: usize,
}

/// Jobs that are begun together, then served to their ends.
pub struct Case {
    pub name: &'static str,
    pub align: [u64; 4],
    pub jobs: Vec<Job>,
}

fn job(kind: Kind, offset: u64, start: usize, length: usize) -> Job {
    Job { kind, offset, start, length }
}

/// Long: one megabyte less a kilobyte, at an offset off R.
pub const LONG: Job = Job { kind: Kind::Write, offset: 100, start: 8192, length: SHARE - 1024 };

/// Ranges that overlap: strong and weak blockers wait for one another.
fn eight() -> Vec<Job> {
    vec![
        job(Kind::Write, 100, 0, 10),
        job(Kind::Write, 110, 100, 10),
        job(Kind::Write, 512, 4096, 512),
        job(Kind::Write, 300, 200, 600),
        job(Kind::Zeroes, 100, 0, 1000),
        job(Kind::Write, 900, 1000, 700),
        job(Kind::Read, 100, 2048, 10),
        job(Kind::Write, 5000, 3000, 10),
    ]
}

pub fn cases() -> Vec<Case> {
    let one = |name, align, job| Case { name, align, jobs: vec![job] };
    let small = job(Kind::Write, 100, 1, 10);
    vec![
        one("a: padded write of 10, M 1 R 512", R512, small),
        one("a: padded write of 10, M 4096 R 512", M4096, small),
        one("b: padded read of 10, M 1 R 512", R512, Job { kind: Kind::Read, ..small }),
        one("b: padded read of 10, M 4096 R 512", M4096, Job { kind: Kind::Read, ..small }),
        one("c: direct write of 4096, M 1 R 512", R512, job(Kind::Write, 4096, 4096, 4096)),
        one("d: zeroes 1000 at 100, M 1 R 512", R512, job(Kind::Zeroes, 100, 0, 1000)),
        one("e: padded write of 1,047,552, M 1 R 512", R512, LONG),
        Case { name: "f: eight jobs that overlap, M 1 R 512", align: R512, jobs: eight() },
    ]
}

/// Bytes at an address that is a multiple of every alignment, for the whole run.
pub fn memory(length: usize) -> &'static mut [u8] {
    let layout = Layout::from_size_align(length, 65_536).expect("the memory is short");
    // SAFETY: the size is not 0, and nothing else refers to these bytes.
    let base = unsafe { alloc_zeroed(layout) };
    assert!(!base.is_null(), "no memory");
    unsafe { slice::from_raw_parts_mut(base, length) }
}

/// The store's bytes, off the multiples of 4096 at which data and scratch lie: a copy whose ends are the same modulo 4096 is slower for
/// that alone.
pub fn store() -> &'static mut [u8] {
    let (_, bytes) = memory(STORE + 65_536).split_at_mut(2112);
    &mut bytes[..STORE]
}

/// Bytes that differ from one to the next, every page touched.
pub fn mixed(bytes: &mut [u8], seed: u64) {
    for (i, byte) in bytes.iter_mut().enumerate() {
        *byte = ((i as u64 + seed).wrapping_mul(0x9e37_79b9_7f4a_7c15) >> 56) as u8;
    }
}
