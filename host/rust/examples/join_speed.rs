//! What joining costs, beside two versions in plain Rust in the same run: `cargo run --release --example join_speed`.
//! One sorts the ranges, joins them and copies each write into its place; the other looks at every boundary and copies
//! each byte once. Prints the medians, and the library's time as a ratio of either.

use pitch_dock::{join, SheetWrite, SHEET_WRITES};
use std::hint::black_box;
use std::time::{Duration, Instant};

const LONG: u64 = 4096;
/// A round takes at least so long, and there are so many.
const ROUND: Duration = Duration::from_millis(4);
const ROUNDS: usize = 21;

/// The rows that a sheet is joined to, put together in ascending order.
#[derive(Debug, PartialEq)]
struct Rows {
    rows: [SheetWrite; SHEET_WRITES],
    count: usize,
    bytes: u64,
}

/// The rows, or a refusal's number.
type Outcome = Result<Rows, u8>;
type Joiner = fn(&[SheetWrite], &[u8], &mut [u8]) -> Outcome;

/// The library, and the two beside it.
const JOINERS: [Joiner; 3] = [by_library, by_sorting, by_boundaries];

impl Rows {
    fn new() -> Rows {
        Rows { rows: [SheetWrite::default(); SHEET_WRITES], count: 0, bytes: 0 }
    }

    fn used(&self) -> &[SheetWrite] {
        &self.rows[..self.count]
    }

    /// Adds a range that starts nowhere before the last one: one that touches or overlaps it makes it longer.
    fn add(&mut self, offset: u64, length: u64) {
        match self.rows[..self.count].last_mut() {
            Some(row) if offset <= row.offset + row.length => {
                let longer = (offset + length).saturating_sub(row.offset + row.length);
                row.length += longer;
                self.bytes += longer;
            }
            _ => {
                self.rows[self.count] = SheetWrite { offset, start: self.bytes, length };
                self.count += 1;
                self.bytes += length;
            }
        }
    }
}

fn by_library(writes: &[SheetWrite], data: &[u8], output: &mut [u8]) -> Outcome {
    let joined = join(writes, data, output).map_err(|refusal| refusal.number())?;
    let mut rows = Rows::new();
    rows.count = joined.writes().len();
    rows.rows[..rows.count].copy_from_slice(joined.writes());
    rows.bytes = joined.bytes() as u64;
    Ok(rows)
}

/// Whether there are at most 64 writes, of which none is empty, wraps or lies outside the data.
fn are_right(writes: &[SheetWrite], data: &[u8]) -> bool {
    let is_right = |write: &SheetWrite| {
        let end = write.start.checked_add(write.length);
        write.length > 0
            && write.offset.checked_add(write.length).is_some()
            && end.is_some_and(|end| end <= data.len() as u64)
    };
    writes.len() <= SHEET_WRITES && writes.iter().all(is_right)
}

/// Sorted by their offsets, ranges that meet become one; then each write is copied to where its bytes belong.
fn by_sorting(writes: &[SheetWrite], data: &[u8], output: &mut [u8]) -> Outcome {
    if !are_right(writes, data) {
        return Err(220);
    }
    let mut sorted = [SheetWrite::default(); SHEET_WRITES];
    let sorted = &mut sorted[..writes.len()];
    sorted.copy_from_slice(writes);
    sorted.sort_unstable_by_key(|write| write.offset);
    let mut rows = Rows::new();
    sorted.iter().for_each(|write| rows.add(write.offset, write.length));
    let Some(output) = output.get_mut(..rows.bytes as usize) else { return Err(219) };
    for write in writes {
        let row = rows.used()[rows.used().partition_point(|row| row.offset <= write.offset) - 1];
        let at = (row.start + (write.offset - row.offset)) as usize;
        let bytes = &data[write.start as usize..][..write.length as usize];
        output[at..][..bytes.len()].copy_from_slice(bytes);
    }
    Ok(rows)
}

/// Every part between two boundaries has one owner, the last write that covers it: parts with one are counted, then
/// copied.
fn by_boundaries(writes: &[SheetWrite], data: &[u8], output: &mut [u8]) -> Outcome {
    if !are_right(writes, data) {
        return Err(220);
    }
    let mut bounds = [0; 2 * SHEET_WRITES];
    for (pair, write) in bounds.chunks_exact_mut(2).zip(writes) {
        pair.copy_from_slice(&[write.offset, write.offset + write.length]);
    }
    let bounds = &mut bounds[..2 * writes.len()];
    bounds.sort_unstable();
    let mut rows = Rows::new();
    let mut owners = [None; 2 * SHEET_WRITES];
    for (owner, part) in owners.iter_mut().zip(bounds.windows(2)).filter(|(_, part)| part[0] < part[1]) {
        let covers = |write: &&SheetWrite| write.offset <= part[0] && part[1] <= write.offset + write.length;
        *owner = writes.iter().rev().find(covers);
        if owner.is_some() {
            rows.add(part[0], part[1] - part[0]);
        }
    }
    let Some(mut rest) = output.get_mut(..rows.bytes as usize) else { return Err(219) };
    for (owner, part) in owners.iter().zip(bounds.windows(2)) {
        let Some(write) = owner else { continue };
        let (here, after) = rest.split_at_mut((part[1] - part[0]) as usize);
        let from = (write.start + (part[0] - write.offset)) as usize;
        here.copy_from_slice(&data[from..][..here.len()]);
        rest = after;
    }
    Ok(rows)
}

/// Writes of this length at these offsets, each with bytes of its own.
fn writes_at(length: u64, offsets: impl Iterator<Item = u64>) -> Vec<SheetWrite> {
    offsets.enumerate().map(|(i, offset)| SheetWrite { offset, start: length * i as u64, length }).collect()
}

fn cases() -> [(&'static str, Vec<SheetWrite>); 5] {
    let drawn = |i: u64| (i + 1).wrapping_mul(0x9e37_79b9_7f4a_7c15) >> 20;
    let field = |i: u64| 512 + 64 * (i / 5) + 10 * (i % 5);
    [
        ("64 of 4 KiB, each over half of the one before", writes_at(LONG, (0..64).map(|i| LONG / 2 * i))),
        ("64 of 4 KiB at random in 64 KiB", writes_at(LONG, (0..64).map(|i| drawn(i) % (65_536 - LONG)))),
        ("64 of 4 KiB, all at one place", writes_at(LONG, (0..64).map(|_| 512))),
        ("64 of 4 KiB, apart", writes_at(LONG, (0..64).map(|i| 2 * LONG * i))),
        ("40 fields of 10 bytes, 5 to a record", writes_at(10, (0..40).map(field))),
    ]
}

/// What a joiner makes of a sheet, with all of the output; and what it says of one that is a byte too short.
fn made(joiner: Joiner, writes: &[SheetWrite], data: &[u8], length: usize) -> (Outcome, Vec<u8>, Outcome) {
    let mut output = vec![0xee; length];
    let outcome = joiner(writes, data, &mut output);
    let bytes = outcome.as_ref().map_or(1, |rows| rows.bytes) as usize;
    let short = joiner(writes, data, &mut vec![0; bytes - 1]);
    (outcome, output, short)
}

fn calls_take(calls: u32, joiner: Joiner, writes: &[SheetWrite], data: &[u8], output: &mut [u8]) -> Duration {
    let start = Instant::now();
    for _ in 0..calls {
        let outcome = joiner(black_box(writes), black_box(data), black_box(&mut *output));
        assert!(black_box(outcome).is_ok());
    }
    start.elapsed()
}

/// Median time of a call of each joiner in ns, all of them in turn in each round. Calls made to find out how many make
/// up a round warm up.
fn time(writes: &[SheetWrite], data: &[u8], output: &mut [u8]) -> [f64; 3] {
    let calls = JOINERS.map(|joiner| {
        let mut calls = 1;
        while calls_take(calls, joiner, writes, data, output) < ROUND {
            calls *= 2;
        }
        calls
    });
    let mut times: [Vec<f64>; 3] = Default::default();
    for _ in 0..ROUNDS {
        for (i, joiner) in JOINERS.into_iter().enumerate() {
            let taken = calls_take(calls[i], joiner, writes, data, output);
            times[i].push(taken.as_nanos() as f64 / f64::from(calls[i]));
        }
    }
    times.map(|mut times| {
        times.sort_by(f64::total_cmp);
        times[ROUNDS / 2]
    })
}

fn main() {
    println!("| Writes | ranges | bytes | library, ns | sorted copies, ns | ratio | boundaries, ns | ratio |");
    println!("|---|---|---|---|---|---|---|---|");
    for (name, writes) in cases() {
        let length = writes.iter().map(|write| write.length).sum::<u64>() as usize;
        let data: Vec<u8> = (0..length).map(|i| (i * 31 % 251) as u8).collect();
        let [library, others @ ..] = JOINERS.map(|joiner| made(joiner, &writes, &data, length));
        assert!(library.2 == Err(219) && others.iter().all(|other| *other == library), "{name}: not joined alike");
        let Rows { count, bytes, .. } = library.0.expect("the sheet is right");
        let [proved, sorted, swept] = time(&writes, &data, &mut vec![0; length]);
        print!("| {name} | {count} | {bytes} | {proved:.0} | {sorted:.0} | {:.2} ", proved / sorted);
        println!("| {swept:.0} | {:.2} |", proved / swept);
    }
}
