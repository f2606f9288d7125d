//! A parameter sheet: forty fields of a pitch controller, five of each of eight blades, saved on a drive in memory one
//! by one and in one trip. Prints what either takes. The last line is `ok`.

use pitch_dock::{
    join, Answer, Code, JobList, MemoryStore, Refusal, Room, Runner, Settings, SheetWrite, Store, SHEET_WRITES,
};
use std::io::{IoSlice, IoSliceMut};
use std::process::ExitCode;
use std::sync::atomic::{AtomicU64, Ordering};

/// Drive row 1: blocks of 512 bytes.
const ROW: usize = 1;
const BOUNCE: u64 = 4096;
const OLD: u8 = b'.';
const SIZE: usize = 2048;

/// Block 1 has the records of the blades.
const RECORDS: u64 = 512;
const RECORD: u64 = 64;
const BLADES: u64 = 8;
/// The fields of a record, which touch: where each starts, and its bytes. What stands before and after them stays.
const FIELDS: [(u64, &[u8]); 5] =
    [(8, b"+002.75deg"), (18, b"+089.50deg"), (28, b"07.50deg/s"), (38, b"-000.12deg"), (48, b"REV 14")];
const LONGEST: usize = 64;

/// A store in memory that counts its requests.
struct Counted {
    store: MemoryStore,
    reads: AtomicU64,
    writes: AtomicU64,
}

impl Counted {
    fn new() -> Counted {
        let store = MemoryStore::new(vec![OLD; SIZE]);
        Counted { store, reads: AtomicU64::new(0), writes: AtomicU64::new(0) }
    }

    /// How many reads and writes it has carried out.
    fn counts(&self) -> (u64, u64) {
        (self.reads.load(Ordering::Relaxed), self.writes.load(Ordering::Relaxed))
    }
}

impl Store for Counted {
    fn read(&self, offset: u64, pieces: &mut [IoSliceMut<'_>]) -> Code {
        self.reads.fetch_add(1, Ordering::Relaxed);
        self.store.read(offset, pieces)
    }

    fn write(&self, offset: u64, pieces: &[IoSlice<'_>]) -> Code {
        self.writes.fetch_add(1, Ordering::Relaxed);
        self.store.write(offset, pieces)
    }
}

/// The writes of the sheet, and the bytes of all fields.
fn sheet() -> (Vec<SheetWrite>, Vec<u8>) {
    let (mut writes, mut data) = (Vec::new(), Vec::new());
    for blade in 0..BLADES {
        for (at, bytes) in FIELDS {
            let offset = RECORDS + RECORD * blade + at;
            writes.push(SheetWrite { offset, start: data.len() as u64, length: bytes.len() as u64 });
            data.extend_from_slice(bytes);
        }
    }
    (writes, data)
}

/// Makes writes in one run, up to eight at once; whether all are done.
fn save(runner: &mut Runner<'_>, store: &Counted, writes: &[SheetWrite], data: &[u8]) -> bool {
    let mut jobs = JobList::new();
    for write in writes {
        jobs.write(write.offset, &data[write.start as usize..][..write.length as usize]);
    }
    runner.run(&mut jobs, store);
    (0..writes.len() as u64).all(|number| jobs.ended(number).is_some_and(|ended| ended.outcome == Ok(Answer::Done)))
}

/// The store as it must be: the fields of each record, and all other bytes as they were.
fn wanted() -> Vec<u8> {
    let mut bytes = vec![OLD; SIZE];
    for blade in 0..BLADES {
        for (at, field) in FIELDS {
            let start = (RECORDS + RECORD * blade + at) as usize;
            bytes[start..start + field.len()].copy_from_slice(field);
        }
    }
    bytes
}

/// Prints what a store was asked for; how many requests.
fn show(how: &str, store: &Counted) -> u64 {
    let (reads, writes) = store.counts();
    println!("{how:<12} {:>3} requests, {reads} reads and {writes} writes", reads + writes);
    reads + writes
}

/// Saves the sheet both ways; whether both stores are as they must be, and the second took fewer requests.
fn save_both_ways() -> Result<bool, Refusal> {
    let settings = Settings::of_row(ROW, BOUNCE).ok_or(Refusal::Unfit)?;
    let mut room = Room::new(&settings, LONGEST);
    let (lent, scratch) = room.parts();
    let mut runner = Runner::open(&settings, lent, scratch)?;
    let (writes, data) = sheet();

    let alone = Counted::new();
    let mut is_done = writes.chunks(1).all(|field| save(&mut runner, &alone, field, &data));

    let together = Counted::new();
    let mut output = [0; SHEET_WRITES * LONGEST];
    let joined = join(&writes, &data, &mut output)?;
    is_done &= save(&mut runner, &together, joined.writes(), &output);

    println!("{} fields become {} ranges of {} bytes", writes.len(), joined.writes().len(), joined.bytes());
    let is_less = show("one by one:", &alone) > show("in one trip:", &together);
    Ok(is_done && is_less && alone.store.into_bytes() == wanted() && together.store.into_bytes() == wanted())
}

fn main() -> ExitCode {
    match save_both_ways() {
        Ok(true) => {
            println!("both drives hold the same bytes, and none beside the fields has changed");
            println!("ok");
            ExitCode::SUCCESS
        }
        Ok(false) => {
            println!("wrong: a write is not done, joining saved no request, or bytes are not what they should be");
            ExitCode::FAILURE
        }
        Err(refusal) => {
            println!("wrong: {refusal}");
            ExitCode::FAILURE
        }
    }
}
