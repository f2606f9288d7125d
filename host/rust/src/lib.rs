//! The dock: byte ranges over an aligned drive.
//!
//! A job (read, write, zeroes, discard) is about any byte range of a store; the drive takes only whole, aligned blocks.
//! A [`Runner`] serves jobs until they are done, up to eight at once, on anything that is a [`Store`]:
//!
//! ```
//! use pitch_dock::{Answer, JobList, MemoryStore, Room, Runner, Settings};
//!
//! // Drive row 1: blocks of 512 bytes. Each job has a bounce buffer of 4096 bytes, and at most 512 bytes of its own.
//! let settings = Settings::of_row(1, 4096).unwrap();
//! let mut room = Room::new(&settings, 512);
//! let (data, scratch) = room.parts();
//! let mut runner = Runner::open(&settings, data, scratch)?;
//!
//! let store = MemoryStore::new(vec![b'.'; 8192]);
//! let mut jobs = JobList::new();
//! let edit = jobs.write(660, b"+002.75deg");
//! jobs.write(700, b"+003.00deg"); // in the same block, at the same time
//! jobs.barrier();
//! let look = jobs.read(655, 20);
//! runner.run(&mut jobs, &store);
//!
//! assert_eq!(jobs.ended(edit).unwrap().outcome, Ok(Answer::Done));
//! assert_eq!(jobs.bytes(look), b".....+002.75deg.....");
//! assert_eq!(store.bytes()[700..711], *b"+003.00deg.");
//! # Ok::<(), pitch_dock::Refusal>(())
//! ```
//!
//! [`Runner::run_threads`] has up to eight requests carried out together. Jobs that are not known beforehand come from
//! a [`Source`] of your own. [`MemoryStore`] and [`FileStore`] are stores, [`FaultyStore`] is one for tests. Drives that
//! no built-in row describes are loaded as a [`Table`]. Many small writes are joined to few by [`join`], so that they
//! take one trip.
//!
//! # One step at a time
//!
//! Under the runner stands the [`Dock`], which does no input or output itself. [`Dock::next`] says which aligned
//! request the store must carry out for a job, [`Dock::piece`] hands out that request's bytes, [`Dock::tell`] hands in
//! the store's code, [`Dock::collect`] takes the final answer. "Document 01" is the agreed scope; it says what is
//! right.
//!
//! [`Dock::submit_write`] and its like, [`Dock::complete`] and [`Dock::show`] do the same in fewer calls, one for each
//! request: what the job needs next comes back at once, with the first piece, and an answer is collected as it is shown:
//!
//! ```
//! use pitch_dock::{Answer, Dock, Piece, Shown, Vector};
//!
//! let (mut store, mut data, mut scratch) = ([b'.'; 1024], *b"+002.75deg", vec![0; 8 * 4096]);
//! let mut dock = Dock::open_row(1, 4096, &mut data, &mut scratch)?;
//! let mut shown = dock.submit_write(660, &Vector::of(0, 10));
//! while let Shown::Make { slot, request, first } = shown {
//!     let at = request.offset as usize;
//!     match first {
//!         Some(Piece::Fill(bytes)) => bytes.copy_from_slice(&store[at..at + bytes.len()]),
//!         Some(Piece::Take(bytes)) => store[at..at + bytes.len()].copy_from_slice(bytes),
//!         None => unreachable!("a write makes reads and writes alone"),
//!     }
//!     shown = dock.complete(slot, 0);
//! }
//! assert_eq!(shown, Shown::Answer(Answer::Done));
//! assert_eq!(store[655..675], *b".....+002.75deg.....");
//! # Ok::<(), pitch_dock::Refusal>(())
//! ```
//!
//! The calls are those of the proved library `libdock_c.a`. What its proof asks of a caller, this crate keeps by
//! types:
//!
//! - Data and scratch are borrowed by the dock, so they stay where they are and do not overlap.
//! - Scratch is nobody's but the dock's.
//! - Bytes of the data that a job in flight reads into or writes from change only by the dock and by the store: others
//!   are changed through [`Dock::data_mut`] and [`Dock::write_data`], which refuse those.
//! - A piece is lent until the next call on the dock, to be filled for a read, to be looked at for a write.
//!
//! What types do not keep is the store's side: it carries out each request once, fills all pieces of a read that it
//! answers with 0, and tells the code of what it did. A store that does not breaks no memory, but then the bytes are
//! not what document 01 promises. The runner carries out each request once, and tells the code that the store gave.
//!
//! A piece cannot be kept past the next call:
//!
//! ```compile_fail,E0499
//! fn late(dock: &mut pitch_dock::Dock) {
//!     let piece = dock.piece(0, 0);
//!     let _ = dock.tell(0, 0);
//!     drop(piece);
//! }
//! ```
//!
//! Nor can what a combined call shows:
//!
//! ```compile_fail,E0499
//! fn late(dock: &mut pitch_dock::Dock) {
//!     let shown = dock.show(0);
//!     let _ = dock.tell(0, 0);
//!     drop(shown);
//! }
//! ```
//!
//! Nor can the data be changed behind the dock:
//!
//! ```compile_fail,E0506
//! use pitch_dock::Dock;
//! fn behind(data: &mut [u8], scratch: &mut [u8]) {
//!     let mut dock = Dock::open_row(1, 4096, data, scratch).unwrap();
//!     data[0] = 1;
//!     let _ = dock.tell(0, 0);
//! }
//! ```

#![deny(unsafe_code)]
#![warn(missing_docs)]

mod answer;
mod code;
mod dock;
mod draw;
#[allow(unsafe_code)]
mod raw;
mod refusal;
mod room;
mod runner;
mod sheet;
mod store;
mod stores;
mod table;
mod vector;

pub use answer::{Answer, Begun, Chunk, Due, Kind, Piece, Request, Shown};
pub use code::Code;
pub use dock::{aligned_part, DataError, Dock, Settings, SLOTS};
pub use refusal::Refusal;
pub use room::Room;
pub use runner::{Ended, Job, JobList, Next, Order, Runner, Source, Tally, Told, Waiting};
pub use sheet::{join, Joined, SheetWrite, SHEET_WRITES};
pub use store::Store;
pub use stores::{Carried, Faults, FaultyStore, FileStore, MemoryStore, Watcher};
pub use table::{Table, TABLE_ROWS};
pub use vector::{Vector, LONGEST_VECTOR, SEGMENTS};
