//! Stores: memory, a file, and one for tests that fails.

mod faulty;
mod file;
mod memory;

pub use faulty::{Carried, Faults, FaultyStore, Watcher};
pub use file::FileStore;
pub use memory::MemoryStore;
