//! Five files of imago 0.2.6, unchanged, and what they name of the rest of that crate.
#![allow(dead_code)]

mod file;
mod macros;

// `pub mod io_buffers; pub(crate) mod misc_helpers; pub mod storage;`, each with the path of its file.
include!(concat!(env!("OUT_DIR"), "/modules.rs"));

pub use storage::ext::StorageExt;
pub use storage::Storage;
