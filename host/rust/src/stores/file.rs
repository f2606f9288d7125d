//! A store that is a file.

use crate::code::Code;
use crate::store::Store;
use std::fs::File;
use std::io::{self, ErrorKind, IoSlice, IoSliceMut};
use std::os::unix::fs::FileExt;

/// A file. A short read or write is continued, an interrupted one tried again; reads past the end give zeroes, writes
/// past it lengthen the file. Zeroes and discards are unsupported: the standard library has no call for them.
#[derive(Debug)]
pub struct FileStore {
    file: File,
}

impl FileStore {
    /// A store over a file that is open to read, and to write where it is written.
    pub fn new(file: File) -> FileStore {
        FileStore { file }
    }

    /// The file, to be synced for example.
    pub fn file(&self) -> &File {
        &self.file
    }
}

/// Fills all of `bytes` from `offset` on, with zeroes past the file's end.
fn read_all(file: &impl FileExt, mut offset: u64, mut bytes: &mut [u8]) -> io::Result<()> {
    while !bytes.is_empty() {
        match file.read_at(bytes, offset) {
            Ok(0) => {
                bytes.fill(0);
                return Ok(());
            }
            Ok(count) => {
                bytes = &mut bytes[count..];
                offset += count as u64;
            }
            Err(error) if error.kind() == ErrorKind::Interrupted => {}
            Err(error) => return Err(error),
        }
    }
    Ok(())
}

impl Store for FileStore {
    fn read(&self, offset: u64, pieces: &mut [IoSliceMut<'_>]) -> Code {
        read_pieces(&self.file, offset, pieces).into()
    }

    fn write(&self, offset: u64, pieces: &[IoSlice<'_>]) -> Code {
        write_pieces(&self.file, offset, pieces).into()
    }
}

fn read_pieces(file: &impl FileExt, mut offset: u64, pieces: &mut [IoSliceMut<'_>]) -> io::Result<()> {
    for piece in pieces {
        read_all(file, offset, piece)?;
        offset = offset.saturating_add(piece.len() as u64);
    }
    Ok(())
}

/// Writes all pieces: `write_all_at` goes on after a short write and an interrupted one.
fn write_pieces(file: &impl FileExt, mut offset: u64, pieces: &[IoSlice<'_>]) -> io::Result<()> {
    for piece in pieces {
        file.write_all_at(piece, offset)?;
        offset = offset.saturating_add(piece.len() as u64);
    }
    Ok(())
}

#[cfg(test)]
mod tests;
