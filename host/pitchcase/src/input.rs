//! What is read beside the image: scripts, sheets, drive tables and their texts, and the bytes of an edit.

use crate::options::{hex, BytesWords};
use crate::script::{Form, Script};
use crate::system;
use crate::trouble::{name_of, reason, refused, Outcome, Trouble};
use crate::work::Bytes;
use std::fs::File;
use std::io::{self, Read, Seek};
use std::os::unix::ffi::OsStringExt;
use std::os::unix::fs::MetadataExt;
use std::path::Path;

/// What is held in memory at most: a script, a sheet, a table, or bytes from a pipe.
const MOST: u64 = 1 << 30;
const MOST_TEXT: &str = "has more than 1G, which is all that is held in memory";

/// Device and number of an inode.
pub type Identity = (u64, u64);

/// The bytes of an edit.
#[derive(Debug)]
pub struct EditBytes {
    pub bytes: Bytes,
    pub length: u64,
    /// The file that they come from.
    pub from: Option<Identity>,
}

/// Opens a file, or takes standard input for `-`.
fn open(name: &str, path: &Path, is_stdin_closed: bool) -> Outcome<File> {
    let unopened = |error: io::Error| refused(format!("{name} {}: {}", name_of(path), reason(&error)));
    if path != Path::new("-") {
        return File::open(path).or_else(unopened);
    }
    if is_stdin_closed {
        return refused(format!("{name} -: standard input is closed"));
    }
    system::standing(0).try_clone().or_else(unopened)
}

/// Reads a file to its end.
fn read_whole(name: &str, path: &Path, mut file: File) -> Outcome<Vec<u8>> {
    let too_long = || refused(format!("{name} {}: {MOST_TEXT}", name_of(path)));
    if file.metadata().is_ok_and(|metadata| metadata.is_file() && metadata.len() > MOST) {
        return too_long();
    }
    let mut bytes = Vec::new();
    let mut chunk = vec![0; 1 << 16];
    loop {
        match file.read(&mut chunk) {
            Ok(0) => return Ok(bytes),
            Ok(n) if (bytes.len() + n) as u64 > MOST => return too_long(),
            Ok(n) => bytes.extend_from_slice(&chunk[..n]),
            Err(error) if error.kind() == io::ErrorKind::Interrupted => {
                if system::is_interrupted() {
                    return Err(Trouble::Interrupted("nothing was begun".into()));
                }
            }
            Err(error) => return refused(format!("{name} {}: {}", name_of(path), reason(&error))),
        }
    }
}

/// A script or a sheet, looked over.
pub fn script(form: Form, path: &Path, is_stdin_closed: bool) -> Outcome<Script> {
    let file = open(form.name(), path, is_stdin_closed)?;
    Script::parse(form, read_whole(form.name(), path, file)?)
}

/// All bytes of a file, which is called `name` where it was typed, and which file that is; of standard input for `-`.
pub fn whole(name: &str, path: &Path, is_stdin_closed: bool) -> Outcome<(Vec<u8>, Option<Identity>)> {
    let file = open(name, path, is_stdin_closed)?;
    let identity = file.metadata().ok().map(|metadata| (metadata.dev(), metadata.ino()));
    Ok((read_whole(name, path, file)?, identity))
}

/// The bytes that an edit writes: at least one.
pub fn edit_bytes(words: &BytesWords, is_stdin_closed: bool) -> Outcome<EditBytes> {
    let memory = |bytes: Vec<u8>| EditBytes { length: bytes.len() as u64, bytes: Bytes::Memory(bytes), from: None };
    let bytes = match (&words.hex, &words.text, &words.from) {
        (Some(word), None, None) => memory(hex(word)?),
        (None, Some(text), None) => memory(text.clone().into_vec()),
        (None, None, Some(path)) => file_bytes(path, is_stdin_closed)?,
        _ => return refused("an edit takes one of --hex, --text and --from"),
    };
    if bytes.length == 0 {
        return refused("an edit of no byte: --hex, --text or --from has none");
    }
    Ok(bytes)
}

/// The bytes of a file. A regular one is read while they are written, from where standard input stands in it; others
/// are read now.
fn file_bytes(path: &Path, is_stdin_closed: bool) -> Outcome<EditBytes> {
    let mut file = open("--from", path, is_stdin_closed)?;
    let unread = |error: io::Error| refused(format!("--from {}: {}", name_of(path), reason(&error)));
    let metadata = match file.metadata() {
        Ok(metadata) => metadata,
        Err(error) => return unread(error),
    };
    if !metadata.is_file() {
        let bytes = read_whole("--from", path, file)?;
        return Ok(EditBytes { length: bytes.len() as u64, bytes: Bytes::Memory(bytes), from: None });
    }
    let start = match file.stream_position() {
        Ok(start) => start,
        Err(error) => return unread(error),
    };
    let from = Some((metadata.dev(), metadata.ino()));
    Ok(EditBytes { length: metadata.len().saturating_sub(start), bytes: Bytes::File(file, start), from })
}
