//! The image: opened, locked, and what is found of it.

use crate::system::{self, Held};
use crate::trouble::{name_of, reason, refused, Outcome};
use std::fs::{File, Metadata, OpenOptions};
use std::io::{Seek, SeekFrom};
use std::os::unix::fs::{FileTypeExt, MetadataExt, OpenOptionsExt};
use std::path::Path;

/// The request alignment where the system tells none.
const USUAL_BLOCK: u64 = 512;
/// The greatest alignment that document 01 has.
const GREATEST: u64 = 65536;

/// What an image is. Nothing else is opened.
#[derive(Clone, Copy, Debug, PartialEq, Eq)]
pub enum Kind {
    /// A regular file.
    File,
    /// A block device.
    Device,
}

/// How an image is opened.
#[derive(Clone, Copy, Debug)]
pub struct Access {
    /// To be changed, not only looked at.
    pub change: bool,
    /// Past the system's cache (O_DIRECT).
    pub direct: bool,
    /// With a lock, held until it is closed.
    pub lock: bool,
}

/// An image that is open.
#[derive(Debug)]
pub struct Image {
    /// The open file.
    pub file: File,
    /// What it is.
    pub kind: Kind,
    /// How many bytes it had when it was opened.
    pub size: u64,
    /// How many bytes the system has set aside for it.
    pub allocated: u64,
    /// Alignments M, R, Z, D that it was found to have.
    pub found: [u64; 4],
    /// Device and number of its inode.
    pub identity: (u64, u64),
}

impl Kind {
    /// The kind of what has these metadata; None for folders, pipes and the like.
    fn of(metadata: &Metadata) -> Option<Kind> {
        let sort = metadata.file_type();
        if sort.is_file() {
            return Some(Kind::File);
        }
        sort.is_block_device().then_some(Kind::Device)
    }

    /// What it is called.
    pub fn word(self) -> &'static str {
        match self {
            Kind::File => "file",
            Kind::Device => "block device",
        }
    }
}

/// Opens an image. What it is, is seen before it is opened, since opening can set a device going, and again after it.
pub fn open(path: &Path, access: Access) -> Outcome<Image> {
    let name = name_of(path);
    let unopened = |error: std::io::Error| refused(format!("IMAGE {name}: {}", reason(&error)));
    let unfit = || refused(format!("IMAGE {name}: neither a regular file nor a block device"));
    let before = match std::fs::metadata(path) {
        Ok(metadata) => metadata,
        Err(error) => return unopened(error),
    };
    let Some(kind) = Kind::of(&before) else { return unfit() };
    let file = match options(kind, access).open(path) {
        Ok(file) => file,
        Err(error) => return unopened_with(&name, kind, access, &error),
    };
    let metadata = match file.metadata() {
        Ok(metadata) => metadata,
        Err(error) => return unopened(error),
    };
    if Kind::of(&metadata) != Some(kind) {
        return unfit();
    }
    if access.lock {
        lock(&file, &name, access.change)?;
    }
    let size = match (&file).seek(SeekFrom::End(0)) {
        Ok(size) => size,
        Err(error) => return unopened(error),
    };
    let found = found_alignments(&file, kind, &metadata, access.direct);
    let identity = (metadata.dev(), metadata.ino());
    Ok(Image { file, kind, size, allocated: 512 * metadata.blocks(), found, identity })
}

/// O_EXCL on a block device is refused by the system where it is mounted or part of another device: it goes with the
/// lock, for those who change it.
fn options(kind: Kind, access: Access) -> OpenOptions {
    let claim = kind == Kind::Device && access.change && access.lock;
    let mut flags = libc::O_NOCTTY;
    if access.direct {
        flags |= libc::O_DIRECT;
    }
    if claim {
        flags |= libc::O_EXCL;
    }
    let mut options = OpenOptions::new();
    options.read(true).write(access.change).custom_flags(flags);
    options
}

fn unopened_with(name: &str, kind: Kind, access: Access, error: &std::io::Error) -> Outcome<Image> {
    let hint = match error.raw_os_error() {
        Some(libc::EBUSY) if kind == Kind::Device => ": it is mounted, or another holds it",
        Some(libc::EINVAL) if access.direct => ": its file system takes no --direct",
        _ => "",
    };
    refused(format!("IMAGE {name}: {}{hint}", reason(error)))
}

/// Takes the lock: shared to read, exclusive to change.
///
/// It is an open file description lock (fcntl) over the whole file, not flock's: qemu locks single bytes of an image
/// the same way, so an image that a machine runs on is seen to be in use, and it works on block devices and over NFS
/// too. It ends with the descriptor, by kill -9 as well, and leaves nothing behind.
fn lock(file: &File, name: &str, change: bool) -> Outcome<()> {
    match system::take_lock(file, change) {
        Ok(true) => Ok(()),
        Ok(false) if change => {
            refused(format!("IMAGE {name}: another process has it open under a lock (--no-lock goes on without)"))
        }
        Ok(false) => refused(format!("IMAGE {name}: another process is changing it (--no-lock goes on without)")),
        Err(error) => {
            refused(format!("IMAGE {name}: no lock can be taken: {} (--no-lock goes on without)", reason(&error)))
        }
    }
}

/// Who holds a lock, for `info`.
pub fn held(image: &Image) -> &'static str {
    match system::held_lock(&image.file) {
        Ok(Held::Free) => "free",
        Ok(Held::Shared) => "held to read",
        Ok(Held::Exclusive) => "held to change",
        Err(_) => "not known",
    }
}

/// A power of two that document 01 takes as an alignment, or else another.
fn fit_or(value: u64, other: u64) -> u64 {
    if value.is_power_of_two() && value <= GREATEST {
        return value;
    }
    other
}

/// Alignments by what the system tells. Requests: of a device its logical block, of a file what direct transfers need,
/// or 512. Memory: only direct transfers need one. Zeroes: as requests. Discards: of a device its granularity.
fn found_alignments(file: &File, kind: Kind, metadata: &Metadata, direct: bool) -> [u64; 4] {
    let told = system::direct_alignments(file);
    let offset = match kind {
        Kind::Device => system::logical_block(file).unwrap_or(USUAL_BLOCK),
        Kind::File => told.map_or(USUAL_BLOCK, |(_, offset)| offset),
    };
    let requests = fit_or(offset, USUAL_BLOCK).max(USUAL_BLOCK);
    let memory = match told {
        _ if !direct => 1,
        Some((memory, _)) => fit_or(memory, requests),
        None => requests,
    };
    let discards = match kind {
        Kind::Device => granularity(metadata).map_or(requests, |d| fit_or(d, requests)).max(requests),
        Kind::File => requests,
    };
    [memory, requests, requests, discards]
}

/// How many bytes a block device discards at least, as its queue says: that of the whole device for a partition.
fn granularity(metadata: &Metadata) -> Option<u64> {
    let (major, minor) = system::device_numbers(metadata.rdev());
    let read = |queue: &str| {
        let text =
            std::fs::read_to_string(format!("/sys/dev/block/{major}:{minor}/{queue}/discard_granularity")).ok()?;
        text.trim().parse().ok()
    };
    read("queue").or_else(|| read("../queue")).filter(|&d: &u64| d != 0)
}

#[cfg(test)]
mod tests {
    use super::*;

    const LOOK: Access = Access { change: false, direct: false, lock: true };
    const EDIT: Access = Access { change: true, ..LOOK };

    fn sample(name: &str, size: u64) -> std::path::PathBuf {
        let path = std::env::temp_dir().join(format!("pitchcase-image-{}-{name}", std::process::id()));
        File::create(&path).unwrap().set_len(size).unwrap();
        path
    }

    #[test]
    fn a_file_has_its_size_and_alignments() {
        let path = sample("size", 1537);
        let image = open(&path, LOOK).unwrap();
        assert_eq!((image.kind, image.size), (Kind::File, 1537));
        let [memory, requests, zeroes, discards] = image.found;
        assert_eq!(memory, 1);
        assert!(requests >= 512 && zeroes == requests && discards == requests);
        std::fs::remove_file(path).unwrap();
    }

    #[test]
    fn folders_and_character_devices_are_refused() {
        for path in ["/", "/dev/null", "/dev/full"] {
            let trouble = open(Path::new(path), LOOK).unwrap_err();
            assert_eq!(trouble.status(), 2);
            assert!(trouble.to_string().ends_with("neither a regular file nor a block device"), "{trouble}");
        }
    }

    #[test]
    fn readers_share_and_one_who_changes_is_alone() {
        let path = sample("lock", 512);
        let first = open(&path, LOOK).unwrap();
        let second = open(&path, LOOK).unwrap();
        assert_eq!(open(&path, EDIT).unwrap_err().status(), 2);
        drop((first, second));
        let alone = open(&path, EDIT).unwrap();
        assert_eq!(open(&path, EDIT).unwrap_err().status(), 2);
        assert_eq!(open(&path, LOOK).unwrap_err().status(), 2);
        assert_eq!(held(&open(&path, Access { lock: false, ..LOOK }).unwrap()), "held to change");
        drop(alone);
        assert_eq!(held(&open(&path, Access { lock: false, ..LOOK }).unwrap()), "free");
        std::fs::remove_file(path).unwrap();
    }
}
