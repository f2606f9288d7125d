//! The image as the dock's store: requests carried out on a file or a block device.

use crate::image::Kind;
use crate::system::{self, Change};
use pitch_dock::{Code, Store};
use std::fs::File;
use std::io::{self, IoSlice, IoSliceMut};
use std::ops::Range;
use std::sync::atomic::{AtomicBool, Ordering};
use std::sync::{Mutex, PoisonError};

/// An image as a store.
///
/// Padding reaches past the image's end where that is no multiple of the block. So that an edit does not lengthen a
/// file, a read gives zeroes past the end, and of a write the bytes past the end are dropped: they are the zeroes that
/// a read there gave.
#[derive(Debug)]
pub struct Drive<'a> {
    file: &'a File,
    kind: Kind,
    /// How many bytes the image has.
    end: u64,
    /// Whether its file system has said that it makes no zeroes, only holes: to be asked once, for tmpfs finds holes
    /// slowly.
    only_holes: AtomicBool,
    /// A part of a file that was found to be in no hole: finding where it ends is slow in a file of many parts.
    data: Mutex<Range<u64>>,
}

impl<'a> Drive<'a> {
    /// The store of an image that has `end` bytes.
    pub fn new(file: &'a File, kind: Kind, end: u64) -> Drive<'a> {
        Drive { file, kind, end, only_holes: AtomicBool::new(false), data: Mutex::new(0..0) }
    }

    /// Reads until all pieces are full or the file ends; how many bytes.
    fn read_all(&self, offset: u64, mut pieces: &mut [IoSliceMut<'_>]) -> io::Result<u64> {
        let mut got = 0;
        while !pieces.is_empty() {
            match system::read_pieces(self.file, offset + got, pieces) {
                Ok(0) => break,
                Ok(n) => {
                    got += n as u64;
                    IoSliceMut::advance_slices(&mut pieces, n);
                }
                Err(error) if error.kind() == io::ErrorKind::Interrupted => continue,
                Err(error) => return Err(error),
            }
        }
        if pieces.is_empty() {
            return Ok(got);
        }
        self.pad(offset + got, pieces)?;
        Ok(got)
    }

    /// Zeroes in what a read did not reach. A file that ends before `end` was cut by somebody: its bytes are not known.
    fn pad(&self, at: u64, pieces: &mut [IoSliceMut<'_>]) -> io::Result<()> {
        if at < self.end {
            return Err(io::Error::from_raw_os_error(libc::EIO));
        }
        pieces.iter_mut().for_each(|piece| piece.fill(0));
        Ok(())
    }

    /// Writes all pieces.
    fn write_all(&self, mut offset: u64, mut pieces: &mut [IoSlice<'_>]) -> io::Result<()> {
        while !pieces.is_empty() {
            match system::write_pieces(self.file, offset, pieces) {
                Ok(0) => return Err(io::Error::from_raw_os_error(libc::EIO)),
                Ok(n) => {
                    offset += n as u64;
                    IoSlice::advance_slices(&mut pieces, n);
                }
                Err(error) if error.kind() == io::ErrorKind::Interrupted => continue,
                Err(error) => return Err(error),
            }
        }
        Ok(())
    }

    /// How many bytes of a range lie before the end.
    fn inside(&self, offset: u64, length: u64) -> u64 {
        length.min(self.end.saturating_sub(offset))
    }

    /// Zeroes without writing them. Of a file holes stay as they are, so that one with holes takes up no more space
    /// than before, and the rest stays allocated, which is the quickest; of a device blocks are given back where it can
    /// do that.
    fn make_zeroes(&self, offset: u64, length: u64) -> io::Result<()> {
        if self.kind == Kind::File && !self.only_holes.load(Ordering::Relaxed) {
            match self.zero_data(offset, length) {
                Err(error) if is_unsupported(&error) => self.only_holes.store(true, Ordering::Relaxed),
                result => return result,
            }
        }
        match retried(|| system::fallocate(self.file, Change::Punch, offset, length)) {
            Err(error) if is_unsupported(&error) && self.kind == Kind::Device => {
                retried(|| system::zero_out(self.file, offset, length))
            }
            result => result,
        }
    }

    /// Zeroes in the parts of a range that are in no hole.
    fn zero_data(&self, offset: u64, length: u64) -> io::Result<()> {
        let end = offset + length;
        let mut at = offset;
        while let Some(data) = self.next_data(at).filter(|data| data.start < end) {
            let stop = data.end.min(end);
            // A discard that is out together with this may have made a hole of it meanwhile.
            if data.start < stop {
                retried(|| system::fallocate(self.file, Change::Zero, data.start, stop - data.start))?;
            }
            at = stop;
        }
        Ok(())
    }

    /// The next part from `at` on that is in no hole.
    fn next_data(&self, at: u64) -> Option<Range<u64>> {
        let mut data = self.data.lock().unwrap_or_else(PoisonError::into_inner);
        if data.contains(&at) {
            return Some(at..data.end);
        }
        let start = system::next_data(self.file, at)?;
        *data = start..system::next_hole(self.file, start);
        Some(data.clone())
    }

    /// Zeroes that take up space: by one call, or where the file system has it not, a hole that is then allocated.
    fn make_allocated_zeroes(&self, offset: u64, length: u64) -> io::Result<()> {
        if self.kind == Kind::Device {
            return retried(|| system::zero_out(self.file, offset, length));
        }
        match retried(|| system::fallocate(self.file, Change::Zero, offset, length)) {
            Err(error) if is_unsupported(&error) => {}
            result => return result,
        }
        retried(|| system::fallocate(self.file, Change::Punch, offset, length))?;
        retried(|| system::fallocate(self.file, Change::Allocate, offset, length))
    }

    /// Forgets a range. What lies past the end has no content.
    fn forget(&self, offset: u64, length: u64) -> io::Result<()> {
        *self.data.lock().unwrap_or_else(PoisonError::into_inner) = 0..0;
        match self.kind {
            _ if length == 0 => Ok(()),
            Kind::Device => retried(|| system::discard(self.file, offset, length)),
            Kind::File => retried(|| system::fallocate(self.file, Change::Punch, offset, length)),
        }
    }
}

/// A call until it is not interrupted by a signal.
fn retried(call: impl Fn() -> io::Result<()>) -> io::Result<()> {
    loop {
        match call() {
            Err(error) if error.kind() == io::ErrorKind::Interrupted => continue,
            result => return result,
        }
    }
}

fn is_unsupported(error: &io::Error) -> bool {
    matches!(error.raw_os_error(), Some(libc::EOPNOTSUPP | libc::ENOSYS | libc::ENOTTY))
}

/// The code of a request that a system need not support.
fn optional(result: io::Result<()>) -> Code {
    result.map_or_else(Code::of_optional, |()| Code::DONE)
}

impl Store for Drive<'_> {
    fn read(&self, offset: u64, pieces: &mut [IoSliceMut<'_>]) -> Code {
        Code::from(self.read_all(offset, pieces).map(drop))
    }

    fn write(&self, offset: u64, pieces: &[IoSlice<'_>]) -> Code {
        let length = pieces.iter().map(|piece| piece.len() as u64).sum();
        let mut left = self.inside(offset, length) as usize;
        let mut parts = [IoSlice::new(&[]); MOST_PIECES];
        let mut count = 0;
        for (part, piece) in parts.iter_mut().zip(pieces) {
            if left == 0 {
                break;
            }
            *part = IoSlice::new(&piece[..left.min(piece.len())]);
            left -= part.len();
            count += 1;
        }
        Code::from(self.write_all(offset, &mut parts[..count]))
    }

    fn zero(&self, offset: u64, length: u64) -> Code {
        optional(self.make_zeroes(offset, self.inside(offset, length)))
    }

    fn allocated_zero(&self, offset: u64, length: u64) -> Code {
        optional(self.make_allocated_zeroes(offset, self.inside(offset, length)))
    }

    fn discard(&self, offset: u64, length: u64) -> Code {
        optional(self.forget(offset, self.inside(offset, length)))
    }
}

/// A request has at most as many pieces as a vector has segments.
const MOST_PIECES: usize = pitch_dock::SEGMENTS;

/// The store of a plan: nothing is carried out, all is answered with done.
pub struct Planned;

impl Store for Planned {
    fn read(&self, _: u64, _: &mut [IoSliceMut<'_>]) -> Code {
        Code::DONE
    }

    fn write(&self, _: u64, _: &[IoSlice<'_>]) -> Code {
        Code::DONE
    }

    fn zero(&self, _: u64, _: u64) -> Code {
        Code::DONE
    }

    fn allocated_zero(&self, _: u64, _: u64) -> Code {
        Code::DONE
    }

    fn discard(&self, _: u64, _: u64) -> Code {
        Code::DONE
    }
}

#[cfg(test)]
mod tests {
    use super::*;
    use std::fs::OpenOptions;
    use std::os::unix::fs::FileExt;
    use std::os::unix::fs::MetadataExt;

    fn sample(name: &str, bytes: &[u8]) -> File {
        let path = std::env::temp_dir().join(format!("pitchcase-drive-{}-{name}", std::process::id()));
        std::fs::write(&path, bytes).unwrap();
        let file = OpenOptions::new().read(true).write(true).open(&path).unwrap();
        std::fs::remove_file(&path).unwrap();
        file
    }

    fn content(file: &File) -> Vec<u8> {
        let mut bytes = vec![0; file.metadata().unwrap().len() as usize];
        file.read_exact_at(&mut bytes, 0).unwrap();
        bytes
    }

    #[test]
    fn reads_give_zeroes_past_the_end() {
        let file = sample("read", &[7; 600]);
        let drive = Drive::new(&file, Kind::File, 600);
        let (mut first, mut second) = ([1; 100], [1; 412]);
        let code = drive.read(512, &mut [IoSliceMut::new(&mut first), IoSliceMut::new(&mut second)]);
        assert_eq!(code, Code::DONE);
        assert_eq!((&first[..88], &first[88..], second), (&[7; 88][..], &[0; 12][..], [0; 412]));
        assert_eq!(drive.read(4096, &mut [IoSliceMut::new(&mut first)]), Code::DONE);
        assert_eq!(first, [0; 100]);
    }

    #[test]
    fn a_file_that_was_cut_is_not_read_as_zeroes() {
        let file = sample("cut", &[7; 100]);
        let mut bytes = [1; 512];
        let code = Drive::new(&file, Kind::File, 600).read(0, &mut [IoSliceMut::new(&mut bytes)]);
        assert_eq!(code, Code::failed(5));
    }

    #[test]
    fn writes_end_at_the_end() {
        let file = sample("write", &[7; 600]);
        let drive = Drive::new(&file, Kind::File, 600);
        let code = drive.write(512, &[IoSlice::new(&[1; 80]), IoSlice::new(&[2; 232]), IoSlice::new(&[3; 200])]);
        assert_eq!(code, Code::DONE);
        let wanted = [vec![7; 512], vec![1; 80], vec![2; 8]].concat();
        assert_eq!(content(&file), wanted);
        assert_eq!(drive.write(1024, &[IoSlice::new(&[1; 512])]), Code::DONE);
        assert_eq!(content(&file), wanted);
    }

    #[test]
    fn zeroes_and_discards_keep_length_and_neighbours() {
        let file = sample("zero", &[7; 20000]);
        let drive = Drive::new(&file, Kind::File, 20000);
        for (carry, name) in
            [(Drive::zero as fn(&_, _, _) -> _, "zero"), (Drive::allocated_zero, "alloc"), (Drive::discard, "discard")]
        {
            file.write_all_at(&[7; 20000], 0).unwrap();
            let code = carry(&drive, 4096, 8192);
            if code == Code::UNSUPPORTED {
                continue;
            }
            assert_eq!(code, Code::DONE, "{name}");
            assert_eq!(content(&file), [vec![7; 4096], vec![0; 8192], vec![7; 20000 - 12288]].concat(), "{name}");
        }
        assert_eq!(drive.discard(20480, 512), Code::DONE);
        assert_eq!(file.metadata().unwrap().size(), 20000);
    }

    #[test]
    fn zeroes_leave_holes_and_reach_every_byte_between() {
        let file = sample("holes", b"");
        file.set_len(1 << 20).unwrap();
        for at in [0, 65536, 300_000, (1 << 20) - 10] {
            file.write_all_at(&[7; 10], at).unwrap();
        }
        let before = file.metadata().unwrap().blocks();
        assert_eq!(Drive::new(&file, Kind::File, 1 << 20).zero(512, (1 << 20) - 512), Code::DONE);
        let wanted = [vec![7; 10], vec![0; (1 << 20) - 10]].concat();
        assert!(content(&file) == wanted);
        assert!(file.metadata().unwrap().blocks() <= before);
    }

    #[test]
    fn a_file_that_may_not_be_written_is_no_unsupported_request() {
        let path = std::env::temp_dir().join(format!("pitchcase-drive-{}-only", std::process::id()));
        std::fs::write(&path, [7; 4096]).unwrap();
        let file = File::open(&path).unwrap();
        std::fs::remove_file(&path).unwrap();
        let drive = Drive::new(&file, Kind::File, 4096);
        for code in [drive.zero(0, 4096), drive.allocated_zero(0, 4096), drive.discard(0, 4096)] {
            assert_eq!(code, Code::failed(libc::EBADF as u8));
        }
        assert_eq!(drive.write(0, &[IoSlice::new(&[0; 512])]), Code::failed(libc::EBADF as u8));
    }
}
