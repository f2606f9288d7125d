use super::*;
use std::cell::{Cell, RefCell};
use std::env;
use std::fs;
use std::process;

/// A file that moves at most three bytes at a time and is interrupted every second time.
struct Short {
    bytes: RefCell<Vec<u8>>,
    calls: Cell<u32>,
}

impl Short {
    fn of(bytes: &[u8]) -> Short {
        Short { bytes: RefCell::new(bytes.to_vec()), calls: Cell::new(0) }
    }

    fn interrupt(&self) -> io::Result<()> {
        self.calls.set(self.calls.get() + 1);
        if self.calls.get() % 2 == 1 {
            Err(ErrorKind::Interrupted.into())
        } else {
            Ok(())
        }
    }
}

impl FileExt for Short {
    fn read_at(&self, buffer: &mut [u8], offset: u64) -> io::Result<usize> {
        self.interrupt()?;
        let bytes = self.bytes.borrow();
        let left = bytes.get(offset as usize..).unwrap_or_default();
        let count = left.len().min(buffer.len()).min(3);
        buffer[..count].copy_from_slice(&left[..count]);
        Ok(count)
    }

    fn write_at(&self, buffer: &[u8], offset: u64) -> io::Result<usize> {
        self.interrupt()?;
        let count = buffer.len().min(3);
        self.bytes.borrow_mut()[offset as usize..][..count].copy_from_slice(&buffer[..count]);
        Ok(count)
    }
}

#[test]
fn short_and_interrupted_transfers_are_continued() {
    let file = Short::of(b"0123456789abcdef");
    let (mut a, mut b) = ([0; 7], [0xff; 8]);
    read_pieces(&file, 4, &mut [IoSliceMut::new(&mut a), IoSliceMut::new(&mut b)]).unwrap();
    assert_eq!((&a, &b), (b"456789a", b"bcdef\0\0\0"));
    write_pieces(&file, 1, &[IoSlice::new(b"ABCDEFG"), IoSlice::new(b"HIJK")]).unwrap();
    assert_eq!(*file.bytes.borrow(), b"0ABCDEFGHIJKcdef");
    assert!(file.calls.get() > 15);
}

/// A file of this test's own, which is removed at the end.
struct Temporary(std::path::PathBuf);

impl Temporary {
    fn new(name: &str, content: &[u8]) -> Temporary {
        let path = env::temp_dir().join(format!("pitch_dock-{}-{name}", process::id()));
        fs::write(&path, content).unwrap();
        Temporary(path)
    }

    fn open(&self, write: bool) -> FileStore {
        FileStore::new(File::options().read(true).write(write).open(&self.0).unwrap())
    }
}

impl Drop for Temporary {
    fn drop(&mut self) {
        let _ = fs::remove_file(&self.0);
    }
}

#[test]
fn a_file_reads_zeroes_past_its_end_and_is_lengthened_by_writes() {
    let file = Temporary::new("lengthened", b"abc");
    let store = file.open(true);
    let mut bytes = [0xff; 5];
    assert_eq!(store.read(1, &mut [IoSliceMut::new(&mut bytes)]), Code::DONE);
    assert_eq!(&bytes, b"bc\0\0\0");
    assert_eq!(store.write(5, &[IoSlice::new(b"xy")]), Code::DONE);
    assert_eq!(fs::read(&file.0).unwrap(), b"abc\0\0xy");
    assert_eq!(store.file().metadata().unwrap().len(), 7);
    assert_eq!((store.zero(0, 2), store.allocated_zero(0, 2)), (Code::UNSUPPORTED, Code::UNSUPPORTED));
    assert_eq!(store.discard(0, 2), Code::UNSUPPORTED);
}

#[test]
fn the_system_s_errors_are_codes() {
    let file = Temporary::new("read-only", b"abc");
    let store = file.open(false);
    assert_eq!(store.write(0, &[IoSlice::new(b"x")]), Code::failed(9));
    assert_eq!(store.read(u64::MAX - 5, &mut [IoSliceMut::new(&mut [0; 2])]), Code::failed(22));
    assert_eq!(fs::read(&file.0).unwrap(), b"abc");
}
