//! The system's calls that std has not, behind functions that are safe to call. All that is unsafe in this program is
//! here.

use std::ffi::{c_int, CStr, CString};
use std::fs::File;
use std::io::{self, IoSlice, IoSliceMut};
use std::os::fd::{AsRawFd, FromRawFd, RawFd};
use std::os::raw::c_ulong;
use std::os::unix::ffi::OsStrExt;
use std::os::unix::fs::FileExt;
use std::path::Path;
use std::sync::atomic::{AtomicU32, Ordering};
use std::sync::OnceLock;

// From linux/fs.h, which the crate libc has not.
const BLKDISCARD: c_ulong = 0x1277;
const BLKZEROOUT: c_ulong = 0x127f;
const BLKSSZGET: c_ulong = 0x1268;

/// The result of a call that returns a negative number where it fails.
fn checked(result: c_int) -> io::Result<c_int> {
    if result < 0 {
        return Err(io::Error::last_os_error());
    }
    Ok(result)
}

/// How many bytes a call moved.
fn moved(result: isize) -> io::Result<usize> {
    usize::try_from(result).map_err(|_| io::Error::last_os_error())
}

/// The offset as the system takes it.
fn place(offset: u64) -> io::Result<i64> {
    i64::try_from(offset).map_err(|_| io::Error::from_raw_os_error(libc::EFBIG))
}

/// Reads into the pieces from `offset` on; how many bytes. One piece is the usual case, and pread the quicker call.
pub fn read_pieces(file: &File, offset: u64, pieces: &mut [IoSliceMut<'_>]) -> io::Result<usize> {
    if let [piece] = pieces {
        return file.read_at(piece, offset);
    }
    let offset = place(offset)?;
    // SAFETY: IoSliceMut has the layout of iovec, by its documentation; the pieces are borrowed alone during the call.
    moved(unsafe { libc::preadv(file.as_raw_fd(), pieces.as_mut_ptr().cast(), pieces.len() as c_int, offset) })
}

/// Writes the pieces from `offset` on; how many bytes.
pub fn write_pieces(file: &File, offset: u64, pieces: &[IoSlice<'_>]) -> io::Result<usize> {
    if let [piece] = pieces {
        return file.write_at(piece, offset);
    }
    let offset = place(offset)?;
    // SAFETY: IoSlice has the layout of iovec, by its documentation; the call changes none of its bytes.
    moved(unsafe { libc::pwritev(file.as_raw_fd(), pieces.as_ptr().cast(), pieces.len() as c_int, offset) })
}

/// What fallocate is to do with a range. None of them changes a file's length.
#[derive(Clone, Copy, Debug, PartialEq, Eq)]
pub enum Change {
    /// Makes it a hole, which reads as zeroes.
    Punch,
    /// Makes it zeroes, allocated.
    Zero,
    /// Allocates it; bytes that are there stay.
    Allocate,
}

/// fallocate on a range of a file or a block device.
pub fn fallocate(file: &File, change: Change, offset: u64, length: u64) -> io::Result<()> {
    let mode = match change {
        Change::Punch => libc::FALLOC_FL_PUNCH_HOLE | libc::FALLOC_FL_KEEP_SIZE,
        Change::Zero => libc::FALLOC_FL_ZERO_RANGE | libc::FALLOC_FL_KEEP_SIZE,
        Change::Allocate => libc::FALLOC_FL_KEEP_SIZE,
    };
    let (offset, length) = (place(offset)?, place(length)?);
    // SAFETY: the call takes numbers alone.
    checked(unsafe { libc::fallocate(file.as_raw_fd(), mode, offset, length) }).map(drop)
}

/// The next byte from `offset` on that is in no hole of a file; None where only holes are left. A file system that
/// tells nothing of holes has none.
pub fn next_data(file: &File, offset: u64) -> Option<u64> {
    match seek(file, offset, libc::SEEK_DATA) {
        Ok(found) => Some(found),
        Err(error) if error.raw_os_error() == Some(libc::ENXIO) => None,
        Err(_) => Some(offset),
    }
}

/// The next hole from `offset` on; the file's end, or further, where there is none.
pub fn next_hole(file: &File, offset: u64) -> u64 {
    seek(file, offset, libc::SEEK_HOLE).unwrap_or(u64::MAX)
}

/// lseek. Nobody reads or writes where the file stands.
fn seek(file: &File, offset: u64, whence: c_int) -> io::Result<u64> {
    let offset = place(offset)?;
    // SAFETY: the call takes numbers alone.
    let found = unsafe { libc::lseek(file.as_raw_fd(), offset, whence) };
    u64::try_from(found).map_err(|_| io::Error::last_os_error())
}

fn range_request(file: &File, request: c_ulong, offset: u64, length: u64) -> io::Result<()> {
    let range = [offset, length];
    // SAFETY: both requests read two 64-bit numbers, which live during the call.
    checked(unsafe { libc::ioctl(file.as_raw_fd(), request as _, range.as_ptr()) }).map(drop)
}

/// Has a block device make a range zeroes; the system writes them where the device cannot.
pub fn zero_out(file: &File, offset: u64, length: u64) -> io::Result<()> {
    range_request(file, BLKZEROOUT, offset, length)
}

/// Has a block device forget a range.
pub fn discard(file: &File, offset: u64, length: u64) -> io::Result<()> {
    range_request(file, BLKDISCARD, offset, length)
}

/// The logical block size of a block device.
pub fn logical_block(file: &File) -> io::Result<u64> {
    let mut size: c_int = 0;
    // SAFETY: the request writes one int, which lives during the call.
    checked(unsafe { libc::ioctl(file.as_raw_fd(), BLKSSZGET as _, &mut size as *mut c_int) })?;
    Ok(u64::from(size.unsigned_abs()))
}

/// Gives a file another name, which nobody has: EEXIST where somebody does. A file system that cannot do it in one step
/// gives it a second name first.
pub fn rename_new(from: &Path, to: &Path) -> io::Result<()> {
    let (old, new) = (CString::new(from.as_os_str().as_bytes())?, CString::new(to.as_os_str().as_bytes())?);
    let here = libc::AT_FDCWD;
    // SAFETY: both paths are strings that end, and live during the call.
    let renamed = unsafe { libc::renameat2(here, old.as_ptr(), here, new.as_ptr(), libc::RENAME_NOREPLACE) };
    match checked(renamed) {
        Err(error) if matches!(error.raw_os_error(), Some(libc::EINVAL | libc::ENOSYS)) => {
            std::fs::hard_link(from, to)?;
            // It has its name: that the old one stays too is no failure.
            let _ = std::fs::remove_file(from);
            Ok(())
        }
        result => result.map(drop),
    }
}

/// The buffer of statx: 256 bytes, whose fields are read by their places in linux/stat.h.
#[repr(C, align(8))]
struct StatxBytes([u8; 256]);

impl StatxBytes {
    fn word(&self, at: usize) -> u32 {
        u32::from_ne_bytes([self.0[at], self.0[at + 1], self.0[at + 2], self.0[at + 3]])
    }
}

/// Alignments of memory and of offsets that direct transfers need, where the system tells (statx, from Linux 6.1 on).
pub fn direct_alignments(file: &File) -> Option<(u64, u64)> {
    const DIOALIGN: u32 = 0x2000;
    let mut bytes = StatxBytes([0; 256]);
    let empty: &CStr = c"";
    // SAFETY: the path is a string that ends; the buffer has the 256 bytes of a struct statx, aligned as one, and is
    // borrowed alone.
    let told = unsafe {
        libc::statx(
            file.as_raw_fd(),
            empty.as_ptr(),
            libc::AT_EMPTY_PATH,
            DIOALIGN,
            (&mut bytes as *mut StatxBytes).cast(),
        )
    };
    let (memory, offset) = (bytes.word(0x98), bytes.word(0x9c));
    (told == 0 && bytes.word(0) & DIOALIGN != 0 && memory != 0 && offset != 0).then_some((memory.into(), offset.into()))
}

/// Whose lock stands in the way, as far as the system tells.
#[derive(Clone, Copy, Debug, PartialEq, Eq)]
pub enum Held {
    /// Nobody's.
    Free,
    /// One to read.
    Shared,
    /// One to change.
    Exclusive,
}

/// A lock over a whole file, bytes past its end among them.
fn whole_lock(exclusive: bool) -> libc::flock {
    // SAFETY: flock is a struct of numbers, for which zeroes are values.
    let mut lock: libc::flock = unsafe { std::mem::zeroed() };
    lock.l_type = if exclusive { libc::F_WRLCK } else { libc::F_RDLCK } as _;
    lock.l_whence = libc::SEEK_SET as _;
    lock
}

/// Takes a lock on an open file, which ends with it; false where another one stands in the way.
pub fn take_lock(file: &File, exclusive: bool) -> io::Result<bool> {
    let lock = whole_lock(exclusive);
    // SAFETY: the call reads one struct flock, which lives during the call.
    match checked(unsafe { libc::fcntl(file.as_raw_fd(), libc::F_OFD_SETLK, &lock) }) {
        Ok(_) => Ok(true),
        Err(error) if matches!(error.raw_os_error(), Some(libc::EAGAIN | libc::EACCES)) => Ok(false),
        Err(error) => Err(error),
    }
}

/// Whose lock an exclusive one would meet.
pub fn held_lock(file: &File) -> io::Result<Held> {
    let mut lock = whole_lock(true);
    // SAFETY: the call reads and writes one struct flock, which is borrowed alone.
    checked(unsafe { libc::fcntl(file.as_raw_fd(), libc::F_OFD_GETLK, &mut lock) })?;
    Ok(match c_int::from(lock.l_type) {
        libc::F_UNLCK => Held::Free,
        libc::F_RDLCK => Held::Shared,
        _ => Held::Exclusive,
    })
}

/// Which of the descriptors 0, 1 and 2 were closed at the start; each has /dev/null now, so that no file that is opened
/// gets its number.
pub fn fill_descriptors() -> io::Result<[bool; 3]> {
    let mut closed = [false; 3];
    for (descriptor, is_closed) in closed.iter_mut().enumerate() {
        // SAFETY: the call takes numbers alone.
        *is_closed = unsafe { libc::fcntl(descriptor as RawFd, libc::F_GETFD) } < 0;
        if *is_closed {
            // SAFETY: the path is a string that ends. Open gives the lowest number that is free, which is this one.
            checked(unsafe { libc::open(c"/dev/null".as_ptr(), libc::O_RDWR) })?;
        }
    }
    Ok(closed)
}

/// Descriptor 0, 1 or 2 as a file, which is open for as long as the program runs.
pub fn standing(descriptor: usize) -> &'static File {
    static FILES: [OnceLock<File>; 3] = [const { OnceLock::new() }; 3];
    // SAFETY: the three are open since `fill_descriptors`, and nobody closes them: a static is never dropped.
    FILES[descriptor].get_or_init(|| unsafe { File::from_raw_fd(descriptor as RawFd) })
}

/// How often the program was asked to end.
static ASKED: AtomicU32 = AtomicU32::new(0);

/// The exit status of a run that was interrupted.
const INTERRUPTED: c_int = 130;

/// Notes that the program is to end. The second time it ends at once.
extern "C" fn note_signal(_: c_int) {
    if ASKED.fetch_add(1, Ordering::Relaxed) > 0 {
        // SAFETY: _exit may be called in a handler.
        unsafe { libc::_exit(INTERRUPTED) }
    }
}

/// Whether the program was asked to end.
pub fn is_interrupted() -> bool {
    ASKED.load(Ordering::Relaxed) > 0
}

/// SIGINT, SIGTERM and SIGHUP are noted from now on, unless they were ignored at the start; SIGPIPE and SIGXFSZ are
/// ignored, so that a write says EPIPE or EFBIG.
pub fn note_signals() {
    // SAFETY: sigaction is a struct of numbers and a set, for which zeroes are values (no flags: a call that waits
    // returns with EINTR); the handler does only what a handler may: an atomic addition, _exit.
    unsafe {
        let mut action: libc::sigaction = std::mem::zeroed();
        action.sa_sigaction = note_signal as extern "C" fn(c_int) as usize;
        for signal in [libc::SIGINT, libc::SIGTERM, libc::SIGHUP] {
            let mut before: libc::sigaction = std::mem::zeroed();
            libc::sigaction(signal, std::ptr::null(), &mut before);
            if before.sa_sigaction != libc::SIG_IGN {
                libc::sigaction(signal, &action, std::ptr::null_mut());
            }
        }
        libc::signal(libc::SIGPIPE, libc::SIG_IGN);
        libc::signal(libc::SIGXFSZ, libc::SIG_IGN);
    }
}

/// Major and minor number of a device.
pub fn device_numbers(device: u64) -> (u32, u32) {
    // SAFETY: both only take bits of a number apart.
    unsafe { (libc::major(device), libc::minor(device)) }
}

/// The program's start. std's own would put /dev/null in the place of closed descriptors before anybody could see that
/// they were closed.
#[cfg(not(test))]
#[no_mangle]
extern "C" fn main() -> c_int {
    std::panic::catch_unwind(crate::start).unwrap_or(1)
}
