//! imago's storage object whose requests stay pending until a code is told: where imago meets the events.

use crate::side::{Alignments, Kind, SLOTS};
use imago::io_buffers::{IoVector, IoVectorMut};
use imago::storage::drivers::CommonStorageHelper;
use imago::Storage;
use std::fmt::{self, Display, Formatter};
use std::future::Future;
use std::pin::Pin;
use std::sync::{Mutex, MutexGuard};
use std::task::{Context, Poll};
use std::{error, io};

/// The desk beside the eight slots, for a job that is asked without a free slot.
pub const SPARE: usize = SLOTS;

/// The memory of a request's piece: address and length.
#[derive(Clone, Copy, Debug)]
pub struct Memory {
    pub address: usize,
    pub length: usize,
}

/// A request that imago made and that is not told yet.
#[derive(Clone, Debug)]
pub struct Pending {
    pub kind: Kind,
    pub offset: u64,
    pub length: u64,
    pub pieces: Vec<Memory>,
    code: Option<u8>,
}

#[derive(Debug, Default)]
struct Desk {
    /// The slot whose job is polled, to which a request made now belongs.
    polled: usize,
    pending: [Option<Pending>; SLOTS + 1],
}

#[derive(Debug)]
pub struct Port {
    align: Alignments,
    helper: CommonStorageHelper,
    desk: Mutex<Desk>,
}

/// A code of the store inside an `io::Error`. A raw number of the operating system will not do: on Linux 38 and 95 are of kind
/// `Unsupported`, by which imago would fall back, where document 01 has them fail.
#[derive(Debug)]
struct Code(u8);

impl Display for Code {
    fn fmt(&self, f: &mut Formatter<'_>) -> fmt::Result {
        write!(f, "code {}", self.0)
    }
}

impl error::Error for Code {}

fn result_of(code: u8) -> io::Result<()> {
    match code {
        0 => Ok(()),
        1 => Err(io::ErrorKind::Unsupported.into()),
        _ => Err(io::Error::other(Code(code))),
    }
}

/// The final answer of a job: the store's code, or 207 for imago's own "wrap-around".
pub fn answer_of(result: io::Result<()>) -> u8 {
    let Err(error) = result else { return 0 };
    if error.kind() == io::ErrorKind::Unsupported {
        return 1;
    }
    match error.get_ref().and_then(|inner| inner.downcast_ref::<Code>()) {
        Some(code) => code.0,
        None if error.to_string().ends_with("wrap-around") => crate::document::OVERFLOW,
        None => panic!("imago answers with an error that has no number: {error}"),
    }
}

impl Port {
    pub fn new(align: Alignments) -> Self {
        Port { align, helper: CommonStorageHelper::default(), desk: Mutex::default() }
    }

    fn desk(&self) -> MutexGuard<'_, Desk> {
        self.desk.lock().expect("no holder of the desk panics")
    }

    /// Requests made from now on belong to `slot`.
    pub fn poll_for(&self, slot: usize) {
        self.desk().polled = slot;
    }

    /// The request that is out in `slot`.
    pub fn pending(&self, slot: usize) -> Option<Pending> {
        self.desk().pending[slot].clone()
    }

    pub fn has_pending(&self, slot: usize) -> bool {
        self.desk().pending[slot].is_some()
    }

    /// Hands in the code of the request that is out in `slot`.
    pub fn tell(&self, slot: usize, code: u8) {
        let mut desk = self.desk();
        let pending = desk.pending[slot].as_mut().expect("a request is out");
        pending.code = Some(code);
    }

    fn request(&self, kind: Kind, offset: u64, length: u64, pieces: Vec<Memory>) -> Told<'_> {
        let mut desk = self.desk();
        let slot = desk.polled;
        let pending = Pending { kind, offset, length, pieces, code: None };
        assert!(desk.pending[slot].replace(pending).is_none(), "a job has one request at a time");
        Told { port: self, slot }
    }
}

/// Waits for the code of the request that is out in a slot. Dropped with its job, it takes the request back.
struct Told<'a> {
    port: &'a Port,
    slot: usize,
}

impl Future for Told<'_> {
    type Output = io::Result<()>;

    fn poll(self: Pin<&mut Self>, _: &mut Context<'_>) -> Poll<io::Result<()>> {
        let code = self.port.desk().pending[self.slot].as_ref().and_then(|p| p.code);
        code.map_or(Poll::Pending, |code| Poll::Ready(result_of(code)))
    }
}

impl Drop for Told<'_> {
    fn drop(&mut self) {
        self.port.desk().pending[self.slot] = None;
    }
}

impl Storage for Port {
    fn mem_align(&self) -> usize {
        self.align.mem as usize
    }

    fn req_align(&self) -> usize {
        self.align.req as usize
    }

    fn zero_align(&self) -> usize {
        self.align.zero as usize
    }

    fn discard_align(&self) -> usize {
        self.align.discard as usize
    }

    fn size(&self) -> io::Result<u64> {
        Ok(u64::MAX)
    }

    async unsafe fn pure_readv(&self, bufv: IoVectorMut<'_>, offset: u64) -> io::Result<()> {
        let length = bufv.len();
        let pieces = bufv.into_inner();
        let pieces = pieces.iter().map(|p| Memory { address: p.as_ptr() as usize, length: p.len() }).collect();
        self.request(Kind::Read, offset, length, pieces).await
    }

    async unsafe fn pure_writev(&self, bufv: IoVector<'_>, offset: u64) -> io::Result<()> {
        let length = bufv.len();
        let pieces = bufv.into_inner();
        let pieces = pieces.iter().map(|p| Memory { address: p.as_ptr() as usize, length: p.len() }).collect();
        self.request(Kind::Write, offset, length, pieces).await
    }

    async unsafe fn pure_write_zeroes(&self, offset: u64, length: u64) -> io::Result<()> {
        self.request(Kind::Zero, offset, length, Vec::new()).await
    }

    async unsafe fn pure_write_allocated_zeroes(&self, offset: u64, length: u64) -> io::Result<()> {
        self.request(Kind::AllocatedZero, offset, length, Vec::new()).await
    }

    async unsafe fn pure_discard(&self, offset: u64, length: u64) -> io::Result<()> {
        self.request(Kind::Discard, offset, length, Vec::new()).await
    }

    async fn flush(&self) -> io::Result<()> {
        Ok(())
    }

    async fn sync(&self) -> io::Result<()> {
        Ok(())
    }

    async unsafe fn invalidate_cache(&self) -> io::Result<()> {
        Ok(())
    }

    fn get_storage_helper(&self) -> &CommonStorageHelper {
        &self.helper
    }
}

impl Display for Port {
    fn fmt(&self, f: &mut Formatter<'_>) -> fmt::Result {
        f.write_str("stand-in store")
    }
}
