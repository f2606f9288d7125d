//! imago in its async form over a store in memory, with the least executor that runs it.

use crate::work::{memory, mixed, store, Case, Job, Kind, DATA, STORE};
use imago::io_buffers::{IoVector, IoVectorMut};
use imago::storage::drivers::CommonStorageHelper;
use imago::{Storage, StorageExt};
use std::cell::UnsafeCell;
use std::fmt::{self, Debug, Display, Formatter};
use std::future::Future;
use std::io;
use std::pin::{pin, Pin};
use std::sync::atomic::{AtomicBool, Ordering};
use std::sync::Arc;
use std::task::{Context, Poll, Wake, Waker};

/// When the store carries a request out: in the first poll, or after it woke its task, which is then suspended once a request.
#[derive(Clone, Copy, PartialEq, Eq)]
pub enum Answers {
    AtOnce,
    Later,
}

struct Disk {
    align: [u64; 4],
    answers: Answers,
    helper: CommonStorageHelper,
    bytes: UnsafeCell<&'static mut [u8]>,
}

// SAFETY: one thread polls all tasks.
unsafe impl Sync for Disk {}

struct Answer(Answers);

impl Future for Answer {
    type Output = ();

    fn poll(mut self: Pin<&mut Self>, context: &mut Context<'_>) -> Poll<()> {
        if self.0 == Answers::AtOnce {
            return Poll::Ready(());
        }
        self.0 = Answers::AtOnce;
        context.waker().wake_by_ref();
        Poll::Pending
    }
}

impl Disk {
    // SAFETY: the bytes are only held between two awaits, by one task at a time.
    #[allow(clippy::mut_from_ref)]
    fn bytes(&self, offset: u64, length: usize) -> &mut [u8] {
        let all: &mut [u8] = unsafe { &mut *self.bytes.get() };
        &mut all[offset as usize..offset as usize + length]
    }
}

impl Storage for Disk {
    fn mem_align(&self) -> usize {
        self.align[0] as usize
    }

    fn req_align(&self) -> usize {
        self.align[1] as usize
    }

    fn zero_align(&self) -> usize {
        self.align[2] as usize
    }

    fn discard_align(&self) -> usize {
        self.align[3] as usize
    }

    fn size(&self) -> io::Result<u64> {
        Ok(STORE as u64)
    }

    async unsafe fn pure_readv(&self, bufv: IoVectorMut<'_>, mut offset: u64) -> io::Result<()> {
        Answer(self.answers).await;
        for mut piece in bufv.into_inner() {
            let length = piece.len();
            piece.copy_from_slice(self.bytes(offset, length));
            offset += length as u64;
        }
        Ok(())
    }

    async unsafe fn pure_writev(&self, bufv: IoVector<'_>, mut offset: u64) -> io::Result<()> {
        Answer(self.answers).await;
        for piece in bufv.into_inner() {
            self.bytes(offset, piece.len()).copy_from_slice(&piece);
            offset += piece.len() as u64;
        }
        Ok(())
    }

    async unsafe fn pure_write_zeroes(&self, offset: u64, length: u64) -> io::Result<()> {
        Answer(self.answers).await;
        self.bytes(offset, length as usize).fill(0);
        Ok(())
    }

    async fn flush(&self) -> io::Result<()> {
        Ok(())
    }

    async fn sync(&self) -> io::Result<()> {
        Ok(())
    }

    async unsafe fn invalidate_cache(&self) -> io::Result<()> {
        Ok(())
    }

    fn get_storage_helper(&self) -> &CommonStorageHelper {
        &self.helper
    }
}

impl Debug for Disk {
    fn fmt(&self, f: &mut Formatter<'_>) -> fmt::Result {
        f.write_str("store in memory")
    }
}

impl Display for Disk {
    fn fmt(&self, f: &mut Formatter<'_>) -> fmt::Result {
        f.write_str("store in memory")
    }
}

#[derive(Default)]
struct Flag(AtomicBool);

impl Wake for Flag {
    fn wake(self: Arc<Self>) {
        self.0.store(true, Ordering::Relaxed);
    }

    fn wake_by_ref(self: &Arc<Self>) {
        self.0.store(true, Ordering::Relaxed);
    }
}

pub struct Imago {
    disk: Disk,
    data: *mut u8,
    flags: Vec<Arc<Flag>>,
    wakers: Vec<Waker>,
}

/// Where a job lies in the data.
// SAFETY, for its callers: the segments of one case's reads overlap no other's, and the data is there for the whole run.
unsafe fn segment(data: *mut u8, job: &Job) -> &'static mut [u8] {
    std::slice::from_raw_parts_mut(data.add(job.start), job.length)
}

async fn run_job(disk: &Disk, data: *mut u8, job: Job) -> io::Result<()> {
    match job.kind {
        Kind::Read => disk.read(unsafe { segment(data, &job) }, job.offset).await,
        Kind::Write => disk.write(&*unsafe { segment(data, &job) }, job.offset).await,
        Kind::Zeroes => disk.write_zeroes(job.offset, job.length as u64).await,
    }
}

impl Imago {
    pub fn new(align: [u64; 4], answers: Answers) -> Self {
        let (store, data) = (store(), memory(DATA));
        mixed(store, 1);
        mixed(data, 2);
        let flags: Vec<Arc<Flag>> = (0..8).map(|_| Arc::default()).collect();
        let wakers = flags.iter().map(|flag| Waker::from(Arc::clone(flag))).collect();
        let disk = Disk { align, answers, helper: CommonStorageHelper::default(), bytes: UnsafeCell::new(store) };
        Imago { disk, data: data.as_mut_ptr(), flags, wakers }
    }

    pub fn run(&mut self, case: &Case) {
        match &case.jobs[..] {
            [job] => self.one(*job),
            jobs => self.several(jobs),
        }
    }

    fn one(&mut self, job: Job) {
        let mut future = pin!(run_job(&self.disk, self.data, job));
        let mut context = Context::from_waker(&self.wakers[0]);
        loop {
            if let Poll::Ready(result) = future.as_mut().poll(&mut context) {
                return result.expect("the store answers 0");
            }
        }
    }

    /// Every task is polled when it is begun, then whenever it was woken.
    fn several(&mut self, jobs: &[Job]) {
        type Task<'a> = Option<Pin<Box<dyn Future<Output = io::Result<()>> + 'a>>>;
        let (disk, data) = (&self.disk, self.data);
        let mut tasks: [Task<'_>; 8] = Default::default();
        let mut left = jobs.len();
        for (task, job) in tasks.iter_mut().zip(jobs) {
            *task = Some(Box::pin(run_job(disk, data, *job)));
        }
        self.flags.iter().for_each(|flag| flag.0.store(true, Ordering::Relaxed));
        while left > 0 {
            for (i, task) in tasks.iter_mut().enumerate().take(jobs.len()) {
                let Some(future) = task else { continue };
                if !self.flags[i].0.swap(false, Ordering::Relaxed) {
                    continue;
                }
                if let Poll::Ready(result) = future.as_mut().poll(&mut Context::from_waker(&self.wakers[i])) {
                    result.expect("the store answers 0");
                    *task = None;
                    left -= 1;
                }
            }
        }
    }

    pub fn store(&mut self) -> &[u8] {
        self.disk.bytes.get_mut()
    }
}
