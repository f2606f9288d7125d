//! Who carries out requests: the runner's own thread, or worker threads.

use crate::answer::Kind;
use crate::code::Code;
use crate::raw::Loan;
use crate::store::Store;
use std::collections::VecDeque;
use std::io::{IoSlice, IoSliceMut};
use std::panic::{self, AssertUnwindSafe};
use std::sync::{Condvar, Mutex, MutexGuard, PoisonError};
use std::thread;

/// Whoever carries out requests.
pub(super) trait Crew<'buf> {
    /// Whether another request would be carried out at once.
    fn is_free(&self) -> bool;

    /// Has a request carried out.
    fn hand_out(&mut self, loan: Loan<'buf>);

    /// A request that was carried out, and its code. Waits for one where some are out; None where none is.
    fn take_back(&mut self) -> Option<(Loan<'buf>, Code)>;
}

/// Carries out a request.
pub(super) fn carry<S: Store + ?Sized>(loan: &mut Loan<'_>, store: &S) -> Code {
    let request = loan.request();
    match request.kind {
        Kind::Read => store.read(request.offset, &mut [IoSliceMut::new(loan.bytes_to_fill())]),
        Kind::Write => store.write(request.offset, &[IoSlice::new(loan.bytes_to_take())]),
        Kind::Zero => store.zero(request.offset, request.length),
        Kind::AllocatedZero => store.allocated_zero(request.offset, request.length),
        Kind::Discard => store.discard(request.offset, request.length),
    }
}

/// The runner's own thread, which carries out a request when it is handed out.
pub(super) struct InPlace<'run, 'buf, S: ?Sized> {
    pub store: &'run S,
    pub done: Option<(Loan<'buf>, Code)>,
}

impl<'buf, S: Store + ?Sized> Crew<'buf> for InPlace<'_, 'buf, S> {
    fn is_free(&self) -> bool {
        self.done.is_none()
    }

    fn hand_out(&mut self, mut loan: Loan<'buf>) {
        let code = carry(&mut loan, self.store);
        self.done = Some((loan, code));
    }

    fn take_back(&mut self) -> Option<(Loan<'buf>, Code)> {
        self.done.take()
    }
}

/// Where the runner puts requests and workers put them back.
pub(super) struct Desk<'buf> {
    trays: Mutex<Trays<'buf>>,
    /// Something was put into `due`, or it was closed.
    put: Condvar,
    /// Something was put into `done`.
    put_back: Condvar,
}

struct Trays<'buf> {
    due: VecDeque<Loan<'buf>>,
    /// The code, or what the store panicked with.
    done: VecDeque<(Loan<'buf>, thread::Result<Code>)>,
    closed: bool,
}

impl<'buf> Desk<'buf> {
    pub fn new() -> Desk<'buf> {
        let trays = Trays { due: VecDeque::new(), done: VecDeque::new(), closed: false };
        Desk { trays: Mutex::new(trays), put: Condvar::new(), put_back: Condvar::new() }
    }

    /// The trays. Nothing panics while they are locked, so they are in order even where a lock says otherwise.
    fn trays(&self) -> MutexGuard<'_, Trays<'buf>> {
        self.trays.lock().unwrap_or_else(PoisonError::into_inner)
    }

    /// A worker: carries out requests until the desk is closed. A store's panic is put back as the request's result.
    pub fn work<S: Store + ?Sized>(&self, store: &S) {
        while let Some(mut loan) = self.take() {
            let code = panic::catch_unwind(AssertUnwindSafe(|| carry(&mut loan, store)));
            self.trays().done.push_back((loan, code));
            self.put_back.notify_one();
        }
    }

    /// The next request, once there is one; None where the desk is closed.
    fn take(&self) -> Option<Loan<'buf>> {
        let idle = |trays: &mut Trays<'buf>| trays.due.is_empty() && !trays.closed;
        let mut trays = self.put.wait_while(self.trays(), idle).unwrap_or_else(PoisonError::into_inner);
        if trays.closed {
            return None;
        }
        trays.due.pop_front()
    }
}

/// Worker threads at a desk, which is closed when this is dropped: they then end after the request that they are at.
pub(super) struct Workers<'run, 'buf> {
    desk: &'run Desk<'buf>,
    count: usize,
    out: usize,
}

impl<'run, 'buf> Workers<'run, 'buf> {
    /// So many workers at a desk, each of whom has one request at a time.
    pub fn new(desk: &'run Desk<'buf>, count: usize) -> Workers<'run, 'buf> {
        Workers { desk, count, out: 0 }
    }
}

impl<'buf> Crew<'buf> for Workers<'_, 'buf> {
    fn is_free(&self) -> bool {
        self.out < self.count
    }

    fn hand_out(&mut self, loan: Loan<'buf>) {
        self.out += 1;
        self.desk.trays().due.push_back(loan);
        self.desk.put.notify_one();
    }

    fn take_back(&mut self) -> Option<(Loan<'buf>, Code)> {
        if self.out == 0 {
            return None;
        }
        let waits = |trays: &mut Trays<'buf>| trays.done.is_empty();
        let mut trays = self.desk.put_back.wait_while(self.desk.trays(), waits).unwrap_or_else(PoisonError::into_inner);
        let (loan, code) = trays.done.pop_front()?;
        drop(trays);
        self.out -= 1;
        Some((loan, code.unwrap_or_else(|panicked| panic::resume_unwind(panicked))))
    }
}

impl Drop for Workers<'_, '_> {
    fn drop(&mut self) {
        self.desk.trays().closed = true;
        self.desk.put.notify_all();
    }
}
