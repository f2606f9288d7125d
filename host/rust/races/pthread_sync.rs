//! Mutex and Condvar of pthreads, with what the crate uses of the standard library's interface. The standard library
//! waits on futexes, which valgrind does not see; these it does. Only `races/run` uses them.

use std::cell::UnsafeCell;
use std::ops::{Deref, DerefMut};
pub use std::sync::{Arc, LockResult, PoisonError};

/// Room for a `pthread_mutex_t` or a `pthread_cond_t` of x86-64 Linux; all zeroes is one that is initialised.
type Room = UnsafeCell<[u64; 8]>;

extern "C" {
    fn pthread_mutex_lock(mutex: *mut [u64; 8]) -> i32;
    fn pthread_mutex_unlock(mutex: *mut [u64; 8]) -> i32;
    fn pthread_cond_wait(cond: *mut [u64; 8], mutex: *mut [u64; 8]) -> i32;
    fn pthread_cond_broadcast(cond: *mut [u64; 8]) -> i32;
}

#[derive(Debug, Default)]
pub struct Mutex<T> {
    room: Box<Room>,
    value: UnsafeCell<T>,
}

pub struct MutexGuard<'a, T> {
    mutex: &'a Mutex<T>,
}

#[derive(Debug, Default)]
pub struct Condvar {
    room: Box<Room>,
}

// SAFETY: the value is reached by a guard alone, and there is one guard at a time.
unsafe impl<T: Send> Sync for Mutex<T> {}
// SAFETY: as pthreads have it, several threads may wait and notify at once.
unsafe impl Sync for Condvar {}

impl<T> Mutex<T> {
    pub fn new(value: T) -> Mutex<T> {
        Mutex { room: Box::default(), value: UnsafeCell::new(value) }
    }

    pub fn lock(&self) -> LockResult<MutexGuard<'_, T>> {
        // SAFETY: the room stays where it is as long as the mutex, initialised from the start.
        assert_eq!(unsafe { pthread_mutex_lock(self.room.get()) }, 0);
        Ok(MutexGuard { mutex: self })
    }

    pub fn into_inner(self) -> LockResult<T> {
        Ok(self.value.into_inner())
    }
}

impl<T> Deref for MutexGuard<'_, T> {
    type Target = T;

    fn deref(&self) -> &T {
        // SAFETY: the mutex is held.
        unsafe { &*self.mutex.value.get() }
    }
}

impl<T> DerefMut for MutexGuard<'_, T> {
    fn deref_mut(&mut self) -> &mut T {
        // SAFETY: the mutex is held, and the guard borrowed alone.
        unsafe { &mut *self.mutex.value.get() }
    }
}

impl<T> Drop for MutexGuard<'_, T> {
    fn drop(&mut self) {
        // SAFETY: the mutex is held by this thread.
        unsafe { pthread_mutex_unlock(self.mutex.room.get()) };
    }
}

impl Condvar {
    pub fn new() -> Condvar {
        Condvar::default()
    }

    pub fn wait_while<'a, T>(
        &self,
        mut guard: MutexGuard<'a, T>,
        mut waits: impl FnMut(&mut T) -> bool,
    ) -> LockResult<MutexGuard<'a, T>> {
        while waits(&mut guard) {
            // SAFETY: both rooms stay where they are, and the mutex is held by this thread.
            assert_eq!(unsafe { pthread_cond_wait(self.room.get(), guard.mutex.room.get()) }, 0);
        }
        Ok(guard)
    }

    pub fn notify_one(&self) {
        self.notify_all();
    }

    pub fn notify_all(&self) {
        // SAFETY: the room stays where it is, initialised from the start.
        unsafe { pthread_cond_broadcast(self.room.get()) };
    }
}
