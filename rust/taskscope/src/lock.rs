//! The lock for what takes long, or is waited for: the standard library's. [`Light`](crate::light::Light) is the one for a row.

use std::sync::{Mutex, MutexGuard, PoisonError};

/// Locks, also where a thread panicked with the lock: what is under the locks of this crate is whole between any two
/// statements that may panic.
#[cfg(not(taskscope_races))]
#[inline]
pub(crate) fn lock<T>(mutex: &Mutex<T>) -> MutexGuard<'_, T> {
    mutex.lock().unwrap_or_else(PoisonError::into_inner)
}

/// The same for `tests/races.rs`: the standard library is not compiled for ThreadSanitizer, which so can't see the order that
/// a wait within it makes.
#[cfg(taskscope_races)]
pub(crate) fn lock<T>(mutex: &Mutex<T>) -> MutexGuard<'_, T> {
    use std::sync::TryLockError;
    loop {
        match mutex.try_lock() {
            Ok(guard) => return guard,
            Err(TryLockError::Poisoned(error)) => return PoisonError::into_inner(error),
            Err(TryLockError::WouldBlock) => std::thread::yield_now(),
        }
    }
}
