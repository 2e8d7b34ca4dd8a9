//! A lock for some nanoseconds of work, as one step on a row is.
//!
//! To give it back takes a store, where the standard library's `Mutex` takes an exchange, to learn whether anybody waits. So nobody is
//! woken here, and who waits looks again: at once some times, then after other threads had the processor, and then each 50 microseconds.
//! In between it sleeps, so that the thread with the lock goes on also if its priority is lower.
//!
//! A panic gives the lock back, and leaves no mark on it: what is under such a lock is whole between any two statements that may panic.
//! In a process that was forked the lock may be held for good, as any other.

use std::cell::UnsafeCell;
use std::fmt;
use std::marker::PhantomData;
use std::ops::{Deref, DerefMut};
use std::panic::{RefUnwindSafe, UnwindSafe};
use std::sync::atomic::{AtomicBool, Ordering};
use std::thread;
use std::time::Duration;

/// How often a thread looks before it lets others have the processor, and how often it does so before it sleeps.
const LOOKS: u32 = 100;
const YIELDS: u32 = 20;
const SLEEP: Duration = Duration::from_micros(50);

#[derive(Default)]
pub(crate) struct Light<T> {
    is_held: AtomicBool,
    value: UnsafeCell<T>,
}

// SAFETY: the lock lends the value to one thread at a time.
unsafe impl<T: Send> Send for Light<T> {}
// SAFETY: as above.
unsafe impl<T: Send> Sync for Light<T> {}

// What is under it is whole between any two statements that may panic.
impl<T> UnwindSafe for Light<T> {}
impl<T> RefUnwindSafe for Light<T> {}

/// The value, until this is dropped.
#[must_use = "the lock is given back when this is dropped"]
pub(crate) struct Held<'a, T> {
    light: &'a Light<T>,
    /// Shared it lends `&T`, which `Light` alone doesn't ask to be shared.
    value: PhantomData<&'a mut T>,
}

impl<T> Light<T> {
    pub(crate) fn new(value: T) -> Light<T> {
        Light { is_held: AtomicBool::new(false), value: UnsafeCell::new(value) }
    }

    #[inline]
    fn try_take(&self) -> bool {
        !self.is_held.swap(true, Ordering::Acquire)
    }

    /// Waits for the value.
    #[inline]
    pub(crate) fn lock(&self) -> Held<'_, T> {
        if !self.try_take() {
            self.wait();
        }
        Held { light: self, value: PhantomData }
    }

    #[cold]
    fn wait(&self) {
        let mut looks = 0;
        // An exchange takes the line of the cache from the thread that has the lock. A look doesn't.
        while self.is_held.load(Ordering::Relaxed) || !self.try_take() {
            match looks {
                0..=LOOKS => std::hint::spin_loop(),
                _ if looks <= LOOKS + YIELDS => thread::yield_now(),
                _ => thread::sleep(SLEEP),
            }
            looks = looks.saturating_add(1);
        }
    }
}

impl<T> Deref for Held<'_, T> {
    type Target = T;

    #[inline]
    fn deref(&self) -> &T {
        // SAFETY: the lock is held by this.
        unsafe { &*self.light.value.get() }
    }
}

impl<T> DerefMut for Held<'_, T> {
    #[inline]
    fn deref_mut(&mut self) -> &mut T {
        // SAFETY: the lock is held by this, which is lent to the caller alone.
        unsafe { &mut *self.light.value.get() }
    }
}

impl<T> Drop for Held<'_, T> {
    #[inline]
    fn drop(&mut self) {
        self.light.is_held.store(false, Ordering::Release);
    }
}

impl<T> fmt::Debug for Light<T> {
    fn fmt(&self, f: &mut fmt::Formatter<'_>) -> fmt::Result {
        f.debug_struct("Light").finish_non_exhaustive()
    }
}

#[cfg(test)]
mod tests {
    use super::*;
    #[cfg(all(target_os = "linux", target_pointer_width = "64"))]
    use std::io::Error;
    use std::panic::{catch_unwind, AssertUnwindSafe};
    #[cfg(all(target_os = "linux", target_pointer_width = "64"))]
    use std::sync::atomic::AtomicU32;
    use std::sync::mpsc::channel;
    use std::time::Instant;

    /// How long this thread has had a processor.
    #[cfg(all(target_os = "linux", target_pointer_width = "64"))]
    fn processor_time() -> Duration {
        extern "C" {
            fn clock_gettime(clock: i32, time: *mut [i64; 2]) -> i32;
        }
        const CLOCK_THREAD_CPUTIME_ID: i32 = 3;
        let mut time = [0; 2];
        // SAFETY: the time is lent for the call, and two words long on such systems.
        assert_eq!(unsafe { clock_gettime(CLOCK_THREAD_CPUTIME_ID, &mut time) }, 0);
        Duration::new(time[0] as u64, time[1] as u32)
    }

    #[test]
    fn one_thread_at_a_time_has_the_value() {
        const THREADS: u64 = 8;
        const TURNS: u64 = 50_000;
        // Two words, which would differ if two threads had them at once.
        let light = Light::new([0_u64; 2]);
        thread::scope(|scope| {
            for _ in 0..THREADS {
                scope.spawn(|| {
                    for _ in 0..TURNS {
                        let mut value = light.lock();
                        let [one, other] = *value;
                        assert_eq!(one, other, "another thread is between the two");
                        value[0] = one + 1;
                        std::hint::spin_loop();
                        value[1] = other + 1;
                    }
                });
            }
        });
        assert_eq!(*light.lock(), [THREADS * TURNS; 2], "each turn is counted");
    }

    #[test]
    fn who_waits_for_a_thread_that_was_stopped_sleeps() {
        const HELD: Duration = Duration::from_millis(200);
        let light = &Light::new(0);
        let (is_held, when_held) = channel();
        thread::scope(|scope| {
            scope.spawn(move || {
                let mut value = light.lock();
                is_held.send(()).expect("the test goes on");
                thread::sleep(HELD);
                *value = 7;
            });
            when_held.recv().expect("the lock is held");
            for _ in 0..4 {
                scope.spawn(|| {
                    let started = Instant::now();
                    assert_eq!(*light.lock(), 7, "the thread with the lock goes first");
                    assert!(started.elapsed() >= HELD / 2, "it was held");
                    #[cfg(all(target_os = "linux", target_pointer_width = "64"))]
                    assert!(processor_time() < HELD / 2, "it took {:?} of a processor", processor_time());
                });
            }
        });
    }

    /// The calling thread runs on one processor from now on, and before all ordinary threads if it is of real-time priority.
    #[cfg(all(target_os = "linux", target_pointer_width = "64"))]
    fn run_on(processor: i32, is_real_time: bool) {
        extern "C" {
            fn sched_setaffinity(thread: i32, size: usize, mask: *const u64) -> i32;
            fn sched_setscheduler(thread: i32, policy: i32, priority: *const i32) -> i32;
        }
        const SCHED_FIFO: i32 = 1;
        let mut mask = [0_u64; 16];
        mask[processor as usize / 64] = 1 << (processor % 64);
        // SAFETY: the mask and the priority are lent for the calls, and are as long as these say.
        let is_set = unsafe {
            sched_setaffinity(0, std::mem::size_of_val(&mask), mask.as_ptr()) == 0
                && (!is_real_time || sched_setscheduler(0, SCHED_FIFO, &1) == 0)
        };
        assert!(is_set, "{}", Error::last_os_error());
    }

    /// Whether threads of this process may be of real-time priority.
    #[cfg(all(target_os = "linux", target_pointer_width = "64"))]
    fn may_be_real_time(processor: i32) -> bool {
        thread::spawn(move || run_on(processor, true)).join().is_ok()
    }

    /// A thread of real-time priority that only looked and yielded would keep the processor from the thread with the lock.
    #[cfg(all(target_os = "linux", target_pointer_width = "64"))]
    #[test]
    fn who_waits_with_real_time_priority_lets_the_lock_be_given_back() {
        const WORK: Duration = Duration::from_millis(5);
        extern "C" {
            fn sched_getcpu() -> i32;
        }
        // SAFETY: it has no arguments.
        let processor = unsafe { sched_getcpu() };
        if !may_be_real_time(processor) {
            println!("not tried: threads of this process may not be of real-time priority");
            return;
        }
        const WAITERS: u32 = 2;
        let (light, waiters) = (&Light::new(0), &AtomicU32::new(0));
        let (is_held, when_held) = channel();
        thread::scope(|scope| {
            scope.spawn(move || {
                run_on(processor, false);
                let mut value = light.lock();
                is_held.send(()).expect("the test goes on");
                while waiters.load(Ordering::SeqCst) < WAITERS {
                    thread::yield_now();
                }
                let until = processor_time() + WORK;
                while processor_time() < until {
                    std::hint::spin_loop();
                }
                *value = 7;
            });
            when_held.recv().expect("the lock is held");
            for _ in 0..WAITERS {
                scope.spawn(move || {
                    run_on(processor, true);
                    waiters.fetch_add(1, Ordering::SeqCst);
                    assert_eq!(*light.lock(), 7, "the thread with the lock goes first");
                    assert!(
                        processor_time() < Duration::from_millis(200),
                        "it took {:?} of a processor",
                        processor_time()
                    );
                });
            }
        });
    }

    #[test]
    fn a_panic_gives_the_lock_back() {
        let light = Light::new(1);
        let panics = catch_unwind(AssertUnwindSafe(|| {
            let mut value = light.lock();
            *value = 2;
            std::panic::resume_unwind(Box::new("by the test"));
        }));
        assert!(panics.is_err(), "it panics");
        assert_eq!(*light.lock(), 2, "the lock is there, and the value as it was left");
        let other = thread::scope(|scope| scope.spawn(|| *light.lock()).join());
        assert_eq!(other.expect("no panic"), 2, "for another thread too");
    }

    /// What a lock may be: `Held` is shared only if its value may be.
    #[test]
    fn it_goes_where_a_mutex_goes() {
        fn is_as_a_mutex<T: Send + Sync + UnwindSafe + RefUnwindSafe>() {}
        is_as_a_mutex::<Light<std::cell::Cell<u8>>>();
        fn is_shared<T: Sync>() {}
        is_shared::<Held<'_, u8>>();
    }
}
