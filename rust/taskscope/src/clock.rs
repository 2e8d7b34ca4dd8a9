//! The clock of a console: nanoseconds since it was opened.
//!
//! A reading of the kernel's monotonic clock takes some 25 nanoseconds. If the kernel counts by the processor's time stamp
//! counter, this clock counts by it too, at some 10 nanoseconds a reading. At each line it learns how fast the kernel's clock
//! went, and follows.
//!
//! - **It rises.** A reading is never below one that the thread made before. [`now_after`](Clock::now_after) is never below a reading of
//!   which the thread knows, whoever made it. [`now`](Clock::now) may be early by what the processor reads ahead, some tens of
//!   nanoseconds.
//! - **It follows the kernel's clock.** Between two lines it goes at the rate of the time before. So it is off by some millionths of the
//!   time since the last line, and by what the kernel changed its own rate since then. At a line it is off by less than a microsecond if
//!   lines come each tenth of a second.
//! - **What it is off is made up slowly**, by a thousandth of the rate at most, so that spans are true to two thousandths. Only if it is
//!   more than a millisecond behind it steps forward. It is ahead for long after a suspend, which the kernel's clock leaves out.
//! - **It waits for nobody.** A reader that meets a change of the rate looks again some times, and then has it made later.
//!
//! The kernel's clock is read until two spans between lines agree on the rate, each of 50 milliseconds or more. It is read for
//! good on processors other than x86-64, and if the processor doesn't say that its counter is even. So it is if the kernel goes
//! by something else or hides what it goes by, and if the counter makes less than a count in a nanosecond.

#[cfg(any(target_arch = "x86_64", test))]
mod counted;
#[cfg(any(target_arch = "x86_64", test))]
mod rate;
#[cfg(test)]
mod tests;
#[cfg(target_arch = "x86_64")]
mod tsc;

use std::time::{Duration, Instant};

/// A span in nanoseconds, which stays at the greatest `u64`.
pub(crate) fn nanoseconds(span: Duration) -> u64 {
    span.as_secs().saturating_mul(1_000_000_000).saturating_add(span.subsec_nanos().into())
}

#[derive(Debug)]
pub(crate) struct Clock {
    opened: Instant,
    #[cfg(target_arch = "x86_64")]
    counter: Option<tsc::Counter>,
}

impl Clock {
    pub(crate) fn open() -> Clock {
        let opened = Instant::now();
        Clock {
            opened,
            #[cfg(target_arch = "x86_64")]
            counter: tsc::Counter::open(opened),
        }
    }

    /// The moment of a call.
    #[inline]
    pub(crate) fn now(&self) -> u64 {
        #[cfg(target_arch = "x86_64")]
        if let Some(now) = self.counter.as_ref().and_then(tsc::Counter::now) {
            return now;
        }
        self.kernel()
    }

    /// A moment that isn't below any of which this thread knows.
    pub(crate) fn now_after(&self) -> u64 {
        #[cfg(target_arch = "x86_64")]
        tsc::wait_for_loads();
        self.now()
    }

    fn kernel(&self) -> u64 {
        nanoseconds(self.opened.elapsed())
    }

    /// Learns how fast the kernel's clock went. This is called at each line.
    pub(crate) fn follow(&self) {
        #[cfg(target_arch = "x86_64")]
        if let Some(counter) = &self.counter {
            counter.follow(self.opened);
        }
    }
}
