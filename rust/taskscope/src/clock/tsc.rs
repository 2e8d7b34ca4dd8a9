//! The time stamp counter of x86-64.

use super::counted::Counted;
use super::nanoseconds;
use super::rate::Pair;
use std::arch::x86_64::{__cpuid, _mm_lfence, _rdtsc};
use std::time::Instant;

/// How often both clocks are read for one pair, of which the closest is taken.
const READINGS: u32 = 3;

/// No later reading is made before all loads of before are.
#[inline]
pub(super) fn wait_for_loads() {
    // SAFETY: each x86-64 has the instruction.
    #[allow(unused_unsafe)]
    unsafe {
        _mm_lfence()
    };
}

#[inline]
fn ticks() -> u64 {
    // SAFETY: each x86-64 has the instruction. A program that may not use it can't read the kernel's clock either, which does the same.
    #[allow(unused_unsafe)]
    unsafe {
        _rdtsc()
    }
}

fn ticks_now() -> u64 {
    wait_for_loads();
    ticks()
}

/// Whether the counter counts evenly, in all states of the processor and on all cores: by its own word, and by the kernel's, which
/// compares the cores.
fn is_even() -> bool {
    // SAFETY: each x86-64 has the instruction.
    #[allow(unused_unsafe)]
    let leaf = |number| unsafe { __cpuid(number) };
    let is_invariant = leaf(0x8000_0000).eax >= 0x8000_0007 && leaf(0x8000_0007).edx & (1 << 8) != 0;
    let source = || std::fs::read("/sys/devices/system/clocksource/clocksource0/current_clocksource");
    is_invariant && source().map_or(false, |source| is_the_counter(&source))
}

/// Whether the kernel's word for what it goes by is this counter.
pub(super) fn is_the_counter(source: &[u8]) -> bool {
    source == b"tsc\n"
}

/// Both clocks, as close as of some tries.
fn pair(opened: Instant) -> Pair {
    let read = || {
        let ticks = ticks_now();
        let kernel = nanoseconds(opened.elapsed());
        Pair { ticks, width: ticks_now().saturating_sub(ticks), kernel }
    };
    (1..READINGS).fold(read(), |best, _| {
        let other = read();
        if other.width < best.width {
            other
        } else {
            best
        }
    })
}

#[derive(Debug)]
pub(super) struct Counter(Counted);

impl Counter {
    pub(super) fn open(opened: Instant) -> Option<Counter> {
        is_even().then(|| Counter(Counted::new(pair(opened))))
    }

    #[inline]
    pub(super) fn now(&self) -> Option<u64> {
        self.0.now(ticks)
    }

    pub(super) fn follow(&self, opened: Instant) {
        self.0.follow(nanoseconds(opened.elapsed()), || pair(opened), ticks_now);
    }
}
