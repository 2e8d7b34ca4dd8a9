//! The clock over counters and kernels' clocks that are set by hand, and over those of this machine.

use super::counted::Counted;
use super::rate::{Anchor, Change, Pair, SHORTEST, STEP};
use super::*;
use std::cell::Cell;
use std::sync::atomic::{AtomicBool, AtomicU64, Ordering};
use std::thread;

const MILLISECOND: u64 = 1_000_000;
const SECOND: u64 = 1_000 * MILLISECOND;
const HOUR: u64 = 3_600 * SECOND;

/// A machine, whose counter and kernel's clock are set by hand.
struct Machine {
    /// Counts in 1,000 nanoseconds.
    speed: Cell<u64>,
    ticks: Cell<u64>,
    kernel: Cell<u64>,
    clock: Counted,
}

impl Machine {
    /// A machine that was on for some time, and a clock that is opened now.
    fn new(speed: u64) -> Machine {
        let ticks = 77 * SECOND;
        let clock = Counted::new(Pair { ticks, width: 60, kernel: 0 });
        Machine { speed: Cell::new(speed), ticks: Cell::new(ticks), kernel: Cell::new(0), clock }
    }

    /// The same, after the lines from which on the clock has a rate.
    fn running() -> Machine {
        let machine = Machine::new(2_500);
        (0..2).for_each(|_| machine.line_after(100 * MILLISECOND));
        machine
    }

    fn pass(&self, nanoseconds: u64) {
        let ticks = u128::from(nanoseconds) * u128::from(self.speed.get()) / 1_000;
        self.ticks.set(self.ticks.get() + ticks as u64);
        self.kernel.set(self.kernel.get() + nanoseconds);
    }

    fn now(&self) -> Option<u64> {
        self.clock.now(|| self.ticks.get())
    }

    /// A line, before and after which the clock reads the same, or more after it.
    fn line(&self) {
        let before = self.now();
        let pair = || Pair { ticks: self.ticks.get(), width: 60, kernel: self.kernel.get() };
        self.clock.follow(self.kernel.get(), pair, || self.ticks.get());
        assert!(before <= self.now(), "a line takes the clock back from {before:?} to {:?}", self.now());
    }

    fn line_after(&self, nanoseconds: u64) {
        self.pass(nanoseconds);
        self.line();
    }

    /// How far the clock is ahead of the kernel's.
    fn ahead(&self) -> i64 {
        i64::try_from(self.now().expect("a rate")).unwrap() - i64::try_from(self.kernel.get()).unwrap()
    }

    /// How much longer than it was a span of a second is by the clock, in nanoseconds.
    fn error_of_a_second(&self) -> i64 {
        let before = self.ahead();
        self.pass(SECOND);
        self.ahead() - before
    }
}

/// A span between two lines, in milliseconds, and the counter's speed in it.
type Span = (u64, u64);

#[test]
fn there_is_no_rate_before_two_spans_agree() {
    let cases: [(&str, &[Span], bool); 6] = [
        ("no line", &[], false),
        ("one span", &[(100, 2_500)], false),
        ("two spans", &[(100, 2_500), (100, 2_500)], true),
        ("short spans", &[(10, 2_500), (10, 2_500), (10, 2_500)], false),
        ("a span in which the kernel's clock stood", &[(100, 9_000), (100, 2_500)], false),
        ("a counter with a count in two nanoseconds", &[(100, 500), (100, 500), (100, 500)], false),
    ];
    for (name, spans, has_rate) in cases {
        let machine = Machine::new(2_500);
        for &(milliseconds, speed) in spans {
            machine.speed.set(speed);
            machine.line_after(milliseconds * MILLISECOND);
        }
        assert_eq!(machine.now().is_some(), has_rate, "{name}");
    }
}

#[test]
fn the_first_reading_is_not_below_the_kernels() {
    for speed in [1_001, 2_500, 4_321, 9_999] {
        let machine = Machine::new(speed);
        (0..2).for_each(|_| machine.line_after(SHORTEST));
        for _ in 0..10 {
            assert!((0..100).contains(&machine.ahead()), "{speed}: {} nanoseconds ahead", machine.ahead());
            machine.pass(MILLISECOND);
        }
    }
}

#[test]
fn it_follows_a_kernel_that_changes_its_rate() {
    let machine = Machine::running();
    for speed in [2_501, 2_499, 2_500] {
        machine.speed.set(speed);
        (0..20).for_each(|_| machine.line_after(100 * MILLISECOND));
        assert!(machine.ahead().abs() < 300, "{speed}: {} nanoseconds ahead", machine.ahead());
    }
}

#[test]
fn what_it_is_off_is_made_up_slowly() {
    // What happens to the kernel's clock at once, in nanoseconds, and how far ahead the clock is right after the next line.
    let cases = [
        ("a little behind", 800_000, -900_000..-700_000),
        ("far behind, and it steps", 5_000_000, 0..1_000),
        ("a little ahead", -800_000, 700_000..900_000),
        ("far ahead", -5_000_000, 4_900_000..5_100_000),
    ];
    for (name, jump, there) in cases {
        let machine = Machine::running();
        // A kernel's clock that goes back is none; what is meant is that it stood while the counter went on.
        machine.pass(SECOND);
        machine.kernel.set((machine.kernel.get() as i64 + jump) as u64);
        machine.line();
        assert!(there.contains(&machine.ahead()), "{name}: {} nanoseconds ahead", machine.ahead());
        // A thousandth makes up for it, and a kernel that goes by a thousandth faster or slower is followed.
        let error = machine.error_of_a_second();
        assert!(error.abs() <= 2_000_000, "{name}: a second is wrong by {error} nanoseconds");
        (0..200).for_each(|_| machine.line_after(100 * MILLISECOND));
        assert!(machine.ahead().abs() < 300, "{name}: {} nanoseconds ahead at the end", machine.ahead());
    }
}

#[test]
fn a_machine_that_sleeps_takes_the_clock_ahead_and_changes_no_rate() {
    let machine = Machine::running();
    // The counter goes on, and the kernel's clock stands.
    machine.ticks.set(machine.ticks.get() + 5 * HOUR);
    machine.line_after(100 * MILLISECOND);
    let hours = 2 * HOUR as i64;
    assert!((machine.ahead() - hours).abs() < 2 * MILLISECOND as i64, "{} nanoseconds ahead", machine.ahead());
    for line in 0..5 {
        let error = machine.error_of_a_second();
        assert!((-1_100_000..=0).contains(&error), "line {line}: a second is wrong by {error} nanoseconds");
        machine.line();
    }
}

#[test]
fn a_counter_that_begins_anew_takes_the_clock_forward() {
    let machine = Machine::running();
    let before = machine.now();
    machine.ticks.set(1_000);
    assert!(machine.now() <= before, "it stands until the next line");
    machine.line_after(100 * MILLISECOND);
    assert!((0..1_000).contains(&machine.ahead()), "{} nanoseconds ahead", machine.ahead());
    assert!(machine.error_of_a_second().abs() < 10_000, "the rate is that of before");
}

#[test]
fn a_step_is_made_from_more_than_a_millisecond_on() {
    for (behind, steps) in [(STEP - 10_000, false), (STEP + 10_000, true)] {
        let machine = Machine::running();
        machine.pass(100 * MILLISECOND);
        machine.kernel.set(machine.kernel.get() + behind);
        let before = machine.now().expect("a rate");
        machine.line();
        let forward = machine.now().expect("a rate") - before;
        assert_eq!(forward > 1, steps, "behind by {behind}: {forward} nanoseconds forward");
    }
}

#[test]
fn an_early_reading_counts_as_the_anchor() {
    let anchor = Anchor { ticks: 1_000, moment: 70, rate: 1 << 63 };
    let cases = [(0, 70), (999, 70), (1_000, 70), (1_001, 70), (1_002, 71), (u64::MAX, (u64::MAX - 1_000) / 2 + 70)];
    for (ticks, moment) in cases {
        assert_eq!(anchor.at(ticks), moment, "at {ticks}");
    }
    let last = Anchor { ticks: 0, moment: u64::MAX - 5, rate: u64::MAX };
    assert_eq!(last.at(100), u64::MAX, "it stays at the greatest");
}

#[test]
fn a_reader_waits_for_no_thread_that_was_stopped_in_a_change() {
    let machine = Machine::running();
    let anchors = machine.clock.anchors();
    let faster = Change { step: 50, rate: u64::MAX / 2 };
    let before = machine.now().expect("a rate");
    // As a thread that changes the rate is stopped, another one reads.
    let read = Cell::new(None);
    let ticks = || {
        read.set(machine.now());
        machine.ticks.get()
    };
    assert!(!anchors.change(faster, ticks), "the change is made though a reader came by");
    assert_eq!(read.get(), Some(before), "the reader has the clock of before");
    assert_eq!(machine.now(), Some(before), "the clock is that of before");
    assert!(anchors.change(faster, || machine.ticks.get()), "the next change is made");
    assert_eq!(machine.now(), Some(before + 51));
}

/// A counter that counts its readings, so that the order of all is known.
struct Ordered(AtomicU64);

impl Ordered {
    fn read(&self) -> u64 {
        self.0.fetch_add(1_000, Ordering::SeqCst)
    }
}

/// Threads read, and know of each other's readings.
fn readings_that_rise(now: impl Fn() -> u64 + Sync, meanwhile: impl FnOnce()) {
    let (stop, known) = (AtomicBool::new(false), AtomicU64::new(0));
    thread::scope(|scope| {
        for _ in 0..3 {
            scope.spawn(|| {
                while !stop.load(Ordering::Relaxed) {
                    let before = known.load(Ordering::SeqCst);
                    let moment = now();
                    assert!(before <= moment, "another thread read {before}, and this one {moment}");
                    known.fetch_max(moment, Ordering::SeqCst);
                }
            });
        }
        meanwhile();
        stop.store(true, Ordering::Relaxed);
    });
}

#[test]
fn readings_rise_between_threads_while_the_rate_changes() {
    let counter = Ordered(AtomicU64::new(1));
    let first = Pair { ticks: 0, width: 0, kernel: 0 };
    let clock = Counted::new(first);
    let anchors = clock.anchors();
    anchors.start(Anchor { ticks: 0, moment: 0, rate: 1 << 63 });
    readings_that_rise(
        || clock.now(|| counter.read()).expect("a rate"),
        || {
            let made = (0..200_000_u64)
                .filter(|turn| {
                    let rate = [1 << 63, 1 << 40, u64::MAX, 1][*turn as usize % 4];
                    anchors.change(Change { step: turn % 3, rate }, || counter.read())
                })
                .count();
            assert!(made > 0, "some changes are made beside readers");
        },
    );
}

#[test]
fn readings_of_this_machine_rise_and_are_those_of_the_kernel() {
    let clock = Clock::open();
    readings_that_rise(
        || clock.now_after(),
        || {
            for _ in 0..40 {
                thread::sleep(Duration::from_millis(10));
                clock.follow();
                let (before, moment, after) = (clock.kernel(), clock.now_after(), clock.kernel());
                // It is off by less than a microsecond; a busy machine may stop the thread in between.
                assert!(before < moment + MILLISECOND && moment < after + MILLISECOND, "{before} {moment} {after}");
            }
        },
    );
}

#[test]
fn readings_of_one_thread_rise_without_a_fence() {
    let clock = Clock::open();
    let mut last = 0;
    for _ in 0..5 {
        thread::sleep(Duration::from_millis(30));
        clock.follow();
        for _ in 0..200_000 {
            let moment = clock.now();
            assert!(last <= moment, "{last} and then {moment}");
            last = moment;
        }
    }
}

#[test]
#[cfg(target_arch = "x86_64")]
fn a_machine_without_an_even_counter_reads_the_kernels_clock() {
    let clock = Clock { opened: Instant::now(), counter: None };
    thread::sleep(Duration::from_millis(2));
    clock.follow();
    let (before, moment, after) = (clock.kernel(), clock.now(), clock.kernel());
    assert!(2 * MILLISECOND <= before && before <= moment && moment <= after, "{before} {moment} {after}");
    for (source, is_it) in
        [("tsc\n", true), ("tsc-early\n", false), ("kvm-clock\n", false), ("hpet\n", false), ("", false)]
    {
        assert_eq!(tsc::is_the_counter(source.as_bytes()), is_it, "{source:?}");
    }
}
