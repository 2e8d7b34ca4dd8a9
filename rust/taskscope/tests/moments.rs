//! Moments of a program that runs for a while, as its clock goes by the processor's counter where it can.

mod common;

use common::{list, noop, number, publish, task, value, Calls};
use std::future::Future;
use std::pin::Pin;
use std::sync::atomic::{AtomicBool, Ordering};
use std::task::{Context, Poll};
use std::thread::{scope, sleep};
use std::time::{Duration, Instant};
use taskscope::{Console, Settings, Task};

/// A console from which lines came for some time.
fn running() -> Console {
    let console = Console::open(Settings::default().waits(false));
    for _ in 0..3 {
        sleep(Duration::from_millis(60));
        publish(&console);
    }
    console
}

fn nanoseconds(span: Duration) -> u64 {
    span.as_nanos().try_into().expect("a short span")
}

fn poll(task: &mut Task) {
    task.start_poll().expect("no poll is open");
    task.end_poll().expect("a poll is open");
}

#[test]
fn a_span_is_as_long_as_by_the_kernels_clock() {
    let console = running();
    for milliseconds in [0, 1, 20, 150] {
        let mut task = console.task("sleeps").open();
        let outer = Instant::now();
        task.start_poll().expect("no poll is open");
        let inner = Instant::now();
        sleep(Duration::from_millis(milliseconds));
        let least = nanoseconds(inner.elapsed());
        task.end_poll().expect("a poll is open");
        let most = nanoseconds(outer.elapsed());
        let busy = number(task_of(&publish(&console), &task), "busy");
        // True to two thousandths, and to what a reading of a clock takes.
        let (least, most) = (least - least / 500, most + most / 500 + 1_000);
        assert!(
            least.saturating_sub(1_000) <= busy && busy <= most,
            "{milliseconds} milliseconds: {busy} is from {least} to {most}"
        );
    }
}

fn task_of<'a>(line: &'a str, of: &Task) -> &'a str {
    task(line, of.id().value())
}

#[test]
fn a_moment_is_as_long_ago_as_by_the_kernels_clock() {
    let before = Instant::now();
    let console = Console::open(Settings::default());
    let after = Instant::now();
    for line in 0..8 {
        sleep(Duration::from_millis(60));
        let least = nanoseconds(after.elapsed());
        let moment = number(&publish(&console), "now");
        let most = nanoseconds(before.elapsed());
        assert!(least < moment + 100_000 && moment < most + 100_000, "line {line}: {moment} is from {least} to {most}");
    }
}

#[test]
fn lines_rise_and_have_no_moment_above_their_own() {
    let console = Console::open(Settings::default().waits(false));
    let stop = AtomicBool::new(false);
    scope(|threads| {
        for _ in 0..3 {
            threads.spawn(|| {
                let mut future: Pin<Box<_>> = Box::pin(console.instrument(
                    "polled",
                    Calls(|cx: &mut Context<'_>| {
                        cx.waker().wake_by_ref();
                        Poll::Pending
                    }),
                ));
                let mut by_hand = console.task("by hand").open();
                while !stop.load(Ordering::Relaxed) {
                    assert!(future.as_mut().poll(&mut Context::from_waker(&noop())).is_pending());
                    poll(&mut by_hand);
                }
            });
        }
        let (started, mut last) = (Instant::now(), 0);
        while started.elapsed() < Duration::from_millis(500) {
            let line = publish(&console);
            let now = number(&line, "now");
            assert!(last <= now, "a line of {last}, and then one of {now}");
            last = now;
            for row in list(&line, "task_stats") {
                for key in ["created", "last_wake", "last_started", "last_ended"] {
                    let moment = value(row, key).parse().unwrap_or(0);
                    assert!(moment <= now, "{key} {moment} in a line of {now}");
                }
            }
            sleep(Duration::from_millis(1));
        }
        stop.store(true, Ordering::Relaxed);
    });
}
