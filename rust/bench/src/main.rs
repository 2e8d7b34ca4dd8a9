//! What the inspection of a program costs: wakes, polls, clones of wakers and spawns, each plain, inspected, and under a
//! `tracing` span; lines, by how many tasks there are and how many of them changed, with histograms and waits, and without; and
//! numbers for Prometheus, with what a task costs that leaves.
//!
//! Usage: taskscope-bench
//!
//! Each figure is the least of many short rounds, as other programs of the machine take its processors in between. Calls are told
//! in nanoseconds and in readings of the clock, lines in microseconds. The table goes to standard output.

use std::future::Future;
use std::hint::black_box;
use std::pin::Pin;
use std::sync::{Arc, Mutex};
use std::task::{Context, Poll, Wake, Waker};
use std::time::{Duration, Instant};
use taskscope::{Console, Location, Settings, Task};
use tokio::runtime::{Builder, Runtime};
use tracing::Instrument;

struct Noop;

impl Wake for Noop {
    fn wake(self: Arc<Self>) {}
    fn wake_by_ref(self: &Arc<Self>) {}
}

/// Is pending forever, and keeps a clone of its first poll's waker where it has a slot for it.
struct Pending(Option<Arc<Mutex<Option<Waker>>>>);

impl Future for Pending {
    type Output = ();

    fn poll(mut self: Pin<&mut Self>, cx: &mut Context<'_>) -> Poll<()> {
        if let Some(slot) = self.0.take() {
            *slot.lock().unwrap() = Some(cx.waker().clone());
        }
        black_box(cx);
        Poll::Pending
    }
}

/// The waker that a future is lent.
fn waker_of<F: Future>(wrap: impl FnOnce(Pending) -> F) -> (Pin<Box<F>>, Waker) {
    let slot = Arc::new(Mutex::new(None));
    let mut future = Box::pin(wrap(Pending(Some(Arc::clone(&slot)))));
    let noop = Waker::from(Arc::new(Noop));
    assert!(future.as_mut().poll(&mut Context::from_waker(&noop)).is_pending());
    let waker = slot.lock().unwrap().take().unwrap();
    (future, waker)
}

/// Nanoseconds of one call, of the least of many rounds.
fn least(rounds: u32, calls: u32, mut round: impl FnMut(u32)) -> f64 {
    let time = |_| {
        let started = Instant::now();
        round(calls);
        started.elapsed()
    };
    let least = (0..rounds).map(time).min().unwrap_or_default();
    least.as_secs_f64() * 1e9 / f64::from(calls)
}

/// A console that keeps all that a measure makes.
fn console() -> Console {
    that_counts(true)
}

/// The same, with histograms and waits, or without. Some lines were made, as by a program that runs for a while: its clock goes by them.
fn that_counts(waits: bool) -> Console {
    let console =
        Console::open(Settings::default().capacity(usize::MAX).retention(Duration::ZERO).times(waits).waits(waits));
    for _ in 0..3 {
        std::thread::sleep(Duration::from_millis(60));
        console.publish().expect("a line");
    }
    console
}

/// A row of the table of calls.
fn tell(what: &str, clock: f64, plain: f64, inspected: f64, span: Option<f64>) {
    let span = span.map_or_else(|| "-".to_string(), |span| format!("{span:.1}"));
    let readings = (inspected - plain) / clock;
    println!("| {what} | {plain:.1} | {inspected:.1} | {span} | {readings:.1} |");
}

fn wakes(clock: f64) {
    let (_plain, plain) = waker_of(|future| future);
    let console = console();
    let (_inspected, inspected) = waker_of(|future| Console::instrument(&console, "woken", future));
    let (_span, span) = waker_of(|future| future.instrument(tracing::info_span!("woken")));
    let wake = |waker: &Waker| least(200, 20_000, |calls| (0..calls).for_each(|_| black_box(waker).wake_by_ref()));
    tell("a wake by reference", clock, wake(&plain), wake(&inspected), Some(wake(&span)));
    let copy = |waker: &Waker| least(200, 20_000, |calls| (0..calls).for_each(|_| drop(black_box(waker).clone())));
    tell("a waker's clone and drop", clock, copy(&plain), copy(&inspected), Some(copy(&span)));
}

fn polls(clock: f64) {
    fn poll(future: impl Future) -> f64 {
        let waker = Waker::from(Arc::new(Noop));
        let (mut future, mut cx) = (Box::pin(future), Context::from_waker(&waker));
        least(200, 20_000, |calls| {
            for _ in 0..calls {
                let _ = black_box(future.as_mut().poll(&mut cx));
            }
        })
    }
    let console = console();
    let inspected = poll(Console::instrument(&console, "polled", Pending(None)));
    let span = poll(Pending(None).instrument(tracing::info_span!("polled")));
    tell("a poll", clock, poll(Pending(None)), inspected, Some(span));
    let plain = poll(Console::instrument(&that_counts(false), "polled", Pending(None)));
    tell("a poll, without histograms and waits", clock, poll(Pending(None)), plain, None);
}

fn spawns(clock: f64) -> std::io::Result<()> {
    let runtime = Builder::new_multi_thread().worker_threads(2).build()?;
    fn spawn<F: Future<Output = ()> + Send + 'static>(
        runtime: &Runtime,
        after: impl Fn(),
        make: impl Fn() -> F,
    ) -> f64 {
        least(40, 1_000, |calls| {
            runtime.block_on(async {
                for _ in 0..calls {
                    tokio::spawn(make()).await.unwrap();
                }
            });
            after();
        })
    }
    let console = console();
    let plain = spawn(&runtime, || (), || async {});
    let inspected = spawn(&runtime, || (), || Console::instrument(&console, "spawned", async {}));
    let span = spawn(&runtime, || (), || async {}.instrument(tracing::info_span!("spawned")));
    tell("a spawn and join on tokio", clock, plain, inspected, Some(span));
    let publish = || drop(console.publish());
    let published = spawn(&runtime, publish, || Console::instrument(&console, "spawned", async {}));
    tell("the same, with its share of a line", clock, plain, published, None);
    Ok(())
}

/// Microseconds of a publish, of the least of some rounds, each after these wakes, and the bytes of the line.
fn publish(console: &Console, rounds: u32, woken: &dyn Fn()) -> (f64, usize) {
    let mut best = (f64::MAX, 0);
    for _ in 0..rounds {
        woken();
        let started = Instant::now();
        let len = console.publish().unwrap().len();
        let micros = started.elapsed().as_secs_f64() * 1e6;
        if micros < best.0 {
            best = (micros, len);
        }
    }
    best
}

/// How many kilobytes of memory this process has.
fn resident() -> u64 {
    let status = std::fs::read_to_string("/proc/self/status").unwrap_or_default();
    let line = status.lines().find_map(|line| line.strip_prefix("VmRSS:"));
    line.and_then(|line| line.split_whitespace().next()).and_then(|word| word.parse().ok()).unwrap_or(0)
}

fn lines(waits: bool) {
    println!("\n{} histograms and waits:\n", if waits { "With" } else { "Without" });
    println!("| tasks | all new | none changed | 1 of 100 changed | all changed | a snapshot | bytes a task |");
    println!("|---|---|---|---|---|---|---|");
    for count in [1_000, 10_000, 100_000] {
        let before = resident();
        let console = that_counts(waits);
        let tasks: Vec<_> = (0..count).map(|_| Mutex::new(console.task("listed").open())).collect();
        let held = (resident() - before) * 1024 / count;
        // Each changed task was polled once.
        let wake = |step: usize| {
            for task in tasks.iter().step_by(step) {
                let task = &mut task.lock().unwrap();
                let _ = task.start_poll();
                let _ = task.end_poll();
            }
        };
        let (new, _) = publish(&console, 1, &|| ());
        let (none, _) = publish(&console, 200, &|| ());
        let (some, _) = publish(&console, 20, &|| wake(100));
        let (all, bytes) = publish(&console, 5, &|| wake(1));
        let started = Instant::now();
        let snapshot = console.snapshot().unwrap().len();
        let micros = started.elapsed().as_secs_f64() * 1e6;
        println!("| {count} | {new:.0} | {none:.1} | {some:.0} | {all:.0} ({bytes} bytes) | {micros:.0} ({snapshot} bytes) | {held} |");
    }
}

/// So many tasks of so many places.
fn tasks_of(console: &Console, count: u32, places: u32) -> Vec<Task> {
    let open = |number| console.task("worker-17").location(Location::new("src/pool.rs", number % places, 5)).open();
    (0..count).map(open).collect()
}

/// Nanoseconds of a task that leaves, while nobody reads lines.
fn leaving(places: u32) -> f64 {
    let console = console();
    let round = |_| {
        let tasks = tasks_of(&console, 100, places);
        console.pass().unwrap();
        drop(tasks);
        let started = Instant::now();
        console.pass().unwrap();
        started.elapsed()
    };
    let least = (0..500).map(round).min().unwrap_or_default();
    least.as_secs_f64() * 1e9 / 100.0
}

fn numbers() {
    println!("\nA task that leaves: {:.0} ns, and one of 100 places {:.0} ns.\n", leaving(1), leaving(100));
    println!("| tasks | places | numbers | bytes |");
    println!("|---|---|---|---|");
    for (count, places) in [(100, 10), (1_000, 10), (1_000, 50), (10_000, 50), (5_000, 5_000)] {
        let console = console();
        let tasks = tasks_of(&console, count, places);
        let mut len = 0;
        let nanos = least(10, 1, |_| len = console.metrics().unwrap().len());
        println!("| {} | {places} | {:.0} | {len} |", tasks.len(), nanos / 1e3);
    }
}

fn main() -> std::io::Result<()> {
    tracing::subscriber::set_global_default(tracing_subscriber::registry()).expect("no other subscriber is set");
    let opened = Instant::now();
    let clock = least(200, 20_000, |calls| {
        (0..calls).for_each(|_| {
            black_box(opened.elapsed());
        })
    });
    println!("A reading of the clock: {clock:.1} ns. The figures of calls are in ns, those of lines in µs.\n");
    println!("| | plain | inspected | under a span | more by inspection, in readings of the clock |");
    println!("|---|---|---|---|---|");
    wakes(clock);
    polls(clock);
    spawns(clock)?;
    lines(false);
    lines(true);
    numbers();
    Ok(())
}
