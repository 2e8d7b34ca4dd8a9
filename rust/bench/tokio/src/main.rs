//! What tokio's own operations cost under `taskscope-subscriber`, and under less.
//!
//! Usage: taskscope-bench-tokio [PLAIN]   measures, and writes a table to standard output. PLAIN is this program, built with
//!                                        `--no-default-features`: tokio without its feature `tracing`.
//!        taskscope-bench-tokio MODE      measures one column: `none`, `registry`, `uncounted`, `tasks`, `all`, `beside` or `with`.
//!
//! Figures are nanoseconds of processor time, of the thread that does the work, or with workers of the whole process, which has the
//! publishing thread too: each the least of some rounds, as other programs of the machine take its caches in between.

use std::env;
use std::future::Future;
use std::hint::black_box;
use std::pin::Pin;
use std::process::Command;
use std::task::{Context, Poll, Waker};
use tokio::runtime::{Builder, Runtime};
use tokio::sync::{mpsc, oneshot, Mutex};

/// The modes, and below what their columns are called.
const MODES: [&str; 7] = ["none", "registry", "uncounted", "tasks", "all", "beside", "with"];
const NAMES: [&str; 7] = [
    "no subscriber",
    "bare registry",
    "tasks without histograms and waits",
    "tasks alone",
    "all items",
    "tasks beside others",
    "tasks by `init_with`",
];
const ROUNDS: usize = 9;

/// The processor time of this thread, or of the process.
fn time(clock: libc::clockid_t) -> f64 {
    let mut time = libc::timespec { tv_sec: 0, tv_nsec: 0 };
    // SAFETY: the time is lent for the call.
    assert_eq!(unsafe { libc::clock_gettime(clock, &mut time) }, 0);
    time.tv_sec as f64 * 1e9 + time.tv_nsec as f64
}

/// Wakes itself so many times.
struct SelfWakes(u32);

impl Future for SelfWakes {
    type Output = ();

    fn poll(mut self: Pin<&mut Self>, cx: &mut Context<'_>) -> Poll<()> {
        if self.0 == 0 {
            return Poll::Ready(());
        }
        self.0 -= 1;
        cx.waker().wake_by_ref();
        Poll::Pending
    }
}

/// Gives its waker away, and is pending.
struct Gives(Option<oneshot::Sender<Waker>>);

impl Future for Gives {
    type Output = ();

    fn poll(mut self: Pin<&mut Self>, cx: &mut Context<'_>) -> Poll<()> {
        if let Some(sender) = self.0.take() {
            assert!(sender.send(cx.waker().clone()).is_ok(), "the waker is wanted");
        }
        Poll::Pending
    }
}

/// Nanoseconds of one call, of the least of the rounds, by a clock that starts within the runtime.
fn least<F: Future<Output = f64>>(runtime: &Runtime, calls: u32, round: impl Fn(u32) -> F) -> f64 {
    let times = (0..ROUNDS).map(|_| runtime.block_on(round(calls)) / f64::from(calls));
    times.fold(f64::INFINITY, f64::min)
}

async fn self_wakes(calls: u32) -> f64 {
    let started = time(libc::CLOCK_THREAD_CPUTIME_ID);
    tokio::spawn(SelfWakes(calls)).await.expect("no panic");
    time(libc::CLOCK_THREAD_CPUTIME_ID) - started
}

/// The time of calls on the waker of a task that is pending.
async fn of_waker(call: impl Fn(&Waker)) -> f64 {
    let (sender, receiver) = oneshot::channel();
    let task = tokio::spawn(Gives(Some(sender)));
    let waker = receiver.await.expect("it is given away");
    let started = time(libc::CLOCK_THREAD_CPUTIME_ID);
    call(&waker);
    let ended = time(libc::CLOCK_THREAD_CPUTIME_ID);
    task.abort();
    ended - started
}

async fn wakes(calls: u32) -> f64 {
    of_waker(|waker| (0..calls).for_each(|_| black_box(waker).wake_by_ref())).await
}

async fn clones(calls: u32) -> f64 {
    of_waker(|waker| (0..calls).for_each(|_| drop(black_box(waker).clone()))).await
}

async fn spawns(calls: u32) -> f64 {
    let started = time(libc::CLOCK_THREAD_CPUTIME_ID);
    for _ in 0..calls {
        tokio::spawn(async {}).await.expect("no panic");
    }
    time(libc::CLOCK_THREAD_CPUTIME_ID) - started
}

async fn sends(calls: u32) -> f64 {
    let started = time(libc::CLOCK_THREAD_CPUTIME_ID);
    let (sender, mut receiver) = mpsc::channel(1);
    let receives = tokio::spawn(async move { while receiver.recv().await.is_some() {} });
    for call in 0..calls {
        sender.send(call).await.expect("it is received");
    }
    drop(sender);
    receives.await.expect("no panic");
    time(libc::CLOCK_THREAD_CPUTIME_ID) - started
}

async fn locks(calls: u32) -> f64 {
    let mutex = Mutex::new(0);
    let started = time(libc::CLOCK_THREAD_CPUTIME_ID);
    for _ in 0..calls {
        *mutex.lock().await += 1;
    }
    time(libc::CLOCK_THREAD_CPUTIME_ID) - started
}

/// Tasks that wake themselves, on 4 workers at once.
async fn on_workers(calls: u32) -> f64 {
    let started = time(libc::CLOCK_PROCESS_CPUTIME_ID);
    let tasks: Vec<_> = (0..4).map(|_| tokio::spawn(SelfWakes(calls / 4))).collect();
    for task in tasks {
        task.await.expect("no panic");
    }
    time(libc::CLOCK_PROCESS_CPUTIME_ID) - started
}

/// Writes a line for each figure.
fn measure() -> std::io::Result<()> {
    let runtime = Builder::new_current_thread().build()?;
    println!("a self-wake and a poll\t{}", least(&runtime, 50_000, self_wakes));
    println!("a wake by reference from outside\t{}", least(&runtime, 50_000, wakes));
    println!("a waker's clone and drop\t{}", least(&runtime, 50_000, clones));
    println!("a spawn, its poll and its join\t{}", least(&runtime, 10_000, spawns));
    println!("a send through a channel of 1\t{}", least(&runtime, 10_000, sends));
    println!("a lock of a `Mutex`\t{}", least(&runtime, 10_000, locks));
    let workers = Builder::new_multi_thread().worker_threads(4).build()?;
    println!("4 workers: a self-wake and a poll\t{}", least(&workers, 200_000, on_workers));
    Ok(())
}

#[cfg(feature = "tracing")]
fn install(mode: &str) -> std::io::Result<()> {
    use taskscope_subscriber::{Builder, Items, Output, Rootless};
    use tracing_subscriber::{layer::Identity, prelude::*};
    let output = Output::File("/dev/null".into());
    let builder = Builder::new().output(output.clone()).retention(std::time::Duration::ZERO);
    match mode {
        "registry" => tracing_subscriber::registry().init(),
        "uncounted" => builder.items(Items::Tasks).times(false).waits(false).init()?,
        "tasks" => builder.items(Items::Tasks).init()?,
        "all" => builder.items(Items::All).init()?,
        "beside" => {
            let (layer, guard) = builder.layer(output)?;
            // Lines are published to the end.
            std::mem::forget(guard);
            Rootless(tracing_subscriber::registry().with(layer)).init();
        }
        "with" => builder.init_with(Identity::new())?,
        _ => {}
    }
    Ok(())
}

#[cfg(not(feature = "tracing"))]
fn install(_mode: &str) -> std::io::Result<()> {
    Ok(())
}

/// The lines of a program that measures one column.
fn column(program: &str, mode: &str) -> std::io::Result<Vec<(String, f64)>> {
    let output = Command::new(program).arg(mode).output()?;
    assert!(output.status.success(), "{mode}: {}", String::from_utf8_lossy(&output.stderr));
    let text = String::from_utf8_lossy(&output.stdout).into_owned();
    let pair =
        |line: &str| line.split_once('\t').map(|(name, figure)| (name.to_owned(), figure.parse().unwrap_or(f64::NAN)));
    Ok(text.lines().filter_map(pair).collect())
}

fn main() -> std::io::Result<()> {
    let word = env::args().nth(1);
    if let Some(mode) = word.as_deref().filter(|word| MODES.contains(word)) {
        install(mode)?;
        return measure();
    }
    let this = env::current_exe()?.to_string_lossy().into_owned();
    let mut columns = Vec::new();
    let mut names = Vec::new();
    if let Some(plain) = word {
        columns.push(column(&plain, "none")?);
        names.push("without the feature");
    }
    for (mode, name) in MODES.iter().zip(NAMES) {
        columns.push(column(&this, mode)?);
        names.push(name);
    }
    println!("| ns | {} |\n|---|{}", names.join(" | "), "---|".repeat(names.len()));
    for row in 0..columns[0].len() {
        let figures: Vec<String> = columns.iter().map(|column| format!("{:.0}", column[row].1)).collect();
        println!("| {} | {} |", columns[0][row].0, figures.join(" | "));
    }
    Ok(())
}
