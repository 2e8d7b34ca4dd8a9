//! A service under load, to attach to: tasks that stay and are polled each 50 ms, and tasks that come and go. Each second it prints what
//! it saw itself: how late a tick of 5 ms came at most, its memory, its descriptors, and the processor time of its threads `taskscope`.
//!
//! Usage: load LIVING SPAWNS_PER_SECOND SECONDS

use std::fs;
use std::sync::atomic::{AtomicU64, Ordering};
use std::sync::Arc;
use std::time::{Duration, Instant};
use tokio::time::{interval, sleep, MissedTickBehavior};

const TICK: Duration = Duration::from_millis(5);

/// How much memory of the process is resident, in KiB.
fn resident() -> u64 {
    let status = fs::read_to_string("/proc/self/status").unwrap_or_default();
    let line = status.lines().find(|line| line.starts_with("VmRSS:"));
    line.and_then(|line| line.split_whitespace().nth(1)?.parse().ok()).unwrap_or(0)
}

fn descriptors() -> usize {
    fs::read_dir("/proc/self/fd").map_or(0, |descriptors| descriptors.count())
}

/// The processor time of the threads that publish, in milliseconds.
fn publishing_time() -> u64 {
    let of_thread = |folder: fs::DirEntry| {
        let read = |name| fs::read_to_string(folder.path().join(name)).unwrap_or_default();
        let stat = read("stat");
        let words: Vec<&str> = stat.split_whitespace().collect();
        let ticks = |place: usize| words.get(place).and_then(|word| word.parse::<u64>().ok()).unwrap_or(0);
        // A tick of the system has 10 ms.
        if read("comm").trim() == "taskscope" {
            (ticks(13) + ticks(14)) * 10
        } else {
            0
        }
    };
    fs::read_dir("/proc/self/task").into_iter().flatten().flatten().map(of_thread).sum()
}

/// Notes how late a tick came at most, in microseconds.
async fn note_lateness(worst: Arc<AtomicU64>) {
    let mut ticks = interval(TICK);
    ticks.set_missed_tick_behavior(MissedTickBehavior::Delay);
    let mut last = Instant::now();
    loop {
        ticks.tick().await;
        let late = last.elapsed().saturating_sub(TICK);
        worst.fetch_max(late.as_micros() as u64, Ordering::Relaxed);
        last = Instant::now();
    }
}

async fn live() {
    loop {
        sleep(Duration::from_millis(50)).await;
    }
}

#[tokio::main(flavor = "multi_thread", worker_threads = 2)]
async fn main() {
    taskscope_subscriber::init();
    let mut words = std::env::args().skip(1).map(|word| word.parse::<u64>().expect("a number"));
    let mut next = |otherwise| words.next().unwrap_or(otherwise);
    let (living, rate, seconds) = (next(100), next(100), next(10));
    (0..living).for_each(|_| drop(tokio::task::Builder::new().name("live").spawn(live())));
    let worst = Arc::new(AtomicU64::new(0));
    tokio::spawn(note_lateness(Arc::clone(&worst)));
    let (begun, mut made) = (Instant::now(), 0);
    let mut ticks = interval(Duration::from_millis(10));
    for second in 1..=seconds {
        let published = publishing_time();
        while begun.elapsed() < Duration::from_secs(second) {
            ticks.tick().await;
            let due = begun.elapsed().as_millis() as u64 * rate / 1000;
            (made..due).for_each(|_| drop(tokio::spawn(async {})));
            made = made.max(due);
        }
        println!(
            "second {second} made {made} late {} us resident {} KiB descriptors {} published {} ms",
            worst.swap(0, Ordering::Relaxed),
            resident(),
            descriptors(),
            publishing_time() - published
        );
    }
}
