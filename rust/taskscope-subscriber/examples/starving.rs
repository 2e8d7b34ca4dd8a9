//! A task that starves the others: on one worker, `json-index` computes for 30 milliseconds each 100, and eight clients wait for
//! it meanwhile. A thread hands each client a request each 5 milliseconds, as a client behind a network does: it knows nothing of
//! who runs.
//!
//! It prints what it measured by itself: of each task how many polls ran, the longest, and percentiles, all in nanoseconds; and the same of
//! how long it waited for them, each time from the first wake on. `taskscope view --times` is to tell the same of both, and
//! `taskscope lint --long-poll 20ms` to warn of `json-index` alone.

use std::future::Future;
use std::pin::Pin;
use std::sync::{Arc, Mutex};
use std::task::{Context, Poll, Wake, Waker};
use std::thread;
use std::time::{Duration, Instant};
use tokio::sync::Notify;
use tokio::time::sleep;

/// Since when a task waits for a poll.
type Since = Arc<Mutex<Option<Instant>>>;

/// Notes the first wake, and wakes the task.
struct Noting {
    since: Since,
    task: Waker,
}

impl Wake for Noting {
    fn wake(self: Arc<Self>) {
        self.since.lock().expect("no panic").get_or_insert_with(Instant::now);
        self.task.wake_by_ref();
    }
}

/// Measures each poll of a future, and each wait for one.
struct Measured<F> {
    work: Pin<Box<F>>,
    since: Since,
    runs: Arc<Mutex<Vec<u128>>>,
    waits: Arc<Mutex<Vec<u128>>>,
}

impl<F: Future> Future for Measured<F> {
    type Output = F::Output;

    fn poll(mut self: Pin<&mut Self>, cx: &mut Context<'_>) -> Poll<F::Output> {
        let started = Instant::now();
        if let Some(since) = self.since.lock().expect("no panic").take() {
            self.waits.lock().expect("no panic").push(started.duration_since(since).as_nanos());
        }
        let waker = Waker::from(Arc::new(Noting { since: Arc::clone(&self.since), task: cx.waker().clone() }));
        let answer = self.work.as_mut().poll(&mut Context::from_waker(&waker));
        self.runs.lock().expect("no panic").push(started.elapsed().as_nanos());
        answer
    }
}

fn compute(span: Duration) {
    let started = Instant::now();
    while started.elapsed() < span {
        std::hint::spin_loop();
    }
}

async fn index(until: Instant) {
    while Instant::now() < until {
        compute(Duration::from_millis(30));
        sleep(Duration::from_millis(70)).await;
    }
}

async fn client(requests: Arc<Notify>, until: Instant) {
    while Instant::now() < until {
        requests.notified().await;
        compute(Duration::from_micros(50));
    }
}

/// Hands each client a request each 5 milliseconds, until none is left that holds `requests`.
fn hand_out(requests: &Arc<Notify>) {
    while Arc::strong_count(requests) > 1 {
        thread::sleep(Duration::from_millis(5));
        requests.notify_waiters();
    }
}

/// The time that so many percent of the runs are at most as long as.
fn percentile(runs: &[u128], percent: usize) -> u128 {
    runs[(runs.len() * percent + 99) / 100 - 1]
}

fn print(word: &str, name: &str, what: &str, times: &Mutex<Vec<u128>>) {
    let mut times = times.lock().expect("no panic").clone();
    times.sort_unstable();
    let Some(longest) = times.last() else {
        return;
    };
    let [half, most, nearly] = [50, 90, 99].map(|percent| percentile(&times, percent));
    println!("{word} {name} {what} {} longest {longest} p50 {half} p90 {most} p99 {nearly}", times.len());
}

fn main() -> std::io::Result<()> {
    taskscope_subscriber::init();
    let runtime = tokio::runtime::Builder::new_multi_thread().worker_threads(1).enable_time().build()?;
    let until = Instant::now() + Duration::from_secs(3);
    let mut measured = Vec::new();
    let requests = Arc::new(Notify::new());
    let of_thread = Arc::clone(&requests);
    let handing = thread::spawn(move || hand_out(&of_thread));
    runtime.block_on(async {
        let mut joins = Vec::new();
        for number in 0..9 {
            let (runs, waits) = (Arc::<Mutex<Vec<u128>>>::default(), Arc::<Mutex<Vec<u128>>>::default());
            let since = Arc::new(Mutex::new(Some(Instant::now())));
            let name = if number == 0 { "json-index".to_owned() } else { format!("client-{number}") };
            let work: Pin<Box<dyn Future<Output = ()> + Send>> =
                if number == 0 { Box::pin(index(until)) } else { Box::pin(client(Arc::clone(&requests), until)) };
            let task = Measured { work: Box::pin(work), since, runs: Arc::clone(&runs), waits: Arc::clone(&waits) };
            joins.push(tokio::task::Builder::new().name(&name).spawn(task)?);
            measured.push((name, runs, waits));
        }
        for join in joins {
            join.await?;
        }
        Ok::<(), std::io::Error>(())
    })?;
    drop(requests);
    handing.join().expect("no panic");
    for (name, runs, waits) in measured {
        print("mine", &name, "polls", &runs);
        print("waits", &name, "waits", &waits);
    }
    Ok(())
}
