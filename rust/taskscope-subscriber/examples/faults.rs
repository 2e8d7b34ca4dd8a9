//! Three tasks with a fault each, and one without: `taskscope lint` warns of `lost`, `eager` and `busy`.

use std::future::Future;
use std::pin::Pin;
use std::task::{Context, Poll};
use std::time::{Duration, Instant};

/// Is pending, and gives its waker to nobody.
struct Lost;

impl Future for Lost {
    type Output = ();

    fn poll(self: Pin<&mut Self>, _: &mut Context<'_>) -> Poll<()> {
        Poll::Pending
    }
}

/// Wakes itself so many times.
struct Eager(u32);

impl Future for Eager {
    type Output = ();

    fn poll(mut self: Pin<&mut Self>, cx: &mut Context<'_>) -> Poll<()> {
        if self.0 == 0 {
            return Poll::Ready(());
        }
        self.0 -= 1;
        cx.waker().wake_by_ref();
        Poll::Pending
    }
}

/// Does not yield before so long.
async fn busy(span: Duration) {
    let started = Instant::now();
    while started.elapsed() < span {
        std::hint::spin_loop();
    }
}

#[tokio::main]
async fn main() -> std::io::Result<()> {
    taskscope_subscriber::init();
    let named = |name| tokio::task::Builder::new().name(name);
    named("lost").spawn(Lost)?;
    let eager = named("eager").spawn(Eager(100))?;
    let fine = named("fine").spawn(tokio::time::sleep(Duration::from_millis(100)))?;
    named("busy").spawn(busy(Duration::from_secs(10)))?;
    eager.await?;
    fine.await?;
    // The first poll of `busy` has gone on for more than a second by then.
    tokio::time::sleep(Duration::from_millis(1300)).await;
    std::process::exit(0);
}
