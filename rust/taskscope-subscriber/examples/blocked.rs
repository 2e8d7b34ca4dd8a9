//! A task that blocks its thread while others wait for it. `report-builder` sends twenty connections something to do, and then
//! sleeps by `std::thread::sleep`, as a lock of `std` or a file that is read would have it. Its runtime has one thread, so nobody
//! else runs.
//!
//! The stream ends while that lasts. `taskscope page` and `taskscope lint --findings` name `report-builder`, and say how many wait for it.

use std::future::Future;
use std::time::Duration;
use tokio::sync::broadcast::{channel, Receiver, Sender};

#[track_caller]
fn spawn(name: &str, work: impl Future<Output = ()> + Send + 'static) -> std::io::Result<()> {
    tokio::task::Builder::new().name(name).spawn(work).map(drop)
}

async fn serve(mut orders: Receiver<u32>) {
    while orders.recv().await.is_ok() {
        tokio::time::sleep(Duration::from_millis(1)).await;
    }
}

async fn report(orders: Sender<u32>) {
    for order in 0..20 {
        tokio::time::sleep(Duration::from_millis(50)).await;
        let _ = orders.send(order);
    }
    std::thread::sleep(Duration::from_secs(60));
}

#[tokio::main(flavor = "current_thread")]
async fn main() -> std::io::Result<()> {
    taskscope_subscriber::init();
    let (orders, _) = channel(64);
    for number in 0..20 {
        spawn(&format!("conn-{number}"), serve(orders.subscribe()))?;
    }
    spawn("report-builder", report(orders))?;
    // No task can end the program while its thread is blocked.
    std::thread::spawn(|| {
        std::thread::sleep(Duration::from_secs(5));
        std::process::exit(0);
    });
    std::future::pending().await
}
