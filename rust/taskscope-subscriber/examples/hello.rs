//! Three tasks: one that yields, one that sleeps, and one that blocks a thread.

use std::time::Duration;

#[tokio::main]
async fn main() {
    taskscope_subscriber::init();
    let yields = tokio::spawn(async {
        for _ in 0..3 {
            tokio::task::yield_now().await;
        }
    });
    let sleeps = tokio::task::Builder::new().name("sleeps").spawn(tokio::time::sleep(Duration::from_millis(5)));
    let blocks = tokio::task::spawn_blocking(|| std::thread::sleep(Duration::from_millis(2)));
    let joined = (yields.await, sleeps.expect("a runtime").await, blocks.await);
    joined.0.and(joined.1).and(joined.2).expect("no task panics");
}
