//! A program that logs, and that answers each request by a task of its own: a task accepts a request, opens a span for it, hands it on,
//! and ends. `taskscope lint` warns of nothing, and the logs have `request{number=1}`.

use std::time::Duration;
use tracing::{info, info_span, Instrument};
use tracing_subscriber::{fmt, prelude::*, EnvFilter};

async fn answer() {
    info!("begun");
    tokio::time::sleep(Duration::from_secs(2)).await;
}

#[tokio::main]
async fn main() {
    taskscope_subscriber::init_with(fmt::layer().with_filter(EnvFilter::new("info")));
    for number in 1..=5 {
        let accept = async move {
            let request = info_span!("request", number);
            tokio::spawn(answer().instrument(request));
            tokio::time::sleep(Duration::from_millis(20)).await;
        };
        tokio::spawn(accept).await.expect("no panic");
    }
    // Each that accepted has ended, and each answer is on its way.
    std::process::exit(0);
}
