//! The echo server of tokio's documentation, which clients use for a while, and then what the runtime's own metrics have counted:
//! `taskscope view` is to tell of as many polls and wakes.
//!
//! Usage: echo [CONNECTIONS]

use std::io::{Read, Write};
use std::net::SocketAddr;
use std::thread::{self, JoinHandle};
use std::time::Duration;
use tokio::io::{AsyncReadExt, AsyncWriteExt};
use tokio::net::TcpListener;
use tokio::runtime::{Handle, Runtime};
use tokio::sync::oneshot;

type Outcome<T> = Result<T, Box<dyn std::error::Error + Send + Sync>>;

/// The server, as tokio's documentation has it.
async fn serve(listener: TcpListener) -> Outcome<()> {
    loop {
        let (mut socket, _) = listener.accept().await?;

        tokio::spawn(async move {
            let mut buf = [0; 1024];

            // In a loop, read data from the socket and write the data back.
            loop {
                let n = match socket.read(&mut buf).await {
                    // socket closed
                    Ok(0) => return,
                    Ok(n) => n,
                    Err(e) => {
                        eprintln!("failed to read from socket; err = {:?}", e);
                        return;
                    }
                };

                // Write the data back
                if let Err(e) = socket.write_all(&buf[0..n]).await {
                    eprintln!("failed to write to socket; err = {:?}", e);
                    return;
                }
            }
        });
    }
}

/// Connects, sends four messages, and reads each back.
fn use_once(address: SocketAddr) -> std::io::Result<()> {
    let mut stream = std::net::TcpStream::connect(address)?;
    for message in [&b"one"[..], b"two", &[3; 1000], b"four"] {
        stream.write_all(message)?;
        let mut echo = vec![0; message.len()];
        stream.read_exact(&mut echo)?;
        assert_eq!(echo, message);
    }
    Ok(())
}

/// Uses the server from threads of its own, and waits until its tasks have ended.
fn use_it(address: SocketAddr, connections: usize, runtime: &Handle) -> Outcome<()> {
    const CLIENTS: usize = 8;
    let client = move || (0..connections / CLIENTS).try_for_each(|_| use_once(address));
    let clients: Vec<JoinHandle<_>> = (0..CLIENTS).map(|_| thread::spawn(client)).collect();
    for client in clients {
        client.join().expect("no panic")?;
    }
    // A task ends once it sees that its socket is closed.
    let mut before = None;
    while before.replace(Counts::of(runtime)) != Some(Counts::of(runtime)) {
        thread::sleep(Duration::from_millis(200));
    }
    Ok(())
}

/// What the workers of a runtime counted: polls, and tasks that were scheduled from outside of them and by them. A worker adds what it
/// counted when it wakes, or ends.
#[derive(Debug, PartialEq, Eq)]
struct Counts {
    polls: u64,
    remote: u64,
    local: u64,
}

impl Counts {
    fn of(runtime: &Handle) -> Counts {
        let metrics = runtime.metrics();
        let workers = 0..metrics.num_workers();
        Counts {
            polls: workers.clone().map(|worker| metrics.worker_poll_count(worker)).sum(),
            remote: metrics.remote_schedule_count(),
            local: workers.map(|worker| metrics.worker_local_schedule_count(worker)).sum(),
        }
    }
}

fn main() -> Outcome<()> {
    taskscope_subscriber::init();

    let connections = std::env::args().nth(1).map_or(Ok(1000), |word| word.parse())?;
    let runtime = Runtime::new()?;
    let handle = runtime.handle().clone();
    let (sender, used) = oneshot::channel();
    runtime.block_on(async {
        let listener = TcpListener::bind("127.0.0.1:0").await?;
        let (address, of_clients) = (listener.local_addr()?, Handle::current());
        thread::spawn(move || sender.send(use_it(address, connections, &of_clients)));
        tokio::select! {
            served = serve(listener) => served,
            used = used => used?,
        }
    })?;
    drop(runtime);
    let Counts { polls, remote, local } = Counts::of(&handle);
    println!("polls {polls} remote {remote} local {local}");
    Ok(())
}
