//! Servers of tests, and what their readers hold.

// Each test file is a program of its own, and uses a part of these.
#![allow(dead_code)]

use crate::common::{number, value, Tables};
use std::io::{BufRead, BufReader, Read};
use std::net::TcpStream;
use std::os::unix::net::UnixStream;
use std::path::PathBuf;
use std::sync::atomic::{AtomicBool, AtomicUsize, Ordering};
use std::thread::sleep;
use std::time::{Duration, Instant};
use taskscope::{Address, Console, Limits, Server};

pub const OFTEN: Duration = Duration::from_millis(2);

/// A pause that no test waits for.
pub const LONG: Duration = Duration::from_secs(100);

/// A path of its own for each, in a folder for temporary files.
pub fn path() -> PathBuf {
    static LAST: AtomicUsize = AtomicUsize::new(0);
    let number = LAST.fetch_add(1, Ordering::Relaxed);
    std::env::temp_dir().join(format!("ts-{}-{number}", std::process::id()))
}

/// A server at a socket, for which the system keeps less than for a port.
pub fn start(console: &Console, limits: Limits) -> Server {
    Server::start(console, OFTEN, &Address::Unix(path()), limits).expect("a server at a socket")
}

pub fn start_port(console: &Console, every: Duration) -> Server {
    let any: Address = "tcp:127.0.0.1:0".parse().expect("an address");
    Server::start(console, every, &any, Limits::default()).expect("a server at a port")
}

/// A connection that has read nothing.
pub fn connect(server: &Server) -> Box<dyn Read + Send> {
    match server.address() {
        Address::Unix(path) => Box::new(UnixStream::connect(path).expect("it listens")),
        Address::Tcp(port) => Box::new(TcpStream::connect(port).expect("it listens")),
        other => panic!("{other} is neither"),
    }
}

pub fn until(what: &str, mut condition: impl FnMut() -> bool) {
    let started = Instant::now();
    while !condition() {
        assert!(started.elapsed() < Duration::from_secs(60), "it took more than a minute until {what}");
        sleep(Duration::from_millis(1));
    }
}

/// The tables that an uninterrupted stream leads to: the first line tells all, and numbers rise by one.
pub fn tables(lines: &str) -> Tables {
    let mut tables = Tables::default();
    let mut last = None;
    for line in lines.lines() {
        assert!(line.starts_with('{') && line.ends_with('}'), "a whole line: {line}");
        let seq = number(line, "seq");
        match last {
            None => assert_eq!(value(line, "snapshot"), "true", "the first line tells all: {line}"),
            Some(last) => assert_eq!(seq, last + 1, "no number is left out: {line}"),
        }
        last = Some(seq);
        tables.apply(line);
    }
    tables
}

pub fn ids(tables: &Tables) -> Vec<u64> {
    tables.items.get("task_stats").map_or(&[][..], |tasks| tasks).iter().map(|task| task.0).collect()
}

/// Reads to the end, as whole lines. What stands after the last of them is left out.
pub fn rest(mut reader: impl Read) -> String {
    let mut bytes = Vec::new();
    let _ = reader.read_to_end(&mut bytes);
    let end = bytes.iter().rposition(|&byte| byte == b'\n').map_or(0, |place| place + 1);
    String::from_utf8(bytes[..end].to_vec()).expect("text")
}

/// Reads up to the line that has this text.
pub fn read_to(reader: &mut impl BufRead, text: &str) -> String {
    let mut lines = String::new();
    let mut from = 0;
    while !lines[from..].contains(text) {
        from = lines.len();
        assert_ne!(reader.read_line(&mut lines).expect("a line"), 0, "the end came before {text}");
    }
    lines
}

/// Ends what other threads do until then, also when the test fails.
pub struct Ends<'a>(pub &'a AtomicBool);

impl Drop for Ends<'_> {
    fn drop(&mut self) {
        self.0.store(true, Ordering::SeqCst);
    }
}

pub type Joined = BufReader<Box<dyn Read + Send>>;

/// A reader that has read its first line, and the line.
pub fn join(server: &Server) -> (Joined, String) {
    let mut reader = BufReader::new(connect(server));
    let mut line = String::new();
    reader.read_line(&mut line).expect("a line");
    assert_eq!(value(&line, "snapshot"), "true", "the first line tells all: {line}");
    (reader, line)
}
