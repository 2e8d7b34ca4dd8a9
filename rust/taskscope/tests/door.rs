//! How readers come to a server: who may, how many, what a port answers, and what becomes of what they say.
#![cfg(unix)]

mod common;
#[path = "common/served.rs"]
mod served;

use common::value;
use served::{connect, ids, join, path, rest, start, start_port, tables, until, Ends, LONG, OFTEN};
use std::fs;
use std::io::{BufRead, BufReader, ErrorKind, Write};
use std::net::{Shutdown, SocketAddr, TcpStream};
use std::os::unix::fs::PermissionsExt;
use std::os::unix::net::{UnixListener, UnixStream};
use std::path::{Path, PathBuf};
use std::process::Command;
use std::sync::atomic::{AtomicBool, AtomicUsize, Ordering};
use std::sync::{PoisonError, RwLock, RwLockReadGuard};
use std::thread::{self, sleep};
use std::time::{Duration, Instant};
use taskscope::{Address, Console, Limits, Server, Settings, Task};

fn console() -> Console {
    Console::open(Settings::default())
}

fn start_at(path: &Path) -> std::io::Result<Server> {
    Server::start(&console(), OFTEN, &Address::Unix(path.to_owned()), Limits::default())
}

fn connect_port(server: &Server) -> TcpStream {
    match server.address() {
        Address::Tcp(port) => TcpStream::connect(port).expect("it listens"),
        other => panic!("{other} is no port"),
    }
}

/// Whether a child is being started: up to its own program it has a copy of each socket of this process, so that one which was
/// let go listens on for a moment.
static FORKS: RwLock<()> = RwLock::new(());

/// While this is held no test starts a child.
fn without_forks() -> RwLockReadGuard<'static, ()> {
    FORKS.read().unwrap_or_else(PoisonError::into_inner)
}

/// Runs a test of this name again, in a process of its own. The answer is whether this is it.
fn is_alone(name: &str) -> bool {
    const ALONE: &str = "TASKSCOPE_TEST_ALONE";
    if std::env::var_os(ALONE).map_or(false, |alone| alone == name) {
        return true;
    }
    let mut alone = Command::new(std::env::current_exe().expect("this program"));
    let begun = {
        let _forking = FORKS.write().unwrap_or_else(PoisonError::into_inner);
        alone.args(["--exact", name]).env(ALONE, name).spawn()
    };
    let status = begun.and_then(|mut child| child.wait()).expect("it runs");
    assert!(status.success(), "{name} by itself: {status}");
    false
}

#[test]
fn one_reader_too_many_is_sent_away() {
    let console = console();
    let server = start(&console, Limits::default());
    let task = console.task("stays").open();
    let readers: Vec<_> = (0..64).map(|_| join(&server)).collect();
    assert_eq!(rest(connect(&server)), "", "the 65th gets the end");
    assert_eq!((server.served().readers, server.served().refused), (64, 1), "and is counted");
    drop(readers);
    until("they are gone", || server.served().readers == 0);
    let (_, line) = join(&server);
    assert_eq!(ids(&tables(&line)), [task.id().value()], "then others may come");
    server.stop().expect("no fault");
}

fn descriptors() -> usize {
    fs::read_dir("/proc/self/fd").map_or(0, |descriptors| descriptors.count())
}

#[test]
fn ten_thousand_readers_that_come_and_go_leave_nothing_behind() {
    if !is_alone("ten_thousand_readers_that_come_and_go_leave_nothing_behind") {
        return;
    }
    let console = console();
    let server = start(&console, Limits::default());
    let path = match server.address() {
        Address::Unix(path) => path.clone(),
        other => panic!("{other} is no socket"),
    };
    let _task = console.task("stays").open();
    let before = descriptors();
    let mut most = 0;
    for round in 0..10_000 {
        let mut reader = UnixStream::connect(&path).expect("it listens");
        if round % 10 == 0 {
            let _ = reader.write_all(&[0xff; 1000]);
        }
        if round % 1_000 == 0 {
            most = most.max(descriptors());
            BufReader::new(reader).read_line(&mut String::new()).expect("a line");
        }
    }
    until("all are gone", || server.served().came == 10_000 && server.served().readers == 0);
    assert_eq!((descriptors(), server.served().waiting), (before, 0), "nothing is left");
    assert!(most < before + 80, "{most} descriptors were open, and {before} before");
    server.stop().expect("no fault");
    assert!(!path.exists(), "the socket is removed");
}

/// Says garbage for a while, as much as the system takes. Gives how much that was.
fn flood(mut says: impl Write) -> usize {
    let (garbage, started, mut said) = (vec![0xff; 1 << 20], Instant::now(), 0);
    while started.elapsed() < Duration::from_millis(300) {
        match says.write(&garbage) {
            Ok(count) => said += count,
            Err(_) => sleep(Duration::from_millis(1)),
        }
    }
    said
}

#[test]
fn of_what_a_reader_says_little_is_read() {
    let console = console();
    let task = console.task("stays").open();
    let port = start_port(&console, OFTEN);
    let says = connect_port(&port);
    says.set_nonblocking(true).expect("a socket");
    assert!(flood(says) > 1_000, "it is a flood");
    let (_, line) = join(&port);
    assert_eq!(ids(&tables(&line)), [task.id().value()], "another one is served");
    assert_eq!(port.served().readers, 1, "and the first is gone");
    port.stop().expect("no fault");
    // Of a socket nothing is read, and its reader gets lines.
    let server = start(&console, Limits::default());
    let stream = match server.address() {
        Address::Unix(path) => UnixStream::connect(path).expect("it listens"),
        other => panic!("{other} is no socket"),
    };
    stream.set_nonblocking(true).expect("a socket");
    let said = flood(&stream);
    assert!(said < 1 << 20, "{said} bytes: what the system keeps");
    stream.set_nonblocking(false).expect("a socket");
    let mut line = String::new();
    BufReader::new(stream).read_line(&mut line).expect("a line");
    assert_eq!(ids(&tables(&line)), [task.id().value()], "{line}");
    server.stop().expect("no fault");
}

#[test]
fn who_says_nothing_more_gets_lines_and_costs_no_time() {
    let console = console();
    let server = start_port(&console, LONG);
    let stream = connect_port(&server);
    stream.shutdown(Shutdown::Write).expect("a socket");
    let read = server.served().readings;
    let mut line = String::new();
    BufReader::new(&stream).read_line(&mut line).expect("a line");
    assert_eq!(value(&line, "snapshot"), "true", "{line}");
    sleep(Duration::from_millis(200));
    assert!(server.served().readings <= read + 2, "{:?}", server.served());
    server.stop().expect("no fault");
}

/// The head and the body of an answer.
fn ask(server: &Server, question: &str) -> (String, String) {
    let mut stream = connect_port(server);
    for part in question.as_bytes().chunks(7) {
        // It ends with who asks too much.
        if stream.write_all(part).is_err() {
            break;
        }
    }
    let mut bytes = Vec::new();
    let _ = std::io::Read::read_to_end(&mut stream, &mut bytes);
    let answer = String::from_utf8(bytes).expect("text");
    let (head, body) = answer.split_once("\r\n\r\n").unwrap_or((&answer, ""));
    (head.to_owned(), body.to_owned())
}

#[test]
fn a_port_answers_requests() {
    let console = console();
    let server = start_port(&console, OFTEN);
    let _task = console.task("stays").open();
    let (head, body) = ask(&server, "GET /snapshot HTTP/1.1\r\nHost: 127.0.0.1:6669\r\n\r\n");
    assert!(head.starts_with("HTTP/1.1 200 OK\r\n"), "{head}");
    assert_eq!((body.lines().count(), ids(&tables(&body)).len()), (1, 1), "one line that tells all: {body}");
    let (head, body) = ask(&server, "GET / HTTP/1.1\r\nHost: localhost\r\n\r\n");
    assert!(head.starts_with("HTTP/1.1 200 OK\r\n"), "{head}");
    for words in ["taskscope watch tcp:127.0.0.1:", "curl -sN http://127.0.0.1:", "/metrics  "] {
        assert!(body.contains(words), "it says what to type: {body}");
    }
    let cases = [
        ("GET /snapshot HTTP/1.1\r\nHost: evil.example\r\n\r\n", "HTTP/1.1 403 Forbidden"),
        ("GET /metrics HTTP/1.1\r\nHost: evil.example\r\n\r\n", "HTTP/1.1 403 Forbidden"),
        ("GET /other HTTP/1.1\r\nHost: localhost\r\n\r\n", "HTTP/1.1 404 Not Found"),
        ("POST /stream HTTP/1.1\r\nHost: localhost\r\n\r\n", "HTTP/1.1 405 Method Not Allowed"),
        ("xyz\n", "HTTP/1.1 405 Method Not Allowed"),
    ];
    for (question, status) in cases {
        assert_eq!(ask(&server, question).0.lines().next(), Some(status), "{question}");
    }
    let (head, _) = ask(&server, &format!("GET /{} HTTP/1.1\r\nHost: localhost\r\n\r\n", "x".repeat(20_000)));
    assert_eq!(head, "", "a request is 8 KiB at most");
    let mut stream = connect_port(&server);
    stream.write_all(b"GET /stream HTTP/1.0\n\n").expect("it listens");
    let mut reader = BufReader::new(stream);
    let mut line = String::new();
    while line != "\r\n" {
        line.clear();
        assert_ne!(reader.read_line(&mut line).expect("a head"), 0, "the head has an end");
    }
    line.clear();
    reader.read_line(&mut line).expect("a line");
    let _more = console.task("comes").open();
    server.stop().expect("no fault");
    line.push_str(&rest(reader));
    assert_eq!(ids(&tables(&line)).len(), 2, "lines follow, to the last one: {line}");
}

const SCRAPE: &str = "GET /metrics HTTP/1.1\r\nHost: localhost\r\n\r\n";

#[test]
fn a_port_gives_numbers_while_others_read_lines_or_none_do() {
    let console = Console::open(Settings::default().retention(Duration::ZERO));
    let server = start_port(&console, OFTEN);
    let _stays = console.task("stays").open();
    let mut readers = Vec::new();
    for round in 1..=6 {
        (0..10).for_each(|_| drop(console.task("goes").open()));
        let (head, body) = ask(&server, SCRAPE);
        assert!(head.starts_with("HTTP/1.1 200 OK\r\n"), "{head}");
        for line in
            ["Content-Type: text/plain; version=0.0.4; charset=utf-8", &format!("Content-Length: {}", body.len())]
        {
            assert!(head.lines().any(|other| other == line), "{line}: {head}");
        }
        assert!(body.starts_with("# TYPE ") && body.ends_with("# EOF\n"), "{body}");
        let clones = |line: &&str| line.starts_with("taskscope_task_polls_total{");
        assert_eq!(body.lines().filter(clones).count(), 2, "round {round}: two places: {body}");
        readers.push(join(&server));
    }
    server.stop().expect("no fault");
    for (reader, line) in readers {
        assert_eq!(ids(&tables(&(line + &rest(reader)))).len(), 1, "lines are whole, and what left has left");
    }
}

#[test]
fn who_asks_for_numbers_all_the_time_takes_a_part_of_the_time() {
    let console = console();
    let server = start_port(&console, LONG);
    let _stay: Vec<Task> =
        (0..500u32).map(|task| console.task("abcdefghij".repeat(1 + task as usize % 40)).open()).collect();
    let cost = (0..10).map(|_| {
        let started = Instant::now();
        assert!(console.metrics().is_ok());
        started.elapsed()
    });
    let cost = cost.min().expect("there is one");
    let (answers, started) = (AtomicUsize::new(0), Instant::now());
    thread::scope(|scope| {
        for _ in 0..8 {
            scope.spawn(|| {
                while started.elapsed() < Duration::from_secs(1) {
                    assert!(ask(&server, SCRAPE).1.ends_with("# EOF\n"), "each answer is whole");
                    answers.fetch_add(1, Ordering::SeqCst);
                }
            });
        }
    });
    let (made, answers) = (server.served().numbers as u32, answers.into_inner());
    let span = started.elapsed();
    // A quarter, and some more for a call that was quicker than all that were measured.
    assert!(cost * made < span / 3 + cost, "{made} of {cost:?} within {span:?}");
    assert!(answers > made as usize, "{answers} answers of {made}: those that wait share one");
    server.stop().expect("no fault");
}

#[test]
fn a_socket_is_its_owners_alone_at_each_moment() {
    if !is_alone("a_socket_is_its_owners_alone_at_each_moment") {
        return;
    }
    extern "C" {
        fn umask(mask: u32) -> u32;
    }
    // SAFETY: it takes a number.
    unsafe { umask(0) };
    let folder = path();
    fs::create_dir(&folder).expect("a folder");
    let (socket, ends) = (folder.join("socket"), AtomicBool::new(false));
    let (looked, open) = thread::scope(|scope| {
        let looks = scope.spawn(|| {
            let (mut looked, mut open) = (0, Vec::new());
            while !ends.load(Ordering::SeqCst) {
                for entry in fs::read_dir(&folder).expect("a folder").flatten() {
                    if let Ok(metadata) = fs::symlink_metadata(entry.path()) {
                        looked += 1;
                        if metadata.permissions().mode() & 0o077 != 0 {
                            open.push((entry.path(), metadata.permissions().mode()));
                        }
                    }
                }
            }
            (looked, open)
        });
        let stop = Ends(&ends);
        for _ in 0..200 {
            start_at(&socket).expect("a socket").stop().expect("no fault");
        }
        drop(stop);
        looks.join().expect("no panic")
    });
    let left: Vec<PathBuf> = fs::read_dir(&folder).expect("a folder").flatten().map(|entry| entry.path()).collect();
    let _ = fs::remove_dir_all(&folder);
    assert!(looked > 200, "{looked} looks");
    assert_eq!(open, [], "what others may use");
    assert!(left.is_empty(), "nothing is left: {left:?}");
}

#[test]
fn a_socket_takes_the_place_of_nobodys_file() {
    let _forks = without_forks();
    let path = path();
    drop(UnixListener::bind(&path).expect("a socket"));
    let server = start_at(&path).expect("a socket that was left behind is made anew");
    assert_eq!(fs::metadata(&path).expect("a socket").permissions().mode() & 0o777, 0o600, "its owner's alone");
    let error = start_at(&path).expect_err("it is in use");
    assert_eq!(error.kind(), ErrorKind::AddrInUse, "{error}");
    assert!(error.to_string().starts_with(&format!("unix:{}: ", path.display())), "{error}");
    let mut line = String::new();
    BufReader::new(UnixStream::connect(&path).expect("it listens")).read_line(&mut line).expect("a line");
    assert_eq!(value(&line, "snapshot"), "true", "{line}");
    // What another one put there stays.
    fs::remove_file(&path).expect("a socket");
    fs::write(&path, "a file").expect("a file");
    server.stop().expect("no fault");
    let error = start_at(&path).expect_err("there is a file");
    assert_eq!(error.kind(), ErrorKind::AlreadyExists, "{error}");
    assert_eq!(fs::read_to_string(&path).expect("it stays"), "a file", "it is as it was");
    fs::remove_file(&path).expect("a file");
    let long = std::env::temp_dir().join("x".repeat(120));
    assert_eq!(start_at(&long).expect_err("it is too long").kind(), ErrorKind::InvalidInput, "120 bytes");
    let none = path.join("none");
    assert_eq!(start_at(&none).expect_err("there is no folder").kind(), ErrorKind::NotFound, "no folder");
}

#[test]
fn of_programs_that_start_together_one_gets_a_socket_that_was_left_behind() {
    let _forks = without_forks();
    for round in 0..30 {
        let path = path();
        drop(UnixListener::bind(&path).expect("a socket"));
        let started: Vec<_> = thread::scope(|scope| {
            let starts: Vec<_> = (0..4).map(|_| scope.spawn(|| start_at(&path))).collect();
            starts.into_iter().filter_map(|start| start.join().expect("no panic").ok()).collect()
        });
        assert_eq!(started.len(), 1, "round {round}");
        UnixStream::connect(&path).expect("that one is found");
    }
}

#[test]
fn other_machines_are_let_in_by_name_alone() {
    let start = |address: &str, limits| {
        Server::start(&console(), OFTEN, &address.parse().expect("an address"), limits)
            .map(|server| server.address().clone())
    };
    for address in ["tcp:0.0.0.0:0", "tcp:[::]:0", "tcp:10.0.0.1:0"] {
        let error = start(address, Limits::default()).expect_err("other machines reach it");
        assert_eq!(error.kind(), ErrorKind::PermissionDenied, "{error}");
    }
    assert!(start("tcp:0.0.0.0:0", Limits::default().beyond_loopback(true)).is_ok(), "it was allowed");
    let own = start("tcp:localhost:0", Limits::default()).expect("it is this machine");
    assert!(matches!(own, Address::Tcp(port) if port.ip().is_loopback() && port.port() > 0), "{own}");
    let console = console();
    let error = Server::start(&console, Duration::ZERO, &own, Limits::default()).expect_err("an interval of 0");
    assert_eq!(error.kind(), ErrorKind::InvalidInput, "{error}");
    // What can't be started leaves the console to others.
    assert!(console.publish().is_ok(), "nothing publishes its lines");
}

#[test]
fn addresses_are_read_as_they_are_written() {
    for text in ["unix:/run/service.tasks", "unix:relative path", "tcp:127.0.0.1:6669", "tcp:[::1]:6669"] {
        assert_eq!(text.parse::<Address>().expect(text).to_string(), text, "{text}");
    }
    let localhost: Address = "tcp:localhost:1".parse().expect("it is a name of this machine");
    assert_eq!(localhost, Address::from(SocketAddr::from(([127, 0, 0, 1], 1))), "IPv4 comes first");
    for text in ["", "unix:", "tcp:", "tcp:6669", "127.0.0.1:6669", "tcp:127.0.0.1:65536", "udp:127.0.0.1:1"] {
        assert!(text.parse::<Address>().is_err(), "{text:?}");
    }
}

#[test]
fn a_port_is_had_again_at_once() {
    let _forks = without_forks();
    let first = start_port(&console(), OFTEN);
    let address = first.address().clone();
    let (_reader, line) = join(&first);
    assert_eq!(ids(&tables(&line)), [0; 0], "no tasks");
    first.stop().expect("no fault");
    let console = console();
    let task: Task = console.task("of the second").open();
    let second = Server::start(&console, OFTEN, &address, Limits::default()).expect("it is free again");
    let (_, line) = join(&second);
    assert_eq!(ids(&tables(&line)), [task.id().value()], "{line}");
}
