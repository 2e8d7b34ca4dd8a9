//! Where lines go: files, pipes and sockets, readers that come late, that go away and that don't read, and a full disk.

mod common;
#[path = "common/program.rs"]
mod program;

use common::{number, value};
use program::{command, names, said, until, Folder, PROGRAM};
use std::fs::{self, File};
use std::io::{BufRead, BufReader, ErrorKind, Read, Write};
use std::net::{TcpListener, TcpStream};
use std::os::unix::net::{UnixListener, UnixStream};
use std::path::Path;
use std::process::{Command, Stdio};
use std::thread::sleep;
use std::time::{Duration, Instant};
use taskscope_subscriber::{Builder, Guard, Limits, Output, Rootless, TaskscopeLayer};
use tracing_subscriber::layer::SubscriberExt;

const OFTEN: Duration = Duration::from_millis(2);

fn start(output: Output) -> (TaskscopeLayer, Guard) {
    Builder::new().interval(OFTEN).layer(output).expect("it can be opened")
}

/// Runs a task of a name under a layer.
fn run(layer: TaskscopeLayer, name: &str) -> tracing::Dispatch {
    let subscriber = tracing::Dispatch::new(Rootless(tracing_subscriber::registry().with(layer)));
    run_more(&subscriber, name);
    subscriber
}

fn run_more(subscriber: &tracing::Dispatch, name: &str) {
    tracing::dispatcher::with_default(subscriber, || {
        let runtime = tokio::runtime::Builder::new_current_thread().build().expect("a runtime");
        let spawn = || tokio::task::Builder::new().name(name).spawn(async {}).expect("a runtime");
        runtime.block_on(async { spawn().await.expect("no panic") });
    });
}

/// Reads lines until they have this text.
fn read_until(reader: &mut impl BufRead, text: &str) -> String {
    let mut lines = String::new();
    while !lines.contains(text) {
        assert_ne!(reader.read_line(&mut lines).expect("a line"), 0, "the end before {text}");
    }
    lines
}

/// A reader of a pipe that came once no other one was there, and its first line.
fn read_pipe(path: &Path) -> (BufReader<File>, String) {
    loop {
        let mut reader = BufReader::new(File::open(path).expect("a writer comes"));
        let mut line = String::new();
        reader.read_line(&mut line).expect("a line");
        // That the reader before is gone, the program learns before its next line.
        if line.contains("\"snapshot\":true") {
            return (reader, line);
        }
        drop(reader);
        sleep(Duration::from_millis(50));
    }
}

#[test]
fn a_file_has_all_lines_and_a_last_one() {
    let folder = Folder::new();
    let path = folder.path("stream");
    let (layer, guard) = start(Output::File(path.clone()));
    until(|| fs::read_to_string(&path).expect("a file").lines().count() > 2);
    run(layer, "told last");
    guard.finish();
    let lines = fs::read_to_string(&path).expect("a file");
    assert_eq!(names(&lines), ["told last"]);
    assert_eq!(value(lines.lines().next().expect("a line"), "snapshot"), "false");
    sleep(OFTEN * 4);
    assert_eq!(fs::read_to_string(&path).expect("a file").len(), lines.len());
}

#[test]
fn a_pipe_is_read_late_and_again() {
    let folder = Folder::new();
    let path = folder.pipe();
    let (layer, guard) = start(Output::Pipe(path.clone()));
    let subscriber = run(layer, "before");
    sleep(OFTEN * 4);
    for name in ["first reader", "second reader"] {
        let (mut reader, mut lines) = read_pipe(&path);
        assert!(names(&lines).contains(&"before".to_owned()), "{lines}");
        run_more(&subscriber, name);
        lines.push_str(&read_until(&mut reader, name));
        assert!(names(&lines).contains(&name.to_owned()));
    }
    let (mut reader, mut lines) = read_pipe(&path);
    run_more(&subscriber, "told last");
    guard.finish();
    reader.read_to_string(&mut lines).expect("lines");
    assert_eq!(names(&lines), ["before", "first reader", "second reader", "told last"]);
}

#[test]
fn readers_of_a_socket_come_late_and_go() {
    let folder = Folder::new();
    let path = folder.path("socket");
    let (layer, guard) = start(Output::Socket(path.clone()));
    let subscriber = run(layer, "before");
    let connect = || BufReader::new(UnixStream::connect(&path).expect("it listens"));
    let mut stays = connect();
    let mut of_stays = read_until(&mut stays, "before");
    assert_eq!(value(&of_stays, "snapshot"), "true");
    let mut goes = connect();
    let of_goes = read_until(&mut goes, "before");
    assert_eq!(value(&of_goes, "snapshot"), "true");
    drop(goes);
    run_more(&subscriber, "told last");
    sleep(OFTEN * 4);
    guard.finish();
    stays.read_to_string(&mut of_stays).expect("lines");
    assert_eq!(names(&of_stays), ["before", "told last"]);
    drop(guard);
    until(|| !path.exists());
}

#[test]
fn readers_of_a_port_come_late_and_go() {
    // A port that is free, as it was had just now.
    let port = TcpListener::bind("127.0.0.1:0").and_then(|port| port.local_addr()).expect("a port");
    let (layer, guard) = start(Output::Port(port));
    let subscriber = run(layer, "before");
    let connect = || BufReader::new(TcpStream::connect(port).expect("it listens"));
    let mut stays = connect();
    let mut of_stays = read_until(&mut stays, "before");
    assert_eq!(value(&of_stays, "snapshot"), "true", "{of_stays}");
    drop(connect());
    let mut asks = TcpStream::connect(port).expect("it listens");
    asks.write_all(b"GET /snapshot HTTP/1.1\r\nHost: localhost\r\n\r\n").expect("it listens");
    let mut answer = String::new();
    asks.read_to_string(&mut answer).expect("an answer");
    assert!(answer.starts_with("HTTP/1.1 200 OK\r\n"), "{answer}");
    assert_eq!(names(answer.lines().last().expect("a line")), ["before"], "{answer}");
    run_more(&subscriber, "told last");
    guard.finish();
    stays.read_to_string(&mut of_stays).expect("lines");
    assert_eq!(names(&of_stays), ["before", "told last"], "{of_stays}");
    let everywhere = Output::Port(([0, 0, 0, 0], 0).into());
    let refused = Builder::new().layer(everywhere.clone()).expect_err("other machines reach it");
    assert_eq!(refused.kind(), ErrorKind::PermissionDenied, "{refused}");
    let allowed = Builder::new().limits(Limits::default().beyond_loopback(true)).layer(everywhere);
    assert!(allowed.is_ok(), "it was allowed in code");
}

#[test]
fn a_port_is_named_by_a_word_and_makes_no_file() {
    let folder = Folder::new();
    let port = TcpListener::bind("127.0.0.1:0").and_then(|port| port.local_addr()).expect("a port");
    let word = format!("tcp:{port}");
    let mut child = command("", "long", &[("TASKSCOPE_STREAM", Path::new(&word))])
        .current_dir(folder.path("."))
        .spawn()
        .expect("it runs");
    until(|| TcpStream::connect(port).is_ok());
    let line = read_until(&mut BufReader::new(TcpStream::connect(port).expect("it listens")), "first");
    assert_eq!(value(&line, "snapshot"), "true", "{line}");
    assert_eq!(child.wait().expect("it ends").code(), Some(7), "the status of the program");
    assert!(!folder.path(&word).exists(), "a file has the name {word}");
}

#[test]
fn a_first_line_comes_at_once_however_long_the_interval() {
    let folder = Folder::new();
    let path = folder.path("socket");
    let started = Instant::now();
    let hour = Builder::new().interval(Duration::from_secs(3600));
    let (_layer, _guard) = hour.layer(Output::Socket(path.clone())).expect("it can be opened");
    let mut reader = BufReader::new(UnixStream::connect(&path).expect("it listens"));
    let mut line = String::new();
    reader.read_line(&mut line).expect("a line");
    assert!(started.elapsed() < Duration::from_secs(30), "it came after {:?}", started.elapsed());
    assert_eq!(value(&line, "snapshot"), "true", "{line}");
}

#[test]
fn a_reader_that_does_not_read_holds_nobody_up() {
    let folder = Folder::new();
    let path = folder.path("socket");
    let (layer, guard) = start(Output::Socket(path.clone()));
    let _stalled = UnixStream::connect(&path).expect("it listens");
    let mut reads = BufReader::new(UnixStream::connect(&path).expect("it listens"));
    let subscriber = run(layer, "before");
    // More than the buffers of a socket hold.
    for round in 0..200 {
        run_more(&subscriber, &format!("{round} {}", "x".repeat(1000)));
        sleep(Duration::from_millis(1));
    }
    run_more(&subscriber, "told last");
    let lines = read_until(&mut reads, "told last");
    assert_eq!(names(&lines).len(), 202);
    let started = Instant::now();
    guard.finish();
    assert!(started.elapsed() < Duration::from_secs(10), "{:?}", started.elapsed());
}

#[test]
fn a_socket_that_was_left_behind_is_made_anew_and_one_in_use_is_not() {
    let folder = Folder::new();
    let path = folder.path("socket");
    drop(UnixListener::bind(&path).expect("a socket"));
    let (_layer, _guard) = start(Output::Socket(path.clone()));
    let error = Builder::new().layer(Output::Socket(path)).expect_err("it is in use");
    assert_eq!(error.kind(), ErrorKind::AddrInUse);
}

#[test]
fn what_can_not_be_opened_is_an_error() {
    let folder = Folder::new();
    let file = folder.path("file");
    File::create(&file).expect("a file");
    let outputs = [
        (Output::File(folder.path("none/file")), ErrorKind::NotFound),
        (Output::Pipe(folder.path("none")), ErrorKind::NotFound),
        (Output::Pipe(file), ErrorKind::InvalidInput),
        (Output::Socket(folder.path("none/socket")), ErrorKind::NotFound),
    ];
    for (output, kind) in outputs {
        assert_eq!(Builder::new().layer(output.clone()).expect_err("it can't").kind(), kind, "{output:?}");
    }
}

// What follows runs this program again, as one that a variable inspects.

/// The program, where it is asked for by the variable. It ends by `exit`.
#[test]
fn program() {
    let how = match std::env::var(PROGRAM) {
        Ok(how) => how,
        Err(_) => return,
    };
    taskscope_subscriber::init();
    let runtime =
        tokio::runtime::Builder::new_multi_thread().worker_threads(2).enable_all().build().expect("a runtime");
    runtime.block_on(async {
        let spawn = |name| tokio::task::Builder::new().name(name).spawn(std::future::ready(())).expect("a runtime");
        spawn("first").await.expect("no panic");
        let pause = if how == "long" { 2500 } else { 30 };
        // So that each line has something to tell.
        tokio::spawn(async {
            loop {
                tokio::time::sleep(Duration::from_millis(1)).await;
            }
        });
        tokio::time::sleep(Duration::from_millis(pause)).await;
        spawn("told last").await.expect("no panic");
    });
    std::process::exit(7);
}

#[test]
fn an_exit_writes_a_last_line() {
    let folder = Folder::new();
    let path = folder.path("stream");
    let said = said(command("", "short", &[("TASKSCOPE_STREAM", &path)]));
    assert_eq!(names(&fs::read_to_string(&path).expect("a file")), ["first", "told last"], "{said}");
}

#[test]
fn without_a_stream_nothing_is_said_and_a_wrong_value_is() {
    assert_eq!(said(command("", "short", &[])), "");
    let folder = Folder::new();
    let path = folder.path("stream");
    let wrong = ("TASKSCOPE_ITEMS", Path::new("some"));
    let said = said(command("", "short", &[("TASKSCOPE_STREAM", &path), wrong]));
    let wanted = "taskscope: nothing is inspected: TASKSCOPE_ITEMS is `all` or `tasks`, and not \"some\"\n";
    assert_eq!(said, wanted);
    assert!(!path.exists());
}

#[test]
fn standard_error_has_lines_alone() {
    let said = said(command("", "short", &[("TASKSCOPE_STREAM", Path::new("stderr"))]));
    assert_eq!(names(&said), ["first", "told last"]);
}

#[test]
fn a_reader_that_goes_away_is_no_alarm() {
    let folder = Folder::new();
    let path = folder.pipe();
    // SIGPIPE ends a program that doesn't ignore it.
    let child = command("", "long", &[("TASKSCOPE_STREAM", &path)]).stderr(Stdio::piped()).spawn().expect("it runs");
    drop(read_pipe(&path));
    drop(read_pipe(&path));
    let output = child.wait_with_output().expect("it ends");
    assert_eq!((output.status.code(), output.stderr), (Some(7), Vec::new()), "a pipe");
    let socket = folder.path("socket");
    let words = format!("unix:{}", socket.display());
    let variables = [("TASKSCOPE_STREAM", Path::new(&words))];
    let child = command("", "long", &variables).stderr(Stdio::piped()).spawn().expect("it runs");
    until(|| socket.exists());
    for turn in 0..3 {
        let mut reader = BufReader::new(UnixStream::connect(&socket).expect("it listens"));
        assert_ne!(reader.read_line(&mut String::new()).expect("a line"), 0, "reader {turn}");
    }
    let output = child.wait_with_output().expect("it ends");
    assert_eq!((output.status.code(), output.stderr), (Some(7), Vec::new()), "a socket");
    assert!(!socket.exists(), "the socket is removed at the exit");
}

#[test]
fn a_full_disk_is_said_once() {
    let said = said(command("", "short", &[("TASKSCOPE_STREAM", Path::new("/dev/full"))]));
    assert_eq!(said.matches("/dev/full: ").count(), 1, "{said}");
    assert!(said.contains("the stream has ended"), "{said}");
}

#[test]
fn a_file_that_can_not_grow_has_whole_lines_and_goes_on_with_all() {
    let folder = Folder::new();
    let path = folder.path("stream");
    // A write after so many blocks of 512 bytes brings SIGXFSZ, which ends a program.
    let mut command = command("ulimit -S -f 32 &&", "long", &[("TASKSCOPE_STREAM", &path)]);
    let child = command.stderr(Stdio::piped()).spawn().expect("it runs");
    let lines = || fs::read_to_string(&path).unwrap_or_default();
    // It grows no more, as the next line doesn't fit.
    until(|| {
        let before = lines().len();
        sleep(Duration::from_millis(200));
        before > 10_000 && lines().len() == before
    });
    let limited = lines();
    assert!(limited.len() <= 16_384 && limited.ends_with("}\n") && names(&limited) == ["first"], "{limited}");
    let unlimited = ["--fsize=unlimited", "--pid", &child.id().to_string()];
    assert!(Command::new("prlimit").args(unlimited).status().expect("prlimit").success());
    let output = child.wait_with_output().expect("it ends");
    assert_eq!(output.status.code(), Some(7));
    let said = String::from_utf8(output.stderr).expect("text");
    assert_eq!(said.matches("the stream goes on when there is room").count(), 1, "{said}");
    let all = lines();
    let after = &all[limited.len()..];
    assert!(all.starts_with(&limited) && after.contains("\"snapshot\":true"), "{all}");
    // It goes on under the number of the line that was lost.
    let last_before = number(limited.lines().last().expect("a line"), "seq");
    assert_eq!(number(after.lines().next().expect("a line"), "seq"), last_before + 1, "{all}");
    assert_eq!(names(&all), ["first", "told last"]);
}
