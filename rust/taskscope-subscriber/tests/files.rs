//! What a file has: the lines of one process, a stream that was there before under another name, no more than so many bytes, and no
//! lines in which nothing changed.

mod common;
#[path = "common/program.rs"]
mod program;

use common::{list, number, value, Tables};
use program::{command, names, said, until, Folder, PROGRAM};
use std::fs;
use std::path::{Path, PathBuf};
use std::process::Stdio;
use std::thread::sleep;
use std::time::{Duration, Instant};
use taskscope_subscriber::{Builder, Guard, Output, Rootless};
use tracing::dispatcher::{with_default, Dispatch};
use tracing_subscriber::layer::SubscriberExt;

const OFTEN: Duration = Duration::from_millis(2);

fn read(path: &Path) -> String {
    fs::read_to_string(path).expect("a file")
}

/// A file's name with `.1` after it.
fn older(path: &Path) -> PathBuf {
    PathBuf::from(format!("{}.1", path.display()))
}

/// A layer that tells a file what runs.
struct Inspected {
    subscriber: Dispatch,
    guard: Guard,
}

impl Inspected {
    fn start(builder: Builder, path: &Path) -> Inspected {
        let (layer, guard) = builder.layer(Output::File(path.to_owned())).expect("it can be opened");
        Inspected { subscriber: Dispatch::new(Rootless(tracing_subscriber::registry().with(layer))), guard }
    }

    /// Runs a task of each of these names.
    fn run<'a>(&self, names: impl IntoIterator<Item = &'a str>) {
        with_default(&self.subscriber, || {
            let runtime = tokio::runtime::Builder::new_current_thread().build().expect("a runtime");
            runtime.block_on(async {
                for name in names {
                    let task = tokio::task::Builder::new().name(name).spawn(async {}).expect("a runtime");
                    task.await.expect("no panic");
                }
            });
        });
    }
}

// What follows runs this program again, as one that a variable inspects.

/// The variable with the path of a file for which the program waits.
const UNTIL: &str = "TASKSCOPE_TEST_UNTIL";

/// The program, where it is asked for by the variable. It ends by `exit`.
#[test]
fn program() {
    let how = match std::env::var(PROGRAM) {
        Ok(how) => how,
        Err(_) => return,
    };
    taskscope_subscriber::init();
    let runtime = tokio::runtime::Builder::new_current_thread().enable_all().build().expect("a runtime");
    runtime.block_on(async {
        let spawn = |name| tokio::task::Builder::new().name(name).spawn(std::future::ready(())).expect("a runtime");
        spawn(&how).await.expect("no panic");
        if let Some(path) = std::env::var_os(UNTIL) {
            until(|| Path::new(&path).exists());
            spawn("told last").await.expect("no panic");
        }
    });
    std::process::exit(7);
}

#[test]
fn a_stream_that_stands_there_is_kept_once() {
    let folder = Folder::new();
    let path = folder.path("stream");
    let mut last = None;
    for how in ["first", "second", "third"] {
        assert_eq!(said(command("", how, &[("TASKSCOPE_STREAM", &path)])), "", "{how}");
        assert_eq!(names(&read(&path)), [how]);
        if let Some(last) = last.replace(read(&path)) {
            assert_eq!(read(&older(&path)), last, "what stood there before {how}");
        }
    }
    assert_eq!(
        fs::read_dir(path.parent().expect("a folder")).expect("a folder").count(),
        2,
        "the stream and the older one"
    );
}

#[test]
fn the_stream_of_another_process_is_left_alone() {
    let folder = Folder::new();
    let path = folder.path("stream");
    let goes_on = folder.path("goes on");
    let variables = [("TASKSCOPE_STREAM", path.as_path()), (UNTIL, goes_on.as_path())];
    let first = command("", "first", &variables).stderr(Stdio::piped()).spawn().expect("it runs");
    until(|| fs::read_to_string(&path).map_or(false, |lines| lines.contains("\"first\"")));
    let second = said(command("", "second", &variables[..1]));
    fs::write(goes_on, "").expect("a file");
    let wanted =
        format!("taskscope: nothing is inspected: {}: another process writes its stream there", path.display());
    assert!(second.starts_with(&wanted) && second.contains("`%p`"), "{second}");
    assert_eq!(first.wait_with_output().expect("it ends").status.code(), Some(7));
    assert_eq!(names(&read(&path)), ["first", "told last"]);
    assert!(!older(&path).exists(), "nothing was kept");
}

#[test]
fn each_process_has_a_file_of_its_id() {
    let folder = Folder::new();
    let path = folder.path("stream-%p.%p");
    let start = |how| command("", how, &[("TASKSCOPE_STREAM", &path)]).spawn().expect("it runs");
    for (how, mut child) in [("first", start("first")), ("second", start("second"))] {
        let id = child.id();
        assert_eq!(child.wait().expect("it ends").code(), Some(7), "{how}");
        assert_eq!(names(&read(&folder.path(&format!("stream-{id}.{id}")))), [how]);
    }
}

// What a Builder says.

#[test]
fn a_full_file_begins_anew_with_a_line_that_tells_all() {
    const MOST: u64 = 20_000;
    let folder = Folder::new();
    let path = folder.path("stream");
    let inspected = Inspected::start(Builder::new().interval(OFTEN).max_bytes(MOST), &path);
    let mut wanted = Vec::new();
    let mut begun = 0;
    // A file with a limit has more than one line of these names, so that it is full sometimes after it was begun.
    while begun < 3 {
        let is_older = older(&path).exists();
        let before = if is_older { read(&older(&path)) } else { String::new() };
        let name = format!("task {}", wanted.len());
        inspected.run([name.as_str()]);
        wanted.push(name);
        sleep(OFTEN * 2);
        begun += u32::from(older(&path).exists() && read(&older(&path)) != before);
        assert!(wanted.len() < 2_000, "it is full by now");
    }
    inspected.run(["told last"]);
    wanted.push("told last".to_owned());
    inspected.guard.finish();
    let lines = read(&path);
    assert!(lines.lines().next().expect("a line").contains("\"snapshot\":true"), "the first line tells all");
    assert_eq!(names(&lines), wanted, "a reader takes it from its first byte");
    let full = read(&older(&path));
    let last_len = full.lines().last().expect("a line").len() as u64 + 1;
    let (len, first_len) = (full.len() as u64, full.lines().next().expect("a line").len() as u64 + 1);
    let limit = MOST.max(2 * first_len);
    assert!(len >= limit && len - last_len < limit, "{len} bytes, of which the last line has {last_len}, for {limit}");
    assert_eq!(names(&full), wanted[..names(&full).len()], "the older one too");
}

#[test]
fn at_least_half_of_a_file_is_no_line_that_tells_all() {
    let folder = Folder::new();
    let path = folder.path("stream");
    let inspected = Inspected::start(Builder::new().interval(OFTEN).max_bytes(1), &path);
    for number in 0..100 {
        inspected.run([format!("task {number}").as_str()]);
        sleep(OFTEN);
    }
    inspected.guard.finish();
    let full = read(&older(&path));
    let first_len = full.lines().next().expect("a line").len() + 1;
    assert!(full.len() >= 2 * first_len, "{} bytes with a first line of {first_len}", full.len());
}

#[test]
fn nothing_is_written_while_nothing_changes_but_once_in_a_second() {
    let folder = Folder::new();
    let path = folder.path("stream");
    let started = Instant::now();
    let inspected = Inspected::start(Builder::new().interval(OFTEN), &path);
    let lines = || read(&path).lines().count();
    until(|| lines() >= 3);
    // The first line, and one each second from then on.
    let (lines, seconds) = (lines(), started.elapsed().as_secs() as usize);
    assert!(lines <= 1 + seconds, "{lines} lines in {seconds} seconds");
    inspected.run(["told at once"]);
    until(|| read(&path).contains("told at once"));
    inspected.guard.finish();
    assert_eq!(names(&read(&path)), ["told at once"]);
}

#[test]
fn a_line_comes_before_a_recorder_is_full() {
    let folder = Folder::new();
    let path = folder.path("stream");
    let hour = Duration::from_secs(3600);
    let inspected = Inspected::start(Builder::new().interval(hour).capacity(200), &path);
    // By one thread. Less than half of what a recorder holds may wait for the next line, and with one more round it isn't full.
    for round in 1..=20 {
        inspected.run(std::iter::repeat("one of many").take(60));
        until(|| read(&path).matches("one of many").count() + 100 > 60 * round);
    }
    inspected.guard.finish();
    let mut tables = Tables::default();
    tables.apply(&read(&path));
    assert_eq!(tables.dropped, "0,0,0");
    assert_eq!(names(&read(&path)).len(), 20 * 60);
}

#[test]
fn the_longest_interval_waits_for_the_end() {
    let folder = Folder::new();
    let path = folder.path("stream");
    let inspected = Inspected::start(Builder::new().interval(Duration::MAX), &path);
    inspected.run(["before"]);
    until(|| read(&path).lines().count() == 1);
    sleep(Duration::from_millis(50));
    inspected.run(["after"]);
    inspected.guard.finish();
    let lines = read(&path);
    assert_eq!(lines.lines().count(), 2, "the first and the last: {lines}");
    assert_eq!(names(&lines), ["before", "after"]);
    let last = lines.lines().last().expect("a line");
    assert_eq!((number(last, "seq"), value(last, "snapshot")), (2, "false"));
    assert!(!list(last, "task_stats").is_empty());
}

#[test]
fn an_interval_of_0_is_refused() {
    let folder = Folder::new();
    let path = folder.path("stream");
    let refused = Builder::new().interval(Duration::ZERO).layer(Output::File(path.clone()));
    assert_eq!(refused.expect_err("it is 0").kind(), std::io::ErrorKind::InvalidInput);
    let variables = [("TASKSCOPE_STREAM", path.as_path()), ("TASKSCOPE_INTERVAL_MS", Path::new("0"))];
    let wanted = "taskscope: nothing is inspected: TASKSCOPE_INTERVAL_MS is a number above 0, and not \"0\"\n";
    assert_eq!(said(command("", "first", &variables)), wanted);
    assert!(!path.exists(), "nothing was opened");
}
