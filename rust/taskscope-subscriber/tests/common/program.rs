//! Folders, streams, and programs that tests run: a test file runs itself again, as a program that variables inspect.

// Each test file is a program of its own, and uses a part of these.
#![allow(dead_code)]

use crate::common::{number, value, Tables};
use std::fs;
use std::path::{Path, PathBuf};
use std::process::Command;
use std::sync::atomic::{AtomicUsize, Ordering};
use std::thread::sleep;
use std::time::{Duration, Instant};

/// A folder that is removed with what it has.
pub struct Folder(PathBuf);

impl Folder {
    pub fn new() -> Folder {
        static LAST: AtomicUsize = AtomicUsize::new(0);
        let number = LAST.fetch_add(1, Ordering::Relaxed);
        let path = std::env::temp_dir().join(format!("taskscope-outputs-{}-{number}", std::process::id()));
        fs::create_dir(&path).expect("a folder");
        Folder(path)
    }

    pub fn path(&self, name: &str) -> PathBuf {
        self.0.join(name)
    }

    pub fn pipe(&self) -> PathBuf {
        let path = self.path("pipe");
        assert!(Command::new("mkfifo").arg(&path).status().expect("mkfifo").success());
        path
    }
}

impl Drop for Folder {
    fn drop(&mut self) {
        let _ = fs::remove_dir_all(&self.0);
    }
}

/// The names of the tasks that lines lead to. Each line is whole, and the numbers of lines follow each other.
pub fn names(lines: &str) -> Vec<String> {
    let mut tables = Tables::default();
    let mut last = None;
    for line in lines.lines() {
        assert!(line.starts_with('{') && line.ends_with('}'), "{line}");
        let seq = number(line, "seq");
        // A reader takes no other number, also where the line tells all.
        assert!(last.map_or(true, |last| seq == last + 1), "after {last:?} comes {line}");
        last = Some(seq);
        tables.apply(line);
    }
    let tasks = tables.items.get("task_stats").map_or(&[][..], |tasks| tasks);
    let names = tasks.iter().map(|(_, info, _)| value(info, "name").trim_matches('"').to_owned());
    // The others have places for names.
    names.filter(|name| !name.contains(".rs:")).collect()
}

pub fn until(condition: impl Fn() -> bool) {
    let started = Instant::now();
    while !condition() {
        assert!(started.elapsed() < Duration::from_secs(60), "it took more than a minute");
        sleep(Duration::from_millis(1));
    }
}

/// The variable that says how the program runs. Where it isn't there, `program` of a test file is no program.
pub const PROGRAM: &str = "TASKSCOPE_TEST_PROGRAM";

/// The program with these variables, started by a shell after its words.
pub fn command(shell: &str, how: &str, variables: &[(&str, &Path)]) -> Command {
    let program = std::env::current_exe().expect("this program");
    let mut command = Command::new("sh");
    command.args(["-c", &format!("{shell} exec \"$0\" --exact program --nocapture")]).arg(program);
    command.env(PROGRAM, how).env("TASKSCOPE_INTERVAL_MS", "5").env_remove("RUST_TEST_THREADS");
    command.envs(variables.iter().copied());
    command
}

/// Runs it to its end, and answers what it said on standard output and on standard error.
pub fn ran(mut command: Command) -> (String, String) {
    let output = command.output().expect("it runs");
    assert_eq!(output.status.code(), Some(7), "{output:?}");
    let text = |bytes| String::from_utf8(bytes).expect("text");
    (text(output.stdout), text(output.stderr))
}

/// Runs it to its end, and answers what it said on standard error.
pub fn said(command: Command) -> String {
    ran(command).1
}
