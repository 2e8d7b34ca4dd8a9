//! Programs that are set up right or wrong: beside logs, before them and after them, with filters, and with outputs that are none. What
//! is wrong is said once, with what to do.

mod common;
#[path = "common/program.rs"]
mod program;

use program::{command, names, ran, Folder, PROGRAM};
use std::fs;
use std::path::Path;
use taskscope_subscriber::{Builder, Output, Rootless};
use tracing::info;
use tracing_subscriber::prelude::*;
use tracing_subscriber::{fmt, EnvFilter};

/// Makes the subscriber of the program, and answers what it has to hold until its end.
fn set_up(how: &str) -> Box<dyn std::any::Any> {
    let layer = || {
        let stream = std::env::var_os("TASKSCOPE_STREAM").expect("the test says it");
        Builder::new().layer(Output::File(stream.into())).expect("it can be opened")
    };
    let info = || EnvFilter::new("info");
    match how {
        "init" | "a runtime before" | "no task" => taskscope_subscriber::init(),
        "logs before" => {
            fmt().with_env_filter(info()).init();
            taskscope_subscriber::init();
        }
        "init with logs" => taskscope_subscriber::init_with(fmt::layer().with_filter(info())),
        "init with a filter" => taskscope_subscriber::init_with(info().and_then(fmt::layer())),
        "beside logs" => {
            let (layer, guard) = layer();
            Rootless(tracing_subscriber::registry().with(layer).with(fmt::layer().with_filter(info()))).init();
            return Box::new(guard);
        }
        "a filter before" => {
            let (layer, guard) = layer();
            Rootless(tracing_subscriber::registry().with(info()).with(fmt::layer()).with(layer)).init();
            return Box::new(guard);
        }
        "a filter after" => {
            let (layer, guard) = layer();
            Rootless(tracing_subscriber::registry().with(fmt::layer()).with(layer).with(info())).init();
            return Box::new(guard);
        }
        "a filter of targets" => {
            let (layer, guard) = layer();
            let filter = EnvFilter::new("info,program=trace,tokio=off");
            Rootless(tracing_subscriber::registry().with(filter).with(fmt::layer()).with(layer)).init();
            return Box::new(guard);
        }
        other => panic!("{other}"),
    }
    Box::new(())
}

/// The program, where it is asked for by the variable. It logs twice, and ends by `exit`.
#[test]
fn program() {
    let how = match std::env::var(PROGRAM) {
        Ok(how) => how,
        Err(_) => return,
    };
    let build =
        || tokio::runtime::Builder::new_multi_thread().worker_threads(2).enable_all().build().expect("a runtime");
    let before = (how == "a runtime before").then(build);
    let _held = set_up(&how);
    info!("begun");
    if how != "no task" {
        let runtime = before.unwrap_or_else(build);
        runtime.block_on(async {
            let work = async { info!("in a task") };
            tokio::task::Builder::new().name("task").spawn(work).expect("a runtime").await.expect("no panic");
            tokio::task::spawn_blocking(|| ()).await.expect("no panic");
        });
    }
    drop(_held);
    std::process::exit(7);
}

/// What is logged by a program that runs so.
const LOGGED: [&str; 2] = ["begun", "in a task"];

#[test]
fn a_program_that_logs_is_inspected() {
    for how in ["init with logs", "init with a filter", "beside logs"] {
        let folder = Folder::new();
        let path = folder.path("stream");
        let (logs, said) = ran(command("", how, &[("TASKSCOPE_STREAM", &path)]));
        assert_eq!(LOGGED.map(|text| logs.matches(text).count()), [1, 1], "{how}: {logs}");
        assert!(!logs.contains("runtime.spawn"), "{how}: tokio's spans are in the logs: {logs}");
        assert_eq!(said, "", "{how}");
        assert_eq!(names(&fs::read_to_string(&path).expect("a file")), ["task"], "{how}");
    }
}

#[test]
fn a_program_that_is_not_inspected_logs_all_the_same() {
    let folder = Folder::new();
    let wrong = folder.path("none/stream");
    let refused =
        format!("taskscope: nothing is inspected: {}: No such file or directory (os error 2)\n", wrong.display());
    let unknown = "taskscope: nothing is inspected: TASKSCOPE_ITEMS is `all` or `tasks`, and not \"some\"\n";
    let cases: [(&[(&str, &Path)], &str); 3] = [
        (&[], ""),
        (&[("TASKSCOPE_STREAM", &wrong)], &refused),
        (&[("TASKSCOPE_STREAM", &folder.path("stream")), ("TASKSCOPE_ITEMS", Path::new("some"))], unknown),
    ];
    for how in ["init with logs", "init with a filter"] {
        for (variables, wanted) in cases {
            let (logs, said) = ran(command("", how, variables));
            assert_eq!(LOGGED.map(|text| logs.matches(text).count()), [1, 1], "{how} {variables:?}: {logs}");
            assert_eq!(said, wanted, "{how} {variables:?}");
        }
    }
}

#[test]
fn init_after_logs_says_what_to_do_and_opens_nothing() {
    let folder = Folder::new();
    let path = folder.path("stream");
    fs::write(&path, "a stream that is there\n").expect("a file");
    let (logs, said) = ran(command("", "logs before", &[("TASKSCOPE_STREAM", &path)]));
    assert_eq!(LOGGED.map(|text| logs.matches(text).count()), [1, 1], "{logs}");
    assert!(said.starts_with("taskscope: nothing is inspected: the program has a subscriber already"), "{said}");
    assert!(said.contains("`Builder::layer`") && said.contains("`init_with`") && said.lines().count() == 1, "{said}");
    assert_eq!(fs::read_to_string(&path).expect("a file"), "a stream that is there\n");
    assert!(!folder.path("stream.1").exists(), "nothing was kept");
}

#[test]
fn a_filter_that_turns_tokio_off_is_said_once() {
    for how in ["a filter before", "a filter after", "a filter of targets"] {
        let folder = Folder::new();
        let path = folder.path("stream");
        let (_, said) = ran(command("", how, &[("TASKSCOPE_STREAM", &path)]));
        assert_eq!(said.lines().count(), 1, "{how}: {said}");
        assert!(
            said.starts_with("taskscope: nothing is recorded of tokio, as a filter of the subscriber"),
            "{how}: {said}"
        );
        assert!(said.contains("`with_filter`") && said.contains("`tokio=trace,runtime=trace`"), "{how}: {said}");
    }
}

#[test]
fn a_program_without_tasks_is_told_of_what_may_be_wrong() {
    let folder = Folder::new();
    let (_, said) = ran(command("", "no task", &[("TASKSCOPE_STREAM", &folder.path("stream"))]));
    assert_eq!(said.lines().count(), 1, "{said}");
    assert!(said.starts_with("taskscope: tokio has reported no task. If "), "{said}");
    assert!(said.contains("its feature `tracing`") && said.contains("`tokio=trace,runtime=trace`"), "{said}");
}

#[test]
fn of_what_came_before_nothing_is_said() {
    let folder = Folder::new();
    let path = folder.path("stream");
    for items in ["tasks", "all"] {
        let variables = [("TASKSCOPE_STREAM", path.as_path()), ("TASKSCOPE_ITEMS", Path::new(items))];
        assert_eq!(ran(command("", "a runtime before", &variables)).1, "", "{items}");
        assert_eq!(names(&fs::read_to_string(&path).expect("a file")), ["task"], "{items}");
    }
}

#[test]
fn words_that_name_no_output_are_refused_and_make_no_file() {
    // A word, and the end of what is said of it.
    const WORDS: [(&str, &str); 7] = [
        ("127.0.0.1:9999", "a port is written `tcp:127.0.0.1:9999`"),
        ("tcp:9999", "invalid socket address"),
        ("file:stream", "`file:` is not known; a file of that name is `./file:stream`"),
        ("unix+tls:x", "`unix+tls:` is not known; a file of that name is `./unix+tls:x`"),
        ("unix:", "the path is missing"),
        ("-", "there is no stream to standard output"),
        ("stdout", "there is no stream to standard output"),
    ];
    let folder = Folder::new();
    let inside = folder.path("inside");
    fs::create_dir(&inside).expect("a folder");
    for (word, why) in WORDS {
        let mut command = command("", "init", &[("TASKSCOPE_STREAM", Path::new(word))]);
        command.current_dir(&inside);
        let wanted = "taskscope: nothing is inspected: TASKSCOPE_STREAM is `tcp:HOST:PORT`, `unix:PATH`, the path of a file or of a pipe, or `stderr`";
        assert_eq!(ran(command).1, format!("{wanted}, and not {word:?}: {why}\n"), "{word}");
    }
    assert_eq!(fs::read_dir(&inside).expect("a folder").count(), 0, "no file was made");
    let mut command = command("", "init", &[("TASKSCOPE_STREAM", Path::new("./tcp:stream"))]);
    command.current_dir(&inside);
    assert_eq!(ran(command).1, "", "a path with a colon");
    assert!(inside.join("tcp:stream").exists(), "a path with a colon");
}

#[test]
fn what_can_not_be_opened_is_said_with_its_path() {
    let folder = Folder::new();
    let path = folder.path("none/stream");
    for scheme in ["", "unix:"] {
        let words = format!("{scheme}{}", path.display());
        let wanted = format!("taskscope: nothing is inspected: {words}: No such file or directory (os error 2)\n");
        assert_eq!(ran(command("", "init", &[("TASKSCOPE_STREAM", Path::new(&words))])).1, wanted, "{words}");
    }
}
