//! A task that ended is closed at once, whoever keeps its span. The layer stands beside logs, as the documentation of `Builder::layer`
//! sets them up.

mod common;
#[path = "common/forms.rs"]
mod forms;

use common::{list, number, publish, value};
use forms::{Form, FORMS, FORMS_WITH_CURRENT};
use std::future::{pending, Future};
use std::io::{self, Write};
use std::sync::{Arc, Mutex};
use taskscope::{Console, Settings};
use taskscope_subscriber::{Rootless, TaskscopeLayer};
use tokio::task::{yield_now, JoinHandle};
use tracing::dispatcher::{with_default, Dispatch};
use tracing::{info, info_span, Instrument, Span};
use tracing_subscriber::prelude::*;
use tracing_subscriber::{fmt, EnvFilter};

/// What was logged.
#[derive(Clone, Default)]
struct Logs(Arc<Mutex<Vec<u8>>>);

impl Write for Logs {
    fn write(&mut self, bytes: &[u8]) -> io::Result<usize> {
        self.0.lock().unwrap().write(bytes)
    }

    fn flush(&mut self) -> io::Result<()> {
        Ok(())
    }
}

impl Logs {
    fn text(&self) -> String {
        String::from_utf8(self.0.lock().unwrap().clone()).expect("text")
    }
}

/// A program that logs, and a console that inspects it.
struct Program {
    console: Console,
    logs: Logs,
    subscriber: Dispatch,
}

impl Program {
    /// Beside a subscriber of tokio's spans alone there are no logs.
    fn new(form: Form) -> Program {
        let console = Console::open(Settings::default());
        let logs = Logs::default();
        if form != Form::Layer {
            let subscriber = form.subscriber(TaskscopeLayer::new(&console));
            return Program { console, logs, subscriber };
        }
        let writer = logs.clone();
        let layer = fmt::layer().with_writer(move || writer.clone());
        let layer = layer.with_filter(EnvFilter::new("info"));
        let subscriber = tracing_subscriber::registry().with(TaskscopeLayer::new(&console)).with(layer);
        Program { console, logs, subscriber: Dispatch::new(Rootless(subscriber)) }
    }

    fn run(&self, work: impl Future<Output = ()>) {
        with_default(&self.subscriber, || {
            let runtime = tokio::runtime::Builder::new_current_thread().enable_all().build().expect("a runtime");
            runtime.block_on(work);
        });
    }
}

/// The row of the task with a name, in a line that tells all.
fn row(line: &str, name: &str) -> String {
    let infos = list(line, "new_tasks");
    let info = infos.into_iter().find(|info| value(info, "name") == format!("\"{name}\""));
    common::task(line, number(info.unwrap_or_else(|| panic!("{name} in {line}")), "id")).to_owned()
}

fn is_closed(row: &str) -> bool {
    value(row, "dropped") != "null"
}

fn spawn<T: Send + 'static>(name: &str, work: impl Future<Output = T> + Send + 'static) -> JoinHandle<T> {
    tokio::task::Builder::new().name(name).spawn(work).expect("a runtime")
}

/// How a task leaves something of its span to one that lives on.
#[derive(Clone, Copy, Debug)]
enum Leaves {
    Child,
    ChildByName,
    GrandChild,
    Itself,
    Handle,
}

const LEAVES: [Leaves; 5] = [Leaves::Child, Leaves::ChildByName, Leaves::GrandChild, Leaves::Itself, Leaves::Handle];

/// A task that lives on, with what the one that spawns it leaves to it.
fn spawn_long(leaves: Leaves) {
    let long = async {
        info!("begun");
        pending::<()>().await;
    };
    match leaves {
        Leaves::Child => spawn("long", long.instrument(info_span!("request", number = 4))),
        Leaves::ChildByName => {
            spawn("long", long.instrument(info_span!(parent: &Span::current(), "request", number = 4)))
        }
        Leaves::GrandChild => {
            let outer = info_span!("connection");
            let inner = outer.in_scope(|| info_span!("request", number = 4));
            drop(outer);
            spawn("long", long.instrument(inner))
        }
        Leaves::Itself => spawn("long", long.in_current_span()),
        Leaves::Handle => {
            let span = Span::current();
            spawn("long", async move { span.in_scope(|| long).await })
        }
    };
}

/// How a task ends.
#[derive(Clone, Copy, Debug)]
enum Ends {
    Ready,
    Aborted,
    Panics,
}

#[test]
fn a_task_is_closed_when_it_ends_and_not_before() {
    for (form, leaves) in FORMS.into_iter().flat_map(|form| LEAVES.map(|leaves| (form, leaves))) {
        for ends in [Ends::Ready, Ends::Aborted, Ends::Panics] {
            let program = Program::new(form);
            program.run(async {
                let accepts = spawn("accepts", async move {
                    spawn_long(leaves);
                    yield_now().await;
                    match ends {
                        Ends::Ready => {}
                        Ends::Aborted => pending().await,
                        Ends::Panics => panic!("as it should"),
                    }
                });
                // The first poll of each.
                yield_now().await;
                let line = publish(&program.console);
                assert!(!is_closed(&row(&line, "accepts")), "{form:?} {leaves:?} {ends:?}: before its end: {line}");
                yield_now().await;
                if let Ends::Aborted = ends {
                    accepts.abort();
                }
                assert_eq!(accepts.await.is_ok(), matches!(ends, Ends::Ready), "{form:?} {leaves:?} {ends:?}");
                let line = common::snapshot(&program.console);
                let accepts = row(&line, "accepts");
                assert!(is_closed(&accepts), "{form:?} {leaves:?} {ends:?}: after its end: {accepts}");
                assert_eq!(number(&accepts, "polls"), 2, "{form:?} {leaves:?} {ends:?}");
                assert!(!is_closed(&row(&line, "long")), "{form:?} {leaves:?} {ends:?}: the one that lives on");
            });
        }
    }
}

#[test]
fn a_handle_that_is_dropped_does_not_close_the_task() {
    FORMS_WITH_CURRENT.into_iter().for_each(handles_are_dropped);
}

fn handles_are_dropped(form: Form) {
    let program = Program::new(form);
    program.run(async {
        let waits = spawn("waits", async {
            let span = Span::current();
            let other = spawn("other", async move { drop(span.clone()) }.instrument(Span::current()));
            other.await.expect("no panic");
            pending::<()>().await;
        });
        // Each yields to the other twice at most.
        for _ in 0..4 {
            yield_now().await;
        }
        let line = publish(&program.console);
        assert!(is_closed(&row(&line, "other")), "{form:?}: the other one has ended: {line}");
        assert!(!is_closed(&row(&line, "waits")), "{form:?}: it waits: {line}");
        waits.abort();
    });
}

#[test]
fn logs_keep_the_spans_of_the_program() {
    for leaves in [Leaves::Child, Leaves::ChildByName, Leaves::GrandChild] {
        let program = Program::new(Form::Layer);
        program.run(async {
            spawn("accepts", async move { spawn_long(leaves) }).await.expect("no panic");
            yield_now().await;
        });
        let logs = program.logs.text();
        assert!(logs.contains("request{number=4}"), "{leaves:?}: {logs}");
        assert_eq!(logs.contains("connection:request"), matches!(leaves, Leaves::GrandChild), "{leaves:?}: {logs}");
    }
}
