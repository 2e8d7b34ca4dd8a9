//! What ends at once if it isn't kept, or does nothing: the compiler warns of it.

#![allow(dead_code)]

macro_rules! given {
    () => {
        "#![deny(unused_must_use)]
use std::time::Duration;
use taskscope::*;
let console = Console::open(Settings::default());
let (task, resource) = (console.task(\"fetch\").open(), console.resource(\"Semaphore\").open());
"
    };
}

/// Two programs of each: the first one keeps what it made, and compiles. The second one doesn't.
macro_rules! is_to_be_kept {
    ($($what:ident: $made:literal,)*) => {
        $(
            #[doc = concat!("```\n", given!(), "let _kept = ", $made, ";\n```\n")]
            #[doc = concat!("```compile_fail\n", given!(), $made, ";\n```\n")]
            struct $what;
        )*
    };
}

is_to_be_kept! {
    Console: "Console::open(Settings::default())",
    Settings: "Settings::default().times(false)",
    TaskBuilder: "console.task(\"fetch\")",
    Task: "console.task(\"fetch\").open()",
    SharedTask: "console.task(\"fetch\").open().share()",
    TaskWaker: "task.waker()",
    Inspected: "console.instrument(\"fetch\", async {})",
    Blocking: "console.blocking(\"hash\", || 7)",
    ResourceBuilder: "console.resource(\"Semaphore\")",
    Resource: "console.resource(\"Semaphore\").open()",
    OpBuilder: "console.op(&resource, \"acquire\")",
    Op: "console.op(&resource, \"acquire\").open()",
    InspectedOp: "console.op(&resource, \"acquire\").open().instrument(async {})",
    Publisher: "Publisher::start(&console, Duration::from_millis(100), Vec::new()).unwrap()",
    Server: "Server::start(&console, Duration::from_millis(100), &\"tcp:127.0.0.1:0\".parse().unwrap(), Limits::default()).unwrap()",
    Limits: "Limits::default().readers(8)",
}
