//! What shells complete. The texts are made of the program's help, by `tests/completions.py`.

use std::ffi::OsString;
use std::io::{self, Write};

fn of_shell(shell: &str) -> Option<&'static str> {
    match shell {
        "bash" => Some(include_str!("../share/taskscope.bash")),
        "zsh" => Some(include_str!("../share/_taskscope")),
        "fish" => Some(include_str!("../share/taskscope.fish")),
        _ => None,
    }
}

/// Prints what a shell completes, and answers the program's status.
pub fn print(shell: Option<&OsString>) -> i32 {
    match shell.and_then(|shell| shell.to_str()).and_then(of_shell) {
        Some(text) => i32::from(io::stdout().write_all(text.as_bytes()).is_err()),
        None => {
            eprintln!("Usage: taskscope completions bash|zsh|fish");
            2
        }
    }
}
