//! A script that is too long. The proved program's line of this fault is `fault: Read`; what it is about is said above that line.

use crate::terminal;
use std::ffi::{OsStr, OsString};
use std::fs;

/// How many bytes a script may have.
const LONGEST: u64 = 1_048_576;

/// Says the size of the script that `run` is given, if it is too long.
pub fn warn_if_long(words: &[OsString]) {
    let is_option = |word: &OsStr| word.to_string_lossy().starts_with('-');
    let file = words.iter().skip(2).find(|word| !is_option(word));
    let found = match file {
        Some(path) => fs::metadata(path).ok(),
        None => terminal::input(),
    };
    let size = found.map_or(0, |found| if found.is_file() { found.len() } else { 0 });
    if size > LONGEST {
        let name = file.map_or("the script".into(), |path| path.to_string_lossy());
        eprintln!("taskscope: {name} has {size} bytes; a script has at most {LONGEST}");
    }
}
