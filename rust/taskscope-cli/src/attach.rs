//! The stream of a service that runs, over a socket or in a file that grows, as the proved program's standard input.

use crate::address::Address;
use crate::c;
use crate::growing::Growing;
use crate::lines::{Lines, Numbering};
use std::ffi::OsString;
use std::fmt;
use std::io::{self, Read};
use std::os::unix::io::AsRawFd;
use std::os::unix::net::UnixStream;
use std::os::unix::process::parent_id;
use std::path::{Path, PathBuf};
use std::process::{exit, id};
use std::thread::sleep;
use std::time::Duration;

/// How much of a service's stream a command reads.
#[derive(Clone, Copy, Debug, PartialEq, Eq)]
pub enum Extent {
    /// The first line, which says all that is now.
    Now,
    /// All lines until the connection ends, or an interrupt.
    UntilEnd,
    /// All lines, also those of a service that starts anew.
    Always,
}

impl Extent {
    /// What the words read of a socket, or `None` if their command reads no stream.
    pub fn of(words: &[OsString]) -> Option<Extent> {
        Some(match words.get(1)?.to_str()? {
            "view" | "lint" => Extent::Now,
            "metrics" if has(words, "--to") => Extent::Always,
            "metrics" => Extent::Now,
            "page" | "run" | "compare" => Extent::UntilEnd,
            "watch" => Extent::Always,
            _ => return None,
        })
    }
}

/// Whether an option is among the words, with its value in the same word or without.
fn has(words: &[OsString], option: &str) -> bool {
    words.iter().any(|word| word.to_string_lossy().split('=').next() == Some(option))
}

/// Options of `watch`, `metrics`, `page` and `compare` whose value may be a word of its own.
const WITH_VALUE: [&str; 17] = [
    "--self-wake-percent",
    "--never-yielded-ns",
    "--never-yielded",
    "--sort",
    "--rows",
    "--filter",
    "--every",
    "--by",
    "--to",
    "--series",
    "--long-poll",
    "--title",
    "--until",
    "--since",
    "--last",
    "--more-than",
    "--at-least",
];

/// Where a stream is that others write.
#[derive(Clone, Debug, PartialEq, Eq)]
enum Source {
    Socket(Address),
    /// A file that is followed.
    File(PathBuf),
}

impl Source {
    fn open(&self) -> io::Result<Box<dyn Read + Send>> {
        match self {
            Source::Socket(address) => address.connect(),
            Source::File(path) => Ok(Box::new(Growing::open(path)?)),
        }
    }
}

impl fmt::Display for Source {
    fn fmt(&self, f: &mut fmt::Formatter<'_>) -> fmt::Result {
        match self {
            Source::Socket(address) => address.fmt(f),
            Source::File(path) => path.display().fmt(f),
        }
    }
}

/// The words after the command that are no options and no values of those, each with its place.
fn names_in(words: &[OsString]) -> impl Iterator<Item = (usize, &OsString)> {
    let after_command = words.iter().enumerate().skip(2);
    after_command.filter(move |(place, word)| {
        !word.to_string_lossy().starts_with("--") && !WITH_VALUE.iter().any(|option| words[place - 1] == *option)
    })
}

/// How many names stand before that of the stream that is read as standard input: `compare` has the earlier stream first, which is a file.
fn earlier_names(words: &[OsString]) -> usize {
    usize::from(words.get(1).map_or(false, |command| command == "compare"))
}

/// The first word that names a socket, or else the file that is to be followed; and its place. A file that is none, as a pipe, is
/// left to the program.
fn named_in(words: &[OsString]) -> Option<(usize, Source)> {
    let mut names = names_in(words).skip(earlier_names(words));
    let socket = names.find_map(|(place, word)| Some((place, Source::Socket(Address::of(word)?))));
    socket.or_else(|| {
        let (place, word) = names_in(words).next().filter(|_| has(words, "--follow"))?;
        let path = Path::new(word);
        path.metadata().map_or(false, |named| named.is_file()).then(|| (place, Source::File(path.to_owned())))
    })
}

/// Opens the socket or the file to follow that a word names, makes its lines standard input, and takes the word away, and the
/// option to follow with it. It answers whether there was a socket. No thread may have been started.
///
/// # Errors
/// What the system says of it, after the word. Then the words and the input are as they were.
pub fn take_stream(words: &mut Vec<OsString>) -> Result<bool, String> {
    let (extent, place, source) = match (Extent::of(words), named_in(words)) {
        (Some(Extent::Now | Extent::UntilEnd), Some((_, Source::File(_)))) => return Ok(false),
        (Some(extent), Some((place, source))) => (extent, place, source),
        _ => return Ok(false),
    };
    feed_input(&source, extent).map_err(|error| format!("{source}: {error}"))?;
    words.remove(place);
    if matches!(source, Source::File(_)) {
        words.retain(|word| word != "--follow");
    }
    name_page(words, &source);
    Ok(matches!(source, Source::Socket(_)))
}

/// A page that has no other title is named by the address of its stream, as the program names one by its file.
fn name_page(words: &mut Vec<OsString>, source: &Source) {
    if words.get(1).map_or(false, |command| command == "page") && !has(words, "--title") {
        words.insert(2, format!("--title={source}").into());
    }
}

/// Has a child write the lines, which ends with this process.
fn feed_input(source: &Source, extent: Extent) -> io::Result<()> {
    let connection = source.open()?;
    let (input, output) = UnixStream::pair()?;
    let parent = id();
    // SAFETY: there is no other thread.
    match unsafe { c::fork() } {
        -1 => Err(io::Error::last_os_error()),
        0 => {
            drop(input);
            // SAFETY: the call takes a number.
            unsafe { c::prctl(c::PR_SET_PDEATHSIG, c::SIGTERM) };
            if parent_id() == parent {
                // That nobody reads any more is the end of it.
                let _ = feed(source, extent, connection, output);
            }
            exit(0)
        }
        _ => {
            // SAFETY: both are descriptors, and nobody has read of standard input yet.
            if unsafe { c::dup2(input.as_raw_fd(), c::STDIN) } < 0 {
                return Err(io::Error::last_os_error());
            }
            Ok(())
        }
    }
}

fn feed(source: &Source, extent: Extent, connection: Box<dyn Read + Send>, mut output: UnixStream) -> io::Result<()> {
    let mut numbering = Numbering::default();
    let mut lines = Lines::new(connection);
    loop {
        while let Some(line) = lines.next_line() {
            numbering.write(line, &mut output)?;
            if extent == Extent::Now {
                return Ok(());
            }
        }
        if extent != Extent::Always {
            return Ok(());
        }
        lines = Lines::new(open_again(source));
        numbering.begin_anew();
    }
}

/// How long it waits from one try to the next.
const PAUSES: [Duration; 3] = [Duration::from_millis(100), Duration::from_millis(200), Duration::from_millis(500)];

fn open_again(source: &Source) -> Box<dyn Read + Send> {
    let mut pauses = PAUSES.iter();
    let mut pause = PAUSES[0];
    loop {
        pause = *pauses.next().unwrap_or(&pause);
        sleep(pause);
        if let Ok(connection) = source.open() {
            return connection;
        }
    }
}

#[cfg(test)]
mod tests {
    use super::*;

    fn words(text: &str) -> Vec<OsString> {
        text.split(' ').map(OsString::from).collect()
    }

    #[test]
    fn each_command_reads_what_it_shows() {
        let cases = [
            ("taskscope view unix:s", Some(Extent::Now)),
            ("taskscope lint --long-poll 5 unix:s", Some(Extent::Now)),
            ("taskscope lint --long-wait 5 unix:s", Some(Extent::Now)),
            ("taskscope page unix:s", Some(Extent::UntilEnd)),
            ("taskscope compare a.stream unix:s", Some(Extent::UntilEnd)),
            ("taskscope watch --keys unix:s", Some(Extent::Always)),
            ("taskscope metrics unix:s", Some(Extent::Now)),
            ("taskscope metrics --to numbers.prom unix:s", Some(Extent::Always)),
            ("taskscope metrics --to=numbers.prom unix:s", Some(Extent::Always)),
            ("taskscope demo", None),
            ("taskscope", None),
        ];
        for (text, extent) in cases {
            assert_eq!(Extent::of(&words(text)), extent, "{text}");
        }
    }

    #[test]
    fn a_socket_is_a_word_of_its_own() {
        let unix = |place| Some((place, Source::Socket(Address::Unix("s".into()))));
        let cases = [
            ("taskscope view unix:s", unix(2)),
            ("taskscope watch --keys tcp:localhost:1", Some((3, Source::Socket(Address::Tcp("localhost:1".into()))))),
            ("taskscope watch --filter tcp:a", None),
            ("taskscope watch --filter tcp:a unix:s", unix(4)),
            ("taskscope metrics --to unix:s", None),
            ("taskscope view s", None),
            ("taskscope unix:s", None),
            ("taskscope page --title tcp:a unix:s", unix(4)),
            ("taskscope compare a.stream unix:s", unix(3)),
            ("taskscope compare --at-least 5 a.stream unix:s", unix(5)),
            ("taskscope compare unix:s", None),
            ("taskscope compare unix:s b.stream", None),
        ];
        for (text, socket) in cases {
            assert_eq!(named_in(&words(text)), socket, "{text}");
        }
    }

    #[test]
    fn a_file_is_followed_where_that_is_asked_for() {
        let file = |place| Some((place, Source::File("Cargo.toml".into())));
        let cases = [
            ("taskscope watch --follow Cargo.toml", file(3)),
            ("taskscope metrics Cargo.toml --follow --to numbers.prom", file(2)),
            ("taskscope metrics --to Cargo.toml --follow", None),
            ("taskscope watch --filter Cargo.toml --follow", None),
            ("taskscope watch Cargo.toml", None),
            ("taskscope watch --follow no-such-file", None),
            ("taskscope watch --follow /dev/null", None),
        ];
        for (text, source) in cases {
            assert_eq!(named_in(&words(text)), source, "{text}");
        }
    }

    #[test]
    fn a_page_has_the_name_of_its_address() {
        let cases = [
            ("taskscope page", "taskscope page --title=unix:s"),
            ("taskscope page --long-poll 5", "taskscope page --title=unix:s --long-poll 5"),
            ("taskscope page --title a", "taskscope page --title a"),
            ("taskscope page --title=a", "taskscope page --title=a"),
            ("taskscope view", "taskscope view"),
        ];
        for (text, wanted) in cases {
            let mut named = words(text);
            name_page(&mut named, &Source::Socket(Address::Unix("s".into())));
            assert_eq!(named, words(wanted), "{text}");
        }
    }

    #[test]
    fn each_option_with_a_value_is_known() {
        for help in [
            include_str!("../../../tests/program/watch-help.txt"),
            include_str!("../../../tests/program/metrics-help.txt"),
            include_str!("../../../tests/program/page-help.txt"),
            include_str!("../../../tests/program/compare-help.txt"),
        ] {
            let options =
                help.lines().map(str::trim_start).filter(|line| line.starts_with("--") && line.ends_with('>'));
            for option in options.filter_map(|line| line.split(' ').next()) {
                assert!(WITH_VALUE.contains(&option), "{option}");
            }
        }
    }
}
