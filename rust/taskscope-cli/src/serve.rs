//! Serves what the program makes of a running service's stream to a browser on this machine: `taskscope serve ADDRESS`.

use crate::address::Address;
use crate::recording::Recordings;
use std::env;
use std::ffi::OsString;
use std::io::{self, BufRead, BufReader, Read, Write};
use std::net::{IpAddr, TcpListener, TcpStream};
use std::process::{Command, Stdio};
use std::sync::Arc;
use std::thread;
use std::time::Duration;

const USAGE: &str = "Usage: taskscope serve unix:PATH|tcp:HOST:PORT [--at HOST:PORT]

Serves a service's stream to a browser on this machine, at 127.0.0.1:6670 if nothing is said: / is its page, /report,
/lint and /metrics are what these commands write, /stream is what is kept of the stream: 20 minutes or 64 MiB.";

const PLACE: &str = "127.0.0.1:6670";
/// How much of a question is read, and for how long.
const QUESTION: u64 = 8192;
const PATIENCE: Duration = Duration::from_secs(5);

struct Request {
    address: Address,
    place: String,
}

impl Request {
    fn of(words: &[OsString]) -> Option<Request> {
        match words {
            [address] => Some(Request { address: Address::of(address)?, place: PLACE.to_owned() }),
            [address, at, place] | [at, place, address] if at == "--at" => {
                Some(Request { address: Address::of(address)?, place: place.to_str()?.to_owned() })
            }
            _ => None,
        }
    }
}

/// Serves until it is ended, and answers the program's status if it can't.
pub fn run(words: &[OsString]) -> i32 {
    if words.iter().any(|word| word == "--help" || word == "-h") {
        println!("{USAGE}");
        return 0;
    }
    match Request::of(words) {
        None => {
            eprintln!("{USAGE}");
            2
        }
        Some(request) => match serve(&request) {
            Ok(()) => 0,
            Err(message) => {
                eprintln!("fault: {message}");
                1
            }
        },
    }
}

fn serve(request: &Request) -> Result<(), String> {
    let no_place = |error: io::Error| format!("Write {}: {error}", request.place);
    let listener = TcpListener::bind(&request.place).map_err(no_place)?;
    let place = listener.local_addr().map_err(no_place)?;
    if !place.ip().is_loopback() {
        return Err(format!("Write {place}: a page is served to this machine alone, at 127.0.0.1 or [::1]"));
    }
    let recordings =
        Recordings::start(request.address.clone()).map_err(|error| format!("Read {}: {error}", request.address))?;
    println!("http://{place}/");
    let title: Arc<str> = request.address.to_string().into();
    for stream in listener.incoming().flatten() {
        let (recordings, title) = (Arc::clone(&recordings), Arc::clone(&title));
        // One that can't be answered has gone.
        thread::spawn(move || drop(answer(stream, &recordings, &title)));
    }
    Ok(())
}

/// What is asked for, and of which host.
#[derive(Debug, Default, PartialEq, Eq)]
struct Question {
    path: String,
    host: Option<String>,
}

impl Question {
    fn read(reader: impl Read) -> io::Result<Question> {
        let mut lines = BufReader::new(reader.take(QUESTION)).lines();
        let first = lines.next().unwrap_or_else(|| Ok(String::new()))?;
        let path = first.strip_prefix("GET ").and_then(|rest| rest.split(' ').next()).unwrap_or_default().to_owned();
        let mut question = Question { path, host: None };
        for line in lines {
            let line = line?;
            match line.split_once(':') {
                Some((name, value)) if name.eq_ignore_ascii_case("host") => {
                    question.host = Some(value.trim().to_owned())
                }
                None if line.is_empty() => break,
                _ => {}
            }
        }
        Ok(question)
    }

    /// A page of another site may name this address as its own: then the host is that site's, and it reads nothing.
    fn is_for_this_machine(&self) -> bool {
        let host = match &self.host {
            Some(host) => host,
            None => return true,
        };
        let name = match host.rsplit_once(':') {
            Some((name, port)) if !port.ends_with(']') => name,
            _ => host,
        };
        let address = name.trim_start_matches('[').trim_end_matches(']').parse::<IpAddr>();
        name.eq_ignore_ascii_case("localhost") || address.map_or(false, |address| address.is_loopback())
    }
}

const TEXT: &str = "text/plain; charset=utf-8";

/// An answer's status, type and bytes.
struct Answer(&'static str, &'static str, Vec<u8>);

fn answer_to(question: &Question, recordings: &Recordings, title: &str) -> Answer {
    if !question.is_for_this_machine() {
        return Answer("403 Forbidden", TEXT, b"This host is none of this machine.\n".to_vec());
    }
    let (words, kind) = match question.path.as_str() {
        "/" => (vec!["page", "--title", title], "text/html; charset=utf-8"),
        "/report" => (vec!["view"], TEXT),
        "/lint" => (vec!["lint"], TEXT),
        "/metrics" => (vec!["metrics"], "text/plain; version=0.0.4; charset=utf-8"),
        "/stream" => return Answer("200 OK", "application/x-ndjson", recordings.bytes()),
        _ => return Answer("404 Not Found", TEXT, b"/ /report /lint /metrics /stream\n".to_vec()),
    };
    match made_by(&words, recordings.bytes()) {
        Ok(text) => Answer("200 OK", kind, text),
        Err(error) => Answer("500 Internal Server Error", TEXT, format!("{error}\n").into_bytes()),
    }
}

fn answer(mut stream: TcpStream, recordings: &Recordings, title: &str) -> io::Result<()> {
    stream.set_read_timeout(Some(PATIENCE))?;
    stream.set_write_timeout(Some(PATIENCE))?;
    let Answer(status, kind, body) = answer_to(&Question::read(&stream)?, recordings, title);
    write!(
        stream,
        "HTTP/1.1 {status}\r\nContent-Type: {kind}\r\nContent-Length: {}\r\nCache-Control: no-store\r\n\
         X-Content-Type-Options: nosniff\r\nConnection: close\r\n\r\n",
        body.len()
    )?;
    stream.write_all(&body)
}

/// What this program writes of a stream by a command's words.
fn made_by(words: &[&str], stream: Vec<u8>) -> io::Result<Vec<u8>> {
    let mut child = Command::new(env::current_exe()?)
        .args(words)
        .stdin(Stdio::piped())
        .stdout(Stdio::piped())
        .stderr(Stdio::piped())
        .spawn()?;
    let feeding = child.stdin.take().map(|mut input| thread::spawn(move || input.write_all(&stream)));
    let output = child.wait_with_output()?;
    // A command that stops at a fault doesn't read all: its status says so.
    drop(feeding.map(|feeding| feeding.join()));
    match output.status.code() {
        Some(0 | 3) => Ok(output.stdout),
        _ => Err(io::Error::new(io::ErrorKind::Other, String::from_utf8_lossy(&output.stderr).trim().to_owned())),
    }
}

#[cfg(test)]
mod tests {
    use super::*;

    #[test]
    fn only_this_machine_is_answered() {
        let cases = [
            (Some("127.0.0.1:6670"), true),
            (Some("127.0.0.1"), true),
            (Some("localhost:6670"), true),
            (Some("LOCALHOST"), true),
            (Some("[::1]:6670"), true),
            (Some("[::1]"), true),
            (None, true),
            (Some("evil.example"), false),
            (Some("evil.example:6670"), false),
            (Some("127.0.0.1.evil.example"), false),
            (Some("192.168.0.1:6670"), false),
            (Some(""), false),
        ];
        for (host, is_answered) in cases {
            let question = Question { path: "/".into(), host: host.map(str::to_owned) };
            assert_eq!(question.is_for_this_machine(), is_answered, "{host:?}");
        }
    }

    #[test]
    fn a_question_is_read_to_its_empty_line() {
        let text = "GET /report HTTP/1.1\r\nAccept: */*\r\nHOST: localhost:6670\r\n\r\nHost: evil.example\r\n";
        let question = Question { path: "/report".into(), host: Some("localhost:6670".into()) };
        assert_eq!(Question::read(text.as_bytes()).unwrap(), question, "a question of curl's");
        assert_eq!(Question::read(&b"POST / HTTP/1.1\r\n\r\n"[..]).unwrap().path, "", "another method");
        assert_eq!(Question::read(&b""[..]).unwrap(), Question::default(), "nothing");
    }

    #[test]
    fn words_name_an_address_and_a_place() {
        let place_of = |text: &str| {
            let words: Vec<OsString> = text.split(' ').map(OsString::from).collect();
            Request::of(&words).map(|request| request.place)
        };
        let cases = [
            ("unix:s", Some(PLACE)),
            ("unix:s --at 127.0.0.1:0", Some("127.0.0.1:0")),
            ("--at 127.0.0.1:0 unix:s", Some("127.0.0.1:0")),
            ("s", None),
            ("unix:s --at", None),
            ("unix:s unix:t", None),
        ];
        for (text, place) in cases {
            assert_eq!(place_of(text).as_deref(), place, "{text}");
        }
    }
}
