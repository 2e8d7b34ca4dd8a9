//! What a port answers by HTTP.

use std::net::{IpAddr, SocketAddr};

/// How many bytes a request may have.
pub(super) const LONGEST_REQUEST: usize = 8192;

/// What follows the head of an answer.
#[derive(Clone, Copy, Debug, PartialEq, Eq)]
pub(super) enum Follows {
    /// Lines, for as long as the reader stays.
    Lines,
    /// One line that says all.
    Snapshot,
    /// The answer itself, with the numbers of now.
    Numbers,
    /// Nothing.
    Nothing,
}

/// The text with which an answer begins, and what follows.
#[derive(Clone, Debug, PartialEq, Eq)]
pub(super) struct Answer {
    pub(super) text: String,
    pub(super) follows: Follows,
}

/// A port, as its answers name it, and whether only this machine reaches it.
#[derive(Clone, Copy, Debug)]
pub(super) struct Port(pub(super) SocketAddr);

/// How far a request has come.
#[derive(Clone, Debug, PartialEq, Eq)]
pub(super) enum Request {
    /// Its first bytes fit one, and more is to come.
    Begun,
    /// It is answered.
    Answered(Answer),
}

fn text(status: &str, more: &str, body: &str) -> Answer {
    Answer { text: head(status, "text/plain; charset=utf-8", more) + body, follows: Follows::Nothing }
}

/// The head of an answer whose body are numbers of so many bytes. With its length, a part of it is taken for no whole.
pub(super) fn head_of_numbers(len: usize) -> String {
    head("200 OK", "text/plain; version=0.0.4; charset=utf-8", &format!("Content-Length: {len}\r\n"))
}

/// The answer where there is no memory for the numbers, or where they are too long.
pub(super) fn no_numbers() -> String {
    text("503 Service Unavailable", "", "There is no room for the numbers.\n").text
}

/// No header lets a page of another site read an answer, and no browser takes lines for a script.
fn head(status: &str, kind: &str, more: &str) -> String {
    format!(
        "HTTP/1.1 {status}\r\nContent-Type: {kind}\r\nCache-Control: no-store\r\nX-Content-Type-Options: nosniff\r\n\
         Cross-Origin-Resource-Policy: same-origin\r\nConnection: close\r\n{more}\r\n"
    )
}

impl Port {
    /// What becomes of the bytes that a client has said so far.
    pub(super) fn hear(&self, said: &[u8]) -> Request {
        const GET: &[u8] = b"GET ";
        if !said.iter().zip(GET).all(|(one, other)| one == other) {
            return Request::Answered(text("405 Method Not Allowed", "Allow: GET\r\n", "There is only GET here.\n"));
        }
        let has = |end: &[u8]| said.windows(end.len()).any(|bytes| bytes == end);
        if has(b"\r\n\r\n") || has(b"\n\n") {
            return Request::Answered(self.answer(&String::from_utf8_lossy(said)));
        }
        Request::Begun
    }

    fn answer(&self, request: &str) -> Answer {
        let mut lines = request.lines();
        let path = lines.next().and_then(|line| line.split(' ').nth(1)).unwrap_or("");
        let host = lines.find_map(|line| {
            let (name, value) = line.split_once(':')?;
            name.eq_ignore_ascii_case("host").then(|| value.trim())
        });
        // A page of another site that made its name one of this machine's comes with that name.
        if self.0.ip().is_loopback() && !host.map_or(true, is_of_this_machine) {
            return text("403 Forbidden", "", "The host is none of this machine.\n");
        }
        let lines = |follows| Answer { text: head("200 OK", "application/x-ndjson", ""), follows };
        match path {
            "/stream" => lines(Follows::Lines),
            "/snapshot" => lines(Follows::Snapshot),
            "/metrics" => Answer { text: String::new(), follows: Follows::Numbers },
            "/" => text("200 OK", "", &self.help()),
            _ => text("404 Not Found", "", &self.help()),
        }
    }

    fn help(&self) -> String {
        let port = self.0;
        format!(
            "taskscope: the tasks of this program\n\n\
             taskscope watch tcp:{port}             what they do, as it changes\n\
             taskscope view tcp:{port}              what is now\n\
             curl -sN http://{port}/stream          the lines, as they come\n\
             curl -s http://{port}/snapshot         one line that says all\n\
             curl -s http://{port}/metrics          numbers for Prometheus\n"
        )
    }
}

/// Whether the host of a request is an address of this machine or its name `localhost`, with a port or without.
fn is_of_this_machine(host: &str) -> bool {
    if let Ok(address) = host.parse::<SocketAddr>() {
        return address.ip().is_loopback();
    }
    let name = match host.rsplit_once(':') {
        Some((name, port)) if port.bytes().all(|byte| byte.is_ascii_digit()) && !name.ends_with(':') => name,
        _ => host,
    };
    let ip = name.strip_prefix('[').and_then(|name| name.strip_suffix(']')).unwrap_or(name);
    name.eq_ignore_ascii_case("localhost") || ip.parse::<IpAddr>().map_or(false, |ip| ip.is_loopback())
}

#[cfg(test)]
mod tests {
    use super::*;

    fn status(request: &str) -> String {
        let port = Port(([127, 0, 0, 1], 6669).into());
        match port.hear(request.as_bytes()) {
            Request::Begun => "begun".into(),
            Request::Answered(answer) => answer.text.lines().next().unwrap_or("").into(),
        }
    }

    #[test]
    fn hosts_of_this_machine_are_answered_and_no_others() {
        let own =
            ["127.0.0.1", "127.0.0.1:6669", "127.0.0.2:1", "localhost", "LocalHost:80", "[::1]", "[::1]:6669", "::1"];
        for host in own {
            assert_eq!(status(&format!("GET /stream HTTP/1.1\r\nhOsT:  {host} \r\n\r\n")), "HTTP/1.1 200 OK", "{host}");
        }
        let others = [
            "",
            "evil.example",
            "evil.example:6669",
            "127.0.0.1.evil.example",
            "localhost.evil.example",
            "10.0.0.1:80",
            "[::2]:6669",
            "[localhost",
            "0.0.0.0",
            "localhost:x",
        ];
        for host in others {
            let request = format!("GET /stream HTTP/1.1\r\nHost: {host}\r\n\r\n");
            assert_eq!(status(&request), "HTTP/1.1 403 Forbidden", "{host}");
        }
        assert_eq!(status("GET /stream HTTP/1.0\n\n"), "HTTP/1.1 200 OK", "HTTP/1.0 needs no host");
    }

    #[test]
    fn a_request_is_answered_once_it_is_whole() {
        let cases = [
            ("G", "begun"),
            ("GET /", "begun"),
            ("GET / HTTP/1.1\r\nHost: localhost\r\n", "begun"),
            ("GET / HTTP/1.1\r\nHost: localhost\r\n\r\n", "HTTP/1.1 200 OK"),
            ("GET /snapshot HTTP/1.1\r\nHost: localhost\r\n\r\n", "HTTP/1.1 200 OK"),
            ("GET /stream/ HTTP/1.1\r\nHost: localhost\r\n\r\n", "HTTP/1.1 404 Not Found"),
            ("GET /metrics HTTP/1.1\r\nHost: localhost\r\n\r\n", ""),
            ("GET /metrics HTTP/1.1\r\nHost: evil.example\r\n\r\n", "HTTP/1.1 403 Forbidden"),
            ("GET /metrics/ HTTP/1.1\r\nHost: localhost\r\n\r\n", "HTTP/1.1 404 Not Found"),
            ("GET \r\n\r\n", "HTTP/1.1 404 Not Found"),
            ("P", "HTTP/1.1 405 Method Not Allowed"),
            ("GEX", "HTTP/1.1 405 Method Not Allowed"),
            ("HEAD / HTTP/1.1\r\n\r\n", "HTTP/1.1 405 Method Not Allowed"),
        ];
        for (request, answer) in cases {
            assert_eq!(status(request), answer, "{request:?}");
        }
    }

    fn is_for_this_site_alone(answer: &str, path: &str) {
        assert!(!answer.to_lowercase().contains("access-control"), "{path}: {answer}");
        assert!(answer.contains("X-Content-Type-Options: nosniff\r\n"), "{path}: {answer}");
    }

    #[test]
    fn no_answer_lets_another_site_read_it() {
        let port = Port(([127, 0, 0, 1], 6669).into());
        is_for_this_site_alone(&head_of_numbers(7), "/metrics");
        is_for_this_site_alone(&no_numbers(), "/metrics without room");
        for path in ["/", "/stream", "/snapshot", "/other"] {
            let request = format!("GET {path} HTTP/1.1\r\nHost: localhost\r\nOrigin: http://evil.example\r\n\r\n");
            match port.hear(request.as_bytes()) {
                Request::Begun => panic!("{path} is not answered"),
                Request::Answered(answer) => is_for_this_site_alone(&answer.text, path),
            }
        }
    }
}
