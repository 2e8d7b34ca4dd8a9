//! The lines of a connection, and their numbers.

use std::io::{self, BufRead, BufReader, Read, Write};

/// The longest line that a reader of a stream takes, with its end.
const LONGEST: u64 = (256 << 20) + 1;

/// The lines that come over a connection.
pub struct Lines<R> {
    reader: BufReader<R>,
}

impl<R: Read> Lines<R> {
    pub fn new(connection: R) -> Lines<R> {
        Lines { reader: BufReader::with_capacity(1 << 16, connection) }
    }

    /// The next line, with its end, or `None` at the end of the connection, however that ends. What stands after the last line
    /// end is no line, and neither is what is longer than any reader takes.
    pub fn next_line(&mut self) -> Option<Vec<u8>> {
        let mut line = Vec::new();
        match self.reader.by_ref().take(LONGEST).read_until(b'\n', &mut line) {
            Ok(_) if line.last() == Some(&b'\n') => Some(line),
            _ => None,
        }
    }
}

const NUMBER: &[u8] = b"\"seq\":";
const PART: &[u8] = b"\"snapshot\":false";
const WHOLE: &[u8] = b"\"snapshot\":true";

/// Where a key of a line begins. Within a text each quote stands after a backslash, so its bytes are no part of one.
fn place_of(key: &[u8], line: &[u8]) -> Option<usize> {
    line.windows(key.len()).position(|bytes| bytes == key)
}

/// Where the number of a line stands.
fn place_of_number(line: &[u8]) -> Option<(usize, usize)> {
    let from = place_of(NUMBER, line)? + NUMBER.len();
    let digits = line[from..].iter().take_while(|byte| byte.is_ascii_digit()).count();
    Some((from, from + digits))
}

/// A line that says that it is all there is, as the first line of a stream is in any case.
fn as_snapshot(line: Vec<u8>) -> Vec<u8> {
    match place_of(PART, &line) {
        Some(from) => [&line[..from], WHOLE, &line[from + PART.len()..]].concat(),
        None => line,
    }
}

/// Writes lines so that their numbers rise by one, whatever numbers they have: those of a service that was started anew go on
/// after those before.
#[derive(Default)]
pub struct Numbering {
    next: Option<u64>,
    // Whether the next line is the first one of a service that was started anew.
    anew: bool,
}

impl Numbering {
    /// The next line is the first of another stream. It takes the place of all that was before.
    pub fn begin_anew(&mut self) {
        self.anew = true;
    }

    /// # Errors
    /// The writer's.
    pub fn write(&mut self, line: Vec<u8>, writer: &mut impl Write) -> io::Result<()> {
        let line = if std::mem::take(&mut self.anew) { as_snapshot(line) } else { line };
        let (from, end) = match place_of_number(&line) {
            Some(place) => place,
            None => return writer.write_all(&line),
        };
        let own = std::str::from_utf8(&line[from..end]).ok().and_then(|digits| digits.parse().ok());
        let number: u64 = self.next.or(own).unwrap_or(1);
        self.next = Some(number.wrapping_add(1));
        writer.write_all(&line[..from])?;
        write!(writer, "{number}")?;
        writer.write_all(&line[end..])
    }
}

#[cfg(test)]
mod tests {
    use super::*;

    fn numbered(lines: &[&str]) -> String {
        let (mut numbering, mut written) = (Numbering::default(), Vec::new());
        for line in lines {
            numbering.write(line.as_bytes().to_vec(), &mut written).unwrap();
        }
        String::from_utf8(written).unwrap()
    }

    #[test]
    fn a_line_without_its_end_is_none() {
        let mut lines = Lines::new(&b"one\ntwo\nthr"[..]);
        assert_eq!(lines.next_line().as_deref(), Some(&b"one\n"[..]), "the first");
        assert_eq!(lines.next_line().as_deref(), Some(&b"two\n"[..]), "the second");
        assert_eq!(lines.next_line(), None, "what has no end");
    }

    #[test]
    fn numbers_go_on_when_a_service_starts_anew() {
        let given = [
            "{\"now\":5,\"seq\":7}\n",
            "{\"now\":6,\"seq\":8}\n",
            "{\"now\":1,\"seq\":1}\n",
            "{\"now\":2,\"seq\":2}\n",
        ];
        let expected = "{\"now\":5,\"seq\":7}\n{\"now\":6,\"seq\":8}\n{\"now\":1,\"seq\":9}\n{\"now\":2,\"seq\":10}\n";
        assert_eq!(numbered(&given), expected, "two lines of each run of a service");
    }

    #[test]
    fn the_first_line_of_a_stream_that_begins_anew_is_all_there_is() {
        let (mut numbering, mut written) = (Numbering::default(), Vec::new());
        for line in ["{\"seq\":1,\"snapshot\":false}\n", "{\"seq\":2,\"snapshot\":false}\n"] {
            numbering.write(line.as_bytes().to_vec(), &mut written).unwrap();
        }
        numbering.begin_anew();
        for line in ["{\"seq\":1,\"snapshot\":false}\n", "{\"seq\":2,\"snapshot\":false}\n"] {
            numbering.write(line.as_bytes().to_vec(), &mut written).unwrap();
        }
        let expected = "{\"seq\":1,\"snapshot\":false}\n{\"seq\":2,\"snapshot\":false}\n\
                        {\"seq\":3,\"snapshot\":true}\n{\"seq\":4,\"snapshot\":false}\n";
        assert_eq!(String::from_utf8(written).unwrap(), expected, "two lines of each stream");
    }

    #[test]
    fn a_text_that_looks_like_a_number_stays() {
        let given = ["{\"name\":\"a\\\"seq\\\":3\",\"seq\":4}\n", "{\"name\":\"a\\\"seq\\\":3\",\"seq\":4}\n"];
        let expected = "{\"name\":\"a\\\"seq\\\":3\",\"seq\":4}\n{\"name\":\"a\\\"seq\\\":3\",\"seq\":5}\n";
        assert_eq!(numbered(&given), expected, "the number is the key's and not the text's");
    }
}
