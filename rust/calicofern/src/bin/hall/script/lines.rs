//! The lines of a script.

use crate::failure::Failure;
use crate::files::too_long;
use std::io::{BufRead, Read};

const MARK: &[u8] = b"\xEF\xBB\xBF";

/// The lines of a script, one after another: no more than one is in memory.
pub struct Lines {
    /// As typed.
    path: String,
    reader: Box<dyn BufRead>,
    /// The bytes that all lines together may have.
    limit: u64,
    read: u64,
    /// The last line that was read, with its end, and its number, counted from 1.
    line: Vec<u8>,
    number: u64,
}

impl Lines {
    /// `-` is standard input.
    pub fn new(path: &str, reader: Box<dyn BufRead>, limit: u64) -> Self {
        Lines { path: path.to_string(), reader, limit, read: 0, line: Vec::new(), number: 0 }
    }

    /// The next line, without its end and without the mark that some editors write before the first.
    pub fn next(&mut self) -> Result<Option<&str>, Failure> {
        self.line.clear();
        self.number += 1;
        let left = (self.limit - self.read).saturating_add(1);
        let read = self.reader.by_ref().take(left).read_until(b'\n', &mut self.line);
        self.read += read.map_err(|error| Failure::File(self.name().to_string(), error))? as u64;
        if self.read > self.limit {
            return Err(too_long(self.name(), self.limit, "script"));
        }
        if self.line.is_empty() {
            return Ok(None);
        }
        text(&self.line, self.number == 1).map(Some).map_err(|why| self.failed(why))
    }

    /// The bytes of the last line, with its end.
    pub fn length(&self) -> u64 {
        self.line.len() as u64
    }

    /// The last line as a place: `script, line 4`.
    pub fn place(&self) -> String {
        format!("{}, line {}", self.name(), self.number)
    }

    /// Why the last line failed, with its place.
    pub fn failed(&self, why: Failure) -> Failure {
        Failure::Line(self.place(), Box::new(why))
    }

    fn name(&self) -> &str {
        if self.path == "-" {
            "standard input"
        } else {
            &self.path
        }
    }
}

/// A line's bytes as text. Control characters are refused in comments too: a line end of another kind would hide the lines behind it.
fn text(line: &[u8], first: bool) -> Result<&str, Failure> {
    let line = line.strip_suffix(b"\n").unwrap_or(line);
    let line = line.strip_suffix(b"\r").unwrap_or(line);
    let line = if first { line.strip_prefix(MARK).unwrap_or(line) } else { line };
    let text = std::str::from_utf8(line).map_err(|error| {
        let byte = line.get(error.valid_up_to()).copied().unwrap_or(0);
        Failure::Usage(format!("the line is not UTF-8 text: its byte {} is {byte:#04x}", error.valid_up_to() + 1))
    })?;
    match text.char_indices().find(|(_, letter)| letter.is_control() && *letter != '\t') {
        Some((at, letter)) => {
            let number = u32::from(letter);
            Err(Failure::Usage(format!("the line is not plain text: its byte {} is the control character {number:#04x}", at + 1)))
        }
        None => Ok(text),
    }
}

#[cfg(test)]
mod tests {
    use super::*;

    /// The lines, up to the end or the one that fails.
    fn lines(bytes: &[u8], limit: u64) -> (Vec<String>, Option<String>) {
        let mut lines = Lines::new("script", Box::new(std::io::Cursor::new(bytes.to_vec())), limit);
        let mut found = Vec::new();
        loop {
            match lines.next() {
                Ok(Some(line)) => found.push(line.to_string()),
                Ok(None) => return (found, None),
                Err(failure) => return (found, Some(failure.to_string())),
            }
        }
    }

    #[test]
    fn line_ends_and_the_mark() {
        for bytes in [&b"a b\n\nc"[..], b"a b\r\n\r\nc\r\n", b"\xEF\xBB\xBFa b\n\nc\n", b"\xEF\xBB\xBFa b\r\n\nc\r"] {
            assert_eq!(lines(bytes, 100), (vec!["a b".to_string(), String::new(), "c".to_string()], None));
        }
        assert_eq!(lines(b"", 100), (vec![], None));
        assert_eq!(lines(b"\xEF\xBB\xBF", 100), (vec![String::new()], None));
        // the mark is one at the very beginning only
        assert_eq!(lines(b"a\n\xEF\xBB\xBFb", 100).0[1], "\u{feff}b");
    }

    #[test]
    fn what_is_no_text() {
        let why = |bytes: &[u8]| lines(bytes, 100).1.unwrap();
        assert_eq!(why(b"a\n\nb \xFFc\n"), "script, line 3: the line is not UTF-8 text: its byte 3 is 0xff");
        assert_eq!(why(b"a\xC3"), "script, line 1: the line is not UTF-8 text: its byte 2 is 0xc3");
        assert_eq!(why(b"a\n\0\n"), "script, line 2: the line is not plain text: its byte 1 is the control character 0x00");
        assert_eq!(why(b"# a\rb"), "script, line 1: the line is not plain text: its byte 4 is the control character 0x0d");
        assert_eq!(why(b"\x1B[0m"), "script, line 1: the line is not plain text: its byte 1 is the control character 0x1b");
        assert_eq!(why("a\u{85}b".as_bytes()), "script, line 1: the line is not plain text: its byte 2 is the control character 0x85");
        assert_eq!(lines("a\tb # é\n".as_bytes(), 100).1, None);
    }

    #[test]
    fn all_lines_together_have_a_limit() {
        assert_eq!(lines(b"abc\ndef\n", 8), (vec!["abc".to_string(), "def".to_string()], None));
        let why = Some("script has more than 7 bytes: no script is that long".to_string());
        assert_eq!(lines(b"abc\ndef\n", 7), (vec!["abc".to_string()], why));
        assert_eq!(lines(b"abcdefghi", 7).1.unwrap(), "script has more than 7 bytes: no script is that long");
        assert_eq!(lines(b"abcdefg", 7).0, ["abcdefg"]);
    }

    #[test]
    fn standard_input_has_a_name() {
        let mut lines = Lines::new("-", Box::new(std::io::Cursor::new(b"one\n".to_vec())), 100);
        assert_eq!(lines.next().ok(), Some(Some("one")));
        assert_eq!((lines.place(), lines.length()), ("standard input, line 1".to_string(), 4));
    }
}
