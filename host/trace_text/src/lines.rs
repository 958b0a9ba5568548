//! Lines of text, one at a time: nothing is ever held but one of them.

use std::io::{BufRead, Read};

/// The longest line that is read, in bytes: longer ones are refused.
const LINE: u64 = 1024;

/// A text that is read line by line.
pub struct Lines<R> {
    pub(crate) from: R,
    seen: u64,
}

impl<R: BufRead> Lines<R> {
    /// The lines of a text, from its first.
    pub fn new(from: R) -> Lines<R> {
        Lines { from, seen: 0 }
    }

    /// The number of the line that was read last, from 1.
    pub fn seen(&self) -> u64 {
        self.seen
    }

    /// The next line that is not empty, its comment cut off; none at the end. What is wrong with it otherwise.
    pub fn next_line(&mut self) -> Result<Option<String>, String> {
        loop {
            let mut bytes = Vec::new();
            self.seen += 1;
            if (&mut self.from).take(LINE + 1).read_until(b'\n', &mut bytes).map_err(|error| error.to_string())? == 0 {
                return Ok(None);
            }
            if bytes.last() != Some(&b'\n') && bytes.len() as u64 > LINE {
                return Err(format!("this line is longer than {LINE} bytes"));
            }
            let line = std::str::from_utf8(&bytes).map_err(|_| String::from("this is no text"))?;
            let line = line.split('#').next().unwrap_or("").trim();
            if !line.is_empty() {
                return Ok(Some(line.to_string()));
            }
        }
    }
}
