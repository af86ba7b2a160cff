//! Lines of any length, of which only as much is kept as tells that a line is
//! too long.

use std::io::{self, BufRead, ErrorKind};

pub struct Lines<R> {
    input: R,
    line: Vec<u8>,
    /// How many bytes of a line are kept.
    keep: usize,
}

impl<R: BufRead> Lines<R> {
    pub fn new(input: R, keep: usize) -> Self {
        Lines {
            input,
            line: Vec::with_capacity(keep),
            keep,
        }
    }

    /// The next line without its line feed, which the last one may lack.
    pub fn next_line(&mut self) -> io::Result<Option<&[u8]>> {
        self.line.clear();
        let mut started = false;
        loop {
            let buffer = match self.input.fill_buf() {
                Ok(buffer) => buffer,
                Err(error) if error.kind() == ErrorKind::Interrupted => continue,
                Err(error) => return Err(error),
            };
            if buffer.is_empty() {
                return Ok(started.then_some(&self.line));
            }
            started = true;
            let feed = buffer.iter().position(|&byte| byte == b'\n');
            let part = &buffer[..feed.unwrap_or(buffer.len())];
            let room = self.keep - self.line.len();
            self.line.extend_from_slice(&part[..part.len().min(room)]);
            let used = part.len() + usize::from(feed.is_some());
            self.input.consume(used);
            if feed.is_some() {
                return Ok(Some(&self.line));
            }
        }
    }
}
