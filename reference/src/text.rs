//! Lines of text, written by hand: formatting would take most of a program's
//! time.

use std::io::{self, Write};

/// One line on the stack, put together from its end to its front, which is the
/// order in which the digits of a number come.
pub struct Line {
    bytes: [u8; Line::LENGTH],
    start: usize,
}

impl Line {
    /// A number of 64 bits, ` OK `, a word and the line feed have 30 bytes.
    const LENGTH: usize = 32;

    /// A line with nothing but its line feed.
    #[inline]
    pub fn new() -> Line {
        Line {
            bytes: [b'\n'; Line::LENGTH],
            start: Line::LENGTH - 1,
        }
    }

    #[inline]
    pub fn text(&mut self, text: &[u8]) {
        let end = self.start;
        self.start -= text.len();
        self.bytes[self.start..end].copy_from_slice(text);
    }

    /// A number in base ten.
    #[inline]
    pub fn number(&mut self, mut number: u64) {
        loop {
            self.start -= 1;
            self.bytes[self.start] = b'0' + (number % 10) as u8;
            number /= 10;
            if number == 0 {
                return;
            }
        }
    }

    #[inline]
    pub fn write(&self, output: &mut impl Write) -> io::Result<()> {
        output.write_all(&self.bytes[self.start..])
    }
}
