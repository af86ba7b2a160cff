//! Marks the calls of a list that document 01 doesn't decide, for programs that
//! can't tell by themselves; FORMAT.md describes what is written.

use std::io::{self, Read, Write};

use crate::format::{encode, write_line, Line, Reader};
use crate::session;
use crate::states::Runner;

pub fn run(codes: Codes, mut input: impl Read, mut output: impl Write) -> io::Result<()> {
    let mut text = Vec::new();
    input.read_to_end(&mut text)?;
    let mut reader = Reader::new(&text);
    let mut runner = Runner::new();
    while let Some(line) = reader.line()? {
        let mut letter = reader.letter();
        match line {
            Line::Title => continue,
            Line::Lent(lent) => runner.lend(lent).map_err(|what| reader.error(what))?,
            Line::Call(call, _) if !codes.contain(encode(call).0) => continue,
            Line::Call(call, sort) => {
                let answer = runner.call(call, sort);
                if answer.map_err(|what| reader.error(what))?.is_none() {
                    letter = 'U';
                }
            }
            Line::Text(call, _) if !codes.contain(call.code()) => continue,
            Line::Text(call, sort) => {
                let answer = runner.text(&call, sort);
                if answer.map_err(|what| reader.error(what))?.is_none() {
                    letter = 'U';
                }
            }
        }
        write_line(&mut output, letter, reader.numbers())?;
        writeln!(output)?;
    }
    output.flush()
}

/// The codes of the calls that are kept.
#[derive(Clone, Copy, Debug, PartialEq, Eq)]
pub struct Codes([bool; Codes::COUNT]);

impl Codes {
    const COUNT: usize = 12;
    pub const ALL: Codes = Codes([true; Codes::COUNT]);

    /// Reads codes and ranges of codes with commas between, such as `0-7,9`.
    pub fn parse(text: &str) -> Option<Codes> {
        let mut codes = Codes([false; Codes::COUNT]);
        for part in text.split(',') {
            let (first, last) = part.split_once('-').unwrap_or((part, part));
            let range = code(first)?..=code(last)?;
            if range.is_empty() {
                return None;
            }
            codes.0[range].fill(true);
        }
        Some(codes)
    }

    fn contain(self, code: u16) -> bool {
        self.0[code as usize]
    }
}

fn code(text: &str) -> Option<usize> {
    let code = usize::from(session::parse_operand(text.as_bytes())?);
    (code < Codes::COUNT).then_some(code)
}
