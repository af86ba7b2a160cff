//! Reading and writing the lines of lists; FORMAT.md describes the format.

use std::io::{self, Write};

use crate::call::Call;
use crate::queue::{Packet, Queue};
use crate::store::Store;
use crate::text_call::TextCall;

/// The longest table, scratch, text or buffer.
const MAX_LENGTH: usize = 1 << 24;

pub enum Line {
    Title,
    Lent(Lent),
    Call(Call, Sort),
    Text(TextCall, Sort),
}

/// What the calls after it work on.
pub enum Lent {
    Table(Vec<u16>),
    Queue(Box<Queue>),
    Scratch(Vec<u16>),
    Word { index: usize, word: u16 },
}

/// What a call line asks for after the reply.
#[derive(Clone, Copy, Debug, PartialEq, Eq)]
pub enum Sort {
    Whole,
    Brief,
    /// Nothing: document 01 doesn't decide the call.
    Undecided,
}

/// Reads a list line by line, going by letters and numbers; spaces and line
/// feeds only separate them.
pub struct Reader<'a> {
    text: &'a [u8],
    next: usize,
    letter: u8,
    numbers: Vec<usize>,
}

impl<'a> Reader<'a> {
    pub fn new(text: &'a [u8]) -> Reader<'a> {
        Reader {
            text,
            next: 0,
            letter: 0,
            numbers: Vec::new(),
        }
    }

    /// The letter of the next line, or none at the end.
    pub(crate) fn start(&mut self) -> Option<u8> {
        self.skip_space();
        let &letter = self.text.get(self.next)?;
        self.next += 1;
        self.letter = letter;
        self.numbers.clear();
        Some(letter)
    }

    /// The next line, or none at the end.
    pub fn line(&mut self) -> io::Result<Option<Line>> {
        let Some(letter) = self.start() else {
            return Ok(None);
        };
        Ok(Some(match letter {
            b'#' => {
                self.skip_line();
                Line::Title
            }
            b'T' => Line::Lent(Lent::Table(self.runs(MAX_LENGTH)?)),
            b'Q' => Line::Lent(Lent::Queue(Box::new(self.queue()?))),
            b'S' => Line::Lent(Lent::Scratch(self.runs(MAX_LENGTH)?)),
            b'W' => Line::Lent(Lent::Word {
                index: self.number(usize::MAX)?,
                word: self.word()?,
            }),
            b'C' => self.call(Sort::Whole)?,
            b'B' => self.call(Sort::Brief)?,
            b'U' => self.call(Sort::Undecided)?,
            _ => return Err(self.error("no such letter")),
        }))
    }

    /// The letter of the line read last.
    pub fn letter(&self) -> char {
        self.letter as char
    }

    /// The numbers of the line read last, as given.
    pub fn numbers(&self) -> &[usize] {
        &self.numbers
    }

    fn call(&mut self, sort: Sort) -> io::Result<Line> {
        let code = self.word()?;
        if code == TextCall::READ {
            let text = self.text()?;
            return Ok(Line::Text(TextCall::Read(text), sort));
        }
        if code == TextCall::WRITE {
            let call = TextCall::Write {
                word: self.word()?,
                length: self.number(MAX_LENGTH)?,
                fill: self.byte()?,
            };
            return Ok(Line::Text(call, sort));
        }
        let (p, q) = (self.word()?, self.word()?);
        let call = decode(code, p, q).ok_or_else(|| self.error("no such call"))?;
        Ok(Line::Call(call, sort))
    }

    /// A length and as many bytes.
    fn text(&mut self) -> io::Result<Vec<u8>> {
        let length = self.number(MAX_LENGTH)?;
        (0..length).map(|_| self.byte()).collect()
    }

    fn byte(&mut self) -> io::Result<u8> {
        Ok(self.number(u8::MAX as usize)? as u8)
    }

    fn skip_space(&mut self) {
        while matches!(self.text.get(self.next), Some(b' ' | b'\n')) {
            self.next += 1;
        }
    }

    pub(crate) fn skip_line(&mut self) {
        while !matches!(self.text.get(self.next), None | Some(b'\n')) {
            self.next += 1;
        }
    }

    fn number(&mut self, max: usize) -> io::Result<usize> {
        self.skip_space();
        let start = self.next;
        let mut value: usize = 0;
        while let Some(digit) = self.text.get(self.next).filter(|b| b.is_ascii_digit()) {
            value = value
                .saturating_mul(10)
                .saturating_add(usize::from(digit - b'0'));
            self.next += 1;
        }
        if self.next == start {
            return Err(self.error("number expected"));
        }
        if value > max {
            return Err(self.error("number too large"));
        }
        self.numbers.push(value);
        Ok(value)
    }

    pub(crate) fn word(&mut self) -> io::Result<u16> {
        Ok(self.number(u16::MAX as usize)? as u16)
    }

    /// Length, at most the longest, number of runs, then each run's length and word.
    pub(crate) fn runs(&mut self, longest: usize) -> io::Result<Vec<u16>> {
        let length = self.number(longest)?;
        let runs = self.number(length)?;
        let mut words = Vec::with_capacity(length);
        for _ in 0..runs {
            let count = self.number(length - words.len())?;
            let word = self.word()?;
            words.resize(words.len() + count, word);
        }
        if words.len() != length {
            return Err(self.error("runs shorter than the length"));
        }
        Ok(words)
    }

    /// Place, count, number of slots given, then slot, kind, a, b, c of each.
    pub(crate) fn queue(&mut self) -> io::Result<Queue> {
        let mut queue = Queue::empty();
        queue.place = self.word()?;
        queue.count = self.word()?;
        for _ in 0..self.number(Queue::SLOTS)? {
            let slot = self.number(Queue::SLOTS - 1)?;
            let packet = Packet {
                kind: self.word()?,
                a: self.word()?,
                b: self.word()?,
                c: self.word()?,
            };
            queue.set_slot(slot, packet);
        }
        Ok(queue)
    }

    /// An error in the line read last.
    pub fn error(&self, what: &str) -> io::Error {
        let line = 1 + self.text[..self.next]
            .iter()
            .filter(|&&byte| byte == b'\n')
            .count();
        io::Error::new(io::ErrorKind::InvalidData, format!("line {line}: {what}"))
    }
}

fn decode(code: u16, p: u16, q: u16) -> Option<Call> {
    Some(match code {
        0 => Call::Fresh(p),
        1 => Call::Car(p),
        2 => Call::Cdr(p),
        3 => Call::Cons(p, q),
        4 => Call::ReplaceLeft(p, q),
        5 => Call::ReplaceRight(p, q),
        6 => Call::Up(p, q),
        7 => Call::Down(p, q),
        8 => Call::Step,
        9 => Call::Audit,
        _ => return None,
    })
}

/// Code, p and q.
pub fn encode(call: Call) -> (u16, u16, u16) {
    match call {
        Call::Fresh(cells) => (0, cells, 0),
        Call::Car(x) => (1, x, 0),
        Call::Cdr(x) => (2, x, 0),
        Call::Cons(x, y) => (3, x, y),
        Call::ReplaceLeft(x, y) => (4, x, y),
        Call::ReplaceRight(x, y) => (5, x, y),
        Call::Up(x, n) => (6, x, n),
        Call::Down(x, n) => (7, x, n),
        Call::Step => (8, 0, 0),
        Call::Audit => (9, 0, 0),
    }
}

/// A letter and numbers, without the line feed.
pub fn write_line(output: &mut impl Write, letter: char, numbers: &[usize]) -> io::Result<()> {
    write!(output, "{letter}")?;
    for number in numbers {
        write!(output, " {number}")?;
    }
    Ok(())
}

/// A call line, whole or brief.
pub fn write_call(output: &mut impl Write, call: Call, brief: bool) -> io::Result<()> {
    let (code, p, q) = encode(call);
    let letter = if brief { 'B' } else { 'C' };
    writeln!(output, "{letter} {code} {p} {q}")
}

/// A text call's line, whole or brief.
pub fn write_text_call(output: &mut impl Write, call: &TextCall, brief: bool) -> io::Result<()> {
    let letter = if brief { 'B' } else { 'C' };
    write!(output, "{letter} {}", call.code())?;
    match call {
        TextCall::Read(text) => {
            write!(output, " {}", text.len())?;
            for byte in text {
                write!(output, " {byte}")?;
            }
        }
        TextCall::Write { word, length, fill } => write!(output, " {word} {length} {fill}")?,
    }
    writeln!(output)
}

/// The T, Q and S lines of a store.
pub fn write_store(output: &mut impl Write, store: &Store) -> io::Result<()> {
    write_runs(output, 'T', &store.table)?;
    write_queue(output, &store.queue)?;
    write_runs(output, 'S', &store.scratch)
}

/// The Q line of a queue.
pub fn write_queue(output: &mut impl Write, queue: &Queue) -> io::Result<()> {
    let filled = || (0..Queue::SLOTS).filter(|&i| queue.slot(i) != Packet::ZERO);
    write!(
        output,
        "Q {} {} {}",
        queue.place,
        queue.count,
        filled().count()
    )?;
    for i in filled() {
        let Packet { kind, a, b, c } = queue.slot(i);
        write!(output, " {i} {kind} {a} {b} {c}")?;
    }
    writeln!(output)
}

/// The F line of a buffer.
pub fn write_buffer(output: &mut impl Write, buffer: &[u8]) -> io::Result<()> {
    let bytes: Vec<u16> = buffer.iter().map(|&byte| byte.into()).collect();
    write_runs(output, 'F', &bytes)
}

/// The line of a table, a scratch or a buffer.
pub fn write_runs(output: &mut impl Write, letter: char, words: &[u16]) -> io::Result<()> {
    let runs = || words.chunk_by(|a, b| a == b);
    write!(output, "{letter} {} {}", words.len(), runs().count())?;
    for run in runs() {
        write!(output, " {} {}", run.len(), run[0])?;
    }
    writeln!(output)
}
