//! The session program: one call a line in, one reply a line out.

use std::io::{self, BufRead, Write};

use crate::call::{Call, Reply};
use crate::lines::Lines;
use crate::store::Store;
use crate::text::Line;

const MAX_LINE: usize = 80;

pub fn run(input: impl BufRead, mut output: impl Write) -> io::Result<()> {
    let mut store = Store::for_any_fresh();
    let mut lines = Lines::new(input, MAX_LINE + 1);
    let mut number: u64 = 0;
    while let Some(line) = lines.next_line()? {
        number += 1;
        match parse(line) {
            Some(call) => write_reply(&mut output, number, call.perform(&mut store))?,
            None => writeln!(output, "{number} BAD")?,
        }
    }
    output.flush()
}

/// The line of a call, as `parse` reads it.
pub fn write_call(output: &mut impl Write, call: Call) -> io::Result<()> {
    match call {
        Call::Fresh(cells) => write_named(output, b"fresh", &[cells]),
        Call::Car(x) => write_named(output, b"car", &[x]),
        Call::Cdr(x) => write_named(output, b"cdr", &[x]),
        Call::Cons(x, y) => write_named(output, b"cons", &[x, y]),
        Call::ReplaceLeft(x, y) => write_named(output, b"setl", &[x, y]),
        Call::ReplaceRight(x, y) => write_named(output, b"setr", &[x, y]),
        Call::Up(x, n) => write_named(output, b"up", &[x, n]),
        Call::Down(x, n) => write_named(output, b"down", &[x, n]),
        Call::Step => write_named(output, b"step", &[]),
        Call::Audit => write_named(output, b"audit", &[]),
    }
}

fn write_named(output: &mut impl Write, name: &[u8], operands: &[u16]) -> io::Result<()> {
    let mut line = Line::new();
    for &operand in operands.iter().rev() {
        line.number(operand.into());
        line.text(b" ");
    }
    line.text(name);
    line.write(output)
}

/// The line of a reply, numbered as its call is.
pub fn write_reply(output: &mut impl Write, number: u64, reply: Reply) -> io::Result<()> {
    let mut line = Line::new();
    match reply {
        Reply::Done(value) | Reply::Taken { freed: value, .. } => {
            line.number(value.into());
            line.text(b" OK ");
        }
        Reply::Refused(refusal) => {
            line.number(refusal as u64);
            line.text(b" NO ");
        }
        Reply::Idle => line.text(b" IDLE"),
        Reply::Sound | Reply::Broken(_) => unreachable!("a session has no audit"),
    }
    line.number(number);
    line.write(output)
}

/// The call of a line, or none where the line is bad.
pub fn parse(line: &[u8]) -> Option<Call> {
    if line.len() > MAX_LINE {
        return None;
    }
    let mut parts = line.split(|&byte| byte == b' ');
    let name = parts.next()?;
    let mut operand = || parse_operand(parts.next()?);
    let call = match name {
        b"fresh" => Call::Fresh(operand()?),
        b"car" => Call::Car(operand()?),
        b"cdr" => Call::Cdr(operand()?),
        b"cons" => Call::Cons(operand()?, operand()?),
        b"setl" => Call::ReplaceLeft(operand()?, operand()?),
        b"setr" => Call::ReplaceRight(operand()?, operand()?),
        b"up" => Call::Up(operand()?, operand()?),
        b"down" => Call::Down(operand()?, operand()?),
        b"step" => Call::Step,
        _ => return None,
    };
    parts.next().is_none().then_some(call)
}

/// A number from 0 to 65,535 in base ten without leading zeros.
pub fn parse_operand(digits: &[u8]) -> Option<u16> {
    u16::try_from(parse_number(digits)?).ok()
}

/// A number of 32 bits in base ten without leading zeros.
pub fn parse_number(digits: &[u8]) -> Option<u32> {
    if digits.is_empty() || (digits.len() > 1 && digits[0] == b'0') {
        return None;
    }
    digits.iter().try_fold(0u32, |value, &byte| {
        let digit = byte.is_ascii_digit().then(|| byte - b'0')?;
        value.checked_mul(10)?.checked_add(u32::from(digit))
    })
}
