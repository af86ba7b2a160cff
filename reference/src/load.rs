//! Load for the rig (request A2): the same traffic on every controller, told
//! from a seed, with the replies to it.

use std::io::{self, Read, Write};
use std::iter;

use crate::call::Call;
use crate::session;
use crate::store::Store;
use crate::table::FIRST_ATOM;

/// The longest input that can be good.
const MAX_INPUT: usize = b"4294967295 65535 65535\n".len();

pub fn run(input: impl Read, mut output: impl Write) -> io::Result<()> {
    match parse(&read_all(input)?) {
        Some(load) => write_load(&mut output, load)?,
        None => writeln!(output, "BAD")?,
    }
    output.flush()
}

/// Reads to the end, so that a writer on a pipe isn't cut off, but keeps only as
/// much as tells that the input is too long.
fn read_all(mut input: impl Read) -> io::Result<Vec<u8>> {
    let mut kept = Vec::with_capacity(MAX_INPUT + 1);
    let most = MAX_INPUT as u64 + 1;
    input.by_ref().take(most).read_to_end(&mut kept)?;
    io::copy(&mut input, &mut io::sink())?;
    Ok(kept)
}

struct Load {
    seed: u32,
    cells: u16,
    calls: u16,
}

/// What a whole input asks for, or none where it is bad.
fn parse(input: &[u8]) -> Option<Load> {
    let line = input.strip_suffix(b"\n").unwrap_or(input);
    let mut parts = line.split(|&byte| byte == b' ');
    let load = Load {
        seed: session::parse_number(parts.next()?)?,
        cells: session::parse_operand(parts.next()?)?,
        calls: session::parse_operand(parts.next()?)?,
    };
    parts.next().is_none().then_some(load)
}

/// Each call's line and its reply's. A refused fresh stops nothing.
fn write_load(output: &mut impl Write, load: Load) -> io::Result<()> {
    let mut traffic = Traffic {
        state: load.seed,
        cells: load.cells,
    };
    let calls = (0..load.calls).map(|_| traffic.call());
    let mut store = Store::for_any_fresh();
    for (number, call) in (1..).zip(iter::once(Call::Fresh(load.cells)).chain(calls)) {
        session::write_call(output, call)?;
        session::write_reply(output, number, call.perform(&mut store))?;
    }
    Ok(())
}

struct Traffic {
    state: u32,
    cells: u16,
}

impl Traffic {
    /// Call first, then the operands as written; Rust evaluates them in order.
    fn call(&mut self) -> Call {
        match self.draw() % 8 {
            0 => Call::Car(self.operand()),
            1 => Call::Cdr(self.operand()),
            2 => Call::Cons(self.operand(), self.operand()),
            3 => Call::ReplaceLeft(self.operand(), self.operand()),
            4 => Call::ReplaceRight(self.operand(), self.operand()),
            5 => Call::Up(self.operand(), self.number()),
            6 => Call::Down(self.operand(), self.number()),
            _ => Call::Step,
        }
    }

    /// 32 bits wide, since C + 2 can be 65,537.
    fn operand(&mut self) -> u16 {
        let past_cells = u32::from(self.cells) + 1;
        let drawn = u32::from(self.draw()) % (past_cells + 1);
        if drawn == past_cells {
            FIRST_ATOM
        } else {
            drawn as u16
        }
    }

    fn number(&mut self) -> u16 {
        self.draw() % 4
    }

    fn draw(&mut self) -> u16 {
        self.state = self
            .state
            .wrapping_mul(1_664_525)
            .wrapping_add(1_013_904_223);
        (self.state >> 16) as u16
    }
}
