//! The program `reference rules`: one rule text a line in, the text as the store
//! writes it out, or the refusal.

use std::io::{self, BufRead, Write};

use crate::call::{Call, Reply};
use crate::lines::Lines;
use crate::notation::MAX_TEXT;
use crate::question::Refusal;
use crate::rule_text;
use crate::store::Store;
use crate::table::is_cell;

const CELLS: u16 = 64;
const BUFFER: usize = 4_096;

pub fn run(input: impl BufRead, mut output: impl Write) -> io::Result<()> {
    let mut store = Store::for_any_fresh();
    Call::Fresh(CELLS).perform(&mut store);
    // A line of which one byte over 4,096 is kept is refused as the whole is.
    let mut lines = Lines::new(input, MAX_TEXT + 1);
    let mut buffer = [0; BUFFER];
    while let Some(line) = lines.next_line()? {
        match answer(&mut store, line, &mut buffer) {
            Ok(length) => {
                output.write_all(&buffer[..length])?;
                writeln!(output)?;
            }
            Err(refusal) => writeln!(output, "NO {}", refusal as u8)?,
        }
    }
    output.flush()
}

/// Reads a text, writes it out again and leaves the store empty and idle.
fn answer(store: &mut Store, text: &[u8], buffer: &mut [u8]) -> Result<usize, Refusal> {
    let word = rule_text::read(&mut store.table, &mut store.queue, text)?;
    let written = rule_text::write(&store.table, &store.queue, word, buffer);
    step_until_idle(store);
    if is_cell(word, CELLS) {
        Call::Down(word, 1).perform(store);
        step_until_idle(store);
    }
    written
}

fn step_until_idle(store: &mut Store) {
    while Call::Step.perform(store) != Reply::Idle {}
}
