//! The runner for lists of stores and calls; FORMAT.md describes the format.

use std::io::{self, Read, Write};

use crate::audit::{self, Verdict};
use crate::call::{Call, Reply};
use crate::format::{write_buffer, write_line, write_store, Lent, Line, Reader, Sort};
use crate::queue::{Packet, Queue};
use crate::store::Store;
use crate::table::MAX_CELLS;
use crate::text_call::{TextCall, TextReply};

pub fn run(mut input: impl Read, mut output: impl Write) -> io::Result<()> {
    let mut text = Vec::new();
    input.read_to_end(&mut text)?;
    let mut reader = Reader::new(&text);
    let mut runner = Runner::new();
    while let Some(line) = reader.line()? {
        match line {
            Line::Title => {}
            Line::Lent(lent) => runner.lend(lent).map_err(|what| reader.error(what))?,
            Line::Call(call, sort) => {
                let answer = runner.call(call, sort);
                let reply = answer.map_err(|what| reader.error(what))?;
                write_line(&mut output, reader.letter(), reader.numbers())?;
                match reply {
                    Some(reply) => {
                        write_reply(&mut output, reply)?;
                        write_state(&mut output, sort, &runner.store)?;
                    }
                    None => writeln!(output, " UNDECIDED")?,
                }
            }
            Line::Text(call, sort) => {
                let answer = runner.text(&call, sort);
                let reply = answer.map_err(|what| reader.error(what))?;
                // The bytes of a text read are not repeated.
                let shown = match call {
                    TextCall::Read(_) => &reader.numbers()[..2],
                    TextCall::Write { .. } => reader.numbers(),
                };
                write_line(&mut output, reader.letter(), shown)?;
                match reply {
                    Some(reply) => write_text_reply(&mut output, &reply, sort, &runner.store)?,
                    None => writeln!(output, " UNDECIDED")?,
                }
            }
        }
    }
    output.flush()
}

/// The reply to a text call, the store after it, and the buffer, if it had one.
fn write_text_reply(
    output: &mut impl Write,
    reply: &TextReply,
    sort: Sort,
    store: &Store,
) -> io::Result<()> {
    match reply.value {
        Ok(value) => writeln!(output, " OK {value}")?,
        Err(refusal) => writeln!(output, " NO {}", refusal as u8)?,
    }
    write_state(output, sort, store)?;
    match &reply.buffer {
        Some(buffer) => write_buffer(output, buffer),
        None => Ok(()),
    }
}

/// Makes the calls of a list, as far as document 01 decides them.
pub struct Runner {
    store: Store,
    /// Whether a call that document 01 doesn't decide was met since the store
    /// was given: then nothing about the store is decided any more.
    undecided: bool,
    /// Scratch for the audit before each call; the list's own stays as it is.
    work: Vec<u16>,
}

impl Runner {
    pub fn new() -> Runner {
        Runner {
            store: Store::zeroed(0, 0),
            undecided: false,
            work: vec![0; MAX_CELLS as usize],
        }
    }

    pub fn store(&self) -> &Store {
        &self.store
    }

    pub fn lend(&mut self, lent: Lent) -> Result<(), &'static str> {
        match lent {
            Lent::Table(table) => {
                self.store = Store::zeroed(0, 0);
                self.store.table = table;
                self.undecided = false;
            }
            Lent::Queue(queue) => self.store.queue = *queue,
            Lent::Scratch(scratch) => self.store.scratch = scratch,
            Lent::Word { index, word } => match self.store.table.get_mut(index) {
                Some(old) => *old = word,
                None => return Err("index outside the table"),
            },
        }
        Ok(())
    }

    /// The reply to a call, or none where document 01 doesn't decide it.
    pub fn call(&mut self, call: Call, sort: Sort) -> Result<Option<Reply>, &'static str> {
        self.undecided |= self.is_undecided(call);
        if self.undecided {
            return Ok(None);
        }
        if sort == Sort::Undecided {
            return Err("a call in a U line that document 01 decides");
        }
        Ok(Some(call.perform(&mut self.store)))
    }

    /// The reply to a text call, or none where the papers don't decide it.
    pub fn text(&mut self, call: &TextCall, sort: Sort) -> Result<Option<TextReply>, &'static str> {
        self.undecided |= call.first_questions(&self.store).is_ok() && !self.is_sound();
        if self.undecided {
            return Ok(None);
        }
        if sort == Sort::Undecided {
            return Err("a text call in a U line that the papers decide");
        }
        Ok(Some(call.perform(&mut self.store)))
    }

    /// Whether document 01 leaves open what this call gives.
    fn is_undecided(&mut self, call: Call) -> bool {
        !call.is_decided_on_any_store()
            && call.first_questions(&self.store).is_ok()
            && !self.is_sound()
    }

    fn is_sound(&mut self) -> bool {
        let Store { table, queue, .. } = &self.store;
        audit::audit(table, queue, &mut self.work) == Ok(Verdict::Sound)
    }
}

impl Default for Runner {
    fn default() -> Runner {
        Runner::new()
    }
}

fn write_reply(output: &mut impl Write, reply: Reply) -> io::Result<()> {
    match reply {
        Reply::Done(value) => writeln!(output, " OK {value}"),
        Reply::Refused(refusal) => writeln!(output, " NO {}", refusal as u8),
        Reply::Idle => writeln!(output, " IDLE"),
        Reply::Taken { kind, freed } => writeln!(output, " TAKEN {kind} {freed}"),
        Reply::Sound => writeln!(output, " SOUND"),
        Reply::Broken(rule) => writeln!(output, " BROKEN {}", rule as u8),
    }
}

fn write_state(output: &mut impl Write, sort: Sort, store: &Store) -> io::Result<()> {
    match sort {
        Sort::Whole => write_store(output, store),
        Sort::Brief => writeln!(output, "H {}", checksum(store)),
        Sort::Undecided => Ok(()),
    }
}

/// One number for the whole store, for calls on stores too long to write out.
fn checksum(store: &Store) -> u64 {
    let Store {
        table,
        queue,
        scratch,
    } = store;
    let mut sum: u64 = 0;
    let mut add = |word: usize| sum = (sum * 65_599 + word as u64 + 1) % 4_294_967_291;
    add(table.len());
    table.iter().for_each(|&word| add(word.into()));
    add(queue.place.into());
    add(queue.count.into());
    for i in 0..Queue::SLOTS {
        let Packet { kind, a, b, c } = queue.slot(i);
        for word in [kind, a, b, c] {
            add(word.into());
        }
    }
    add(scratch.len());
    scratch.iter().for_each(|&word| add(word.into()));
    sum
}
