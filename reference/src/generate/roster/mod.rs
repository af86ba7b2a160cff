//! Generators of lists for `reference roster`; README.md describes them.

use std::io::{self, Write};

use super::rng::Rng;
use crate::format::{write_queue, write_runs, write_store};
use crate::queue::Queue;
use crate::roster::{Call, Line, Roster, Runner};
use crate::store::Store;
use crate::table::length;

mod altered;
mod borders;
mod full;
mod lent;
mod orders;
mod others;
mod questions;
mod runs;

pub const LISTS: [&str; 15] = [
    "seats",
    "readings",
    "thresholds",
    "questions",
    "question1",
    "sizes",
    "orders",
    "turns",
    "full",
    "scratches",
    "freshes",
    "words",
    "altered",
    "others",
    "runs",
];

/// One list; `cases` matters only to those of random cases.
pub fn write_list(
    rng: &mut Rng,
    name: &str,
    cases: usize,
    output: &mut dyn Write,
) -> io::Result<()> {
    let calls = &mut Calls::new(output);
    match name {
        "seats" => borders::seats(calls),
        "readings" => borders::readings(calls),
        "thresholds" => borders::thresholds(rng, calls),
        "questions" => questions::questions(calls),
        "question1" => questions::question_1(rng, calls),
        "sizes" => orders::sizes(rng, calls),
        "orders" => orders::orders(calls),
        "turns" => orders::turns(calls),
        "full" => full::full(rng, calls, cases),
        "scratches" => lent::scratches(rng, calls),
        "freshes" => lent::freshes(rng, calls),
        "words" => altered::words(rng, calls),
        "altered" => altered::altered(rng, calls, cases),
        "others" => others::others(rng, calls, cases),
        "runs" => runs::runs(rng, calls, cases),
        _ => Err(super::usage("no such list")),
    }
}

/// Writes a list, and follows it with the runner to tell which calls the papers
/// don't decide.
pub struct Calls<'a> {
    output: &'a mut dyn Write,
    runner: Runner,
}

impl Calls<'_> {
    fn new(output: &mut dyn Write) -> Calls<'_> {
        Calls {
            output,
            runner: Runner::new(),
        }
    }

    fn title(&mut self, text: &str) -> io::Result<()> {
        writeln!(self.output, "# {text}")
    }

    /// A new store.
    fn store(&mut self, store: &Store) -> io::Result<()> {
        write_store(&mut self.output, store)?;
        self.lend(Line::Table(store.table.clone()))?;
        self.lend(Line::Queue(Box::new(store.queue.clone())))?;
        self.lend(Line::Scratch(store.scratch.clone()))
    }

    fn queue(&mut self, queue: &Queue) -> io::Result<()> {
        write_queue(&mut self.output, queue)?;
        self.lend(Line::Queue(Box::new(queue.clone())))
    }

    fn scratch(&mut self, scratch: &[u16]) -> io::Result<()> {
        write_runs(&mut self.output, 'S', scratch)?;
        self.lend(Line::Scratch(scratch.to_vec()))
    }

    /// Word `index` of the table.
    fn word(&mut self, index: usize, word: u16) -> io::Result<()> {
        writeln!(self.output, "W {index} {word}")?;
        self.lend(Line::Word { index, word })
    }

    fn roster_word(&mut self, word: u16) -> io::Result<()> {
        writeln!(self.output, "V {word}")?;
        self.lend(Line::RosterWord(word))
    }

    fn lend(&mut self, line: Line) -> io::Result<()> {
        self.runner.lend(line).map_err(super::usage)
    }

    fn call(&mut self, call: Call) -> io::Result<()> {
        let decided = self.runner.decides(call);
        let letter = if decided { 'R' } else { 'U' };
        let (code, p, q) = call.encode();
        writeln!(self.output, "{letter} {code} {p} {q}")?;
        self.runner.call(call, decided).map_err(super::usage)?;
        Ok(())
    }

    fn fresh(&mut self, cells: u16) -> io::Result<()> {
        self.call(Call::Fresh(cells))
    }

    fn set(&mut self, seat: u16, reading: u16) -> io::Result<()> {
        self.call(Call::Set { seat, reading })
    }

    fn look_up(&mut self, seat: u16) -> io::Result<()> {
        self.call(Call::LookUp(seat))
    }

    fn remove(&mut self, seat: u16) -> io::Result<()> {
        self.call(Call::Remove(seat))
    }

    fn count(&mut self, threshold: u16) -> io::Result<()> {
        self.call(Call::Count(threshold))
    }

    /// A zero table with room for so many cells, a scratch of as many words 7, and a
    /// fresh.
    fn empty_roster(&mut self, title: &str, cells: u16) -> io::Result<()> {
        self.title(title)?;
        let mut store = Store::zeroed(length(cells), cells as usize);
        store.scratch.fill(7);
        self.store(&store)?;
        self.fresh(cells)
    }

    /// The plain list, empty where the store is no roster.
    fn roster(&self) -> Roster {
        self.runner.roster().cloned().unwrap_or_default()
    }

    /// Looks up these seats.
    fn look_up_all(&mut self, seats: impl IntoIterator<Item = u16>) -> io::Result<()> {
        seats.into_iter().try_for_each(|seat| self.look_up(seat))
    }
}

/// A scratch of any words.
fn any_scratch(rng: &mut Rng, words: usize) -> Vec<u16> {
    (0..words).map(|_| rng.word()).collect()
}

/// A scratch in which few runs are, so that its line is short.
fn plain_scratch(rng: &mut Rng, words: usize) -> Vec<u16> {
    let mut scratch = vec![rng.word(); words];
    if let Some(last) = scratch.last_mut() {
        *last = rng.word();
    }
    scratch
}

/// The readings 0 to 4,094, those at the borders more often.
fn any_reading(rng: &mut Rng) -> u16 {
    match rng.below(4) {
        0 => rng.pick(&[0, 1, 2, 600, 4_093, 4_094]),
        _ => rng.within(0, 4_094),
    }
}
