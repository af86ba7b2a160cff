//! The runner for lists of roster calls; FORMAT.md describes the format.
//!
//! Of the store it keeps what was lent and what fresh makes of it. What the cells
//! are after a roster's call no definition decides, and so nothing here follows
//! them: what is said of the store comes from the plain list, from C and from the
//! scratch.

use std::io::{self, Read, Write};

use super::lines::{self, Line};
use super::{ask_reading, ask_seat, Call, Reply, Roster, CELLS_OF_A_SEAT};
use crate::format::{write_line, write_runs, Reader};
use crate::question::{self, Refusal};
use crate::row;
use crate::store::Store;
use crate::table::{CELLS, FIRST_FREE, LAST_FREE, NIL};

pub fn run(mut input: impl Read, mut output: impl Write) -> io::Result<()> {
    let mut text = Vec::new();
    input.read_to_end(&mut text)?;
    let mut reader = Reader::new(&text);
    let mut runner = Runner::new();
    while let Some(line) = lines::next(&mut reader)? {
        let Line::Call { call, decided } = line else {
            runner.lend(line).map_err(|what| reader.error(what))?;
            continue;
        };
        let answer = runner.call(call, decided);
        let answer = answer.map_err(|what| reader.error(what))?;
        write_line(&mut output, reader.letter(), reader.numbers())?;
        write_answer(&mut output, answer, runner.scratch())?;
    }
    output.flush()
}

/// What a list's output says of a call.
#[derive(Clone, Copy, Debug, PartialEq, Eq)]
pub enum Answer {
    Undecided,
    /// Table, queue, scratch and word are as before.
    Same(Refusal),
    /// The reply, and how many seats are then present.
    Ended {
        reply: Reply,
        present: u16,
    },
}

/// What the store is.
#[derive(Clone, Debug)]
enum Standing {
    Roster(Roster),
    /// Lent, or altered since the last call: treated as one that fails the audit.
    Other,
    /// What a call made that the papers don't decide.
    Undecided,
}

/// What the questions before a call give.
enum Asked {
    Passed,
    Refused(Refusal),
    /// The papers leave open whether question 1 passes.
    Open {
        /// Whether a later question refuses the call where it does.
        refused: bool,
    },
}

/// Makes the calls of a list, as far as the papers decide them.
#[derive(Clone, Debug)]
pub struct Runner {
    /// What was lent, and what the last accepted fresh made of it. Of the table
    /// only the first three words are ever looked at.
    store: Store,
    /// For the first and the last free cell, if a roster's calls may have moved it,
    /// the C it is within; else the table's word is right.
    moved: [Option<u16>; 2],
    standing: Standing,
}

impl Runner {
    pub fn new() -> Runner {
        Runner {
            store: Store::zeroed(0, 0),
            moved: [None; 2],
            standing: Standing::Other,
        }
    }

    pub fn scratch(&self) -> &[u16] {
        &self.store.scratch
    }

    /// The plain list, if the store is a roster.
    pub fn roster(&self) -> Option<&Roster> {
        match &self.standing {
            Standing::Roster(roster) => Some(roster),
            _ => None,
        }
    }

    /// C, if the table has a first word.
    pub fn cells(&self) -> Option<u16> {
        self.store.table.get(CELLS).copied()
    }

    /// How many words the table has.
    pub fn table_length(&self) -> usize {
        self.store.table.len()
    }

    /// Does all lines but calls.
    pub fn lend(&mut self, line: Line) -> Result<(), &'static str> {
        match line {
            Line::Table(table) => {
                *self = Runner::new();
                self.store.table = table;
            }
            // Another scratch leaves a roster what it is.
            Line::Scratch(scratch) => self.store.scratch = scratch,
            Line::Queue(queue) => {
                self.store.queue = *queue;
                self.alter();
            }
            Line::Word { index, word } => {
                let old = self.store.table.get_mut(index);
                *old.ok_or("index outside the table")? = word;
                match index {
                    FIRST_FREE => self.moved[0] = None,
                    LAST_FREE => self.moved[1] = None,
                    _ => {}
                }
                self.alter();
            }
            // No question goes by the roster's word, so only that it was given counts.
            Line::RosterWord(_) => self.alter(),
            Line::Title | Line::Call { .. } => {}
        }
        Ok(())
    }

    fn alter(&mut self) {
        if let Standing::Roster(_) = self.standing {
            self.standing = Standing::Other;
        }
    }

    /// Whether the papers decide what this call gives now.
    pub fn decides(&self, call: Call) -> bool {
        match (&self.standing, self.ask(call)) {
            (Standing::Undecided, _) | (_, Asked::Open { .. }) => false,
            (_, Asked::Refused(_)) | (Standing::Roster(_), _) => true,
            (Standing::Other, Asked::Passed) => matches!(call, Call::Fresh(_)),
        }
    }

    /// Makes a call, whose line says whether the papers decide it.
    pub fn call(&mut self, call: Call, decided: bool) -> Result<Answer, &'static str> {
        match (self.decides(call), decided) {
            (true, true) => Ok(self.perform(call)),
            (false, false) => {
                // Refused by the one question or the other, it changes nothing.
                if !matches!(self.ask(call), Asked::Open { refused: true }) {
                    self.standing = Standing::Undecided;
                }
                Ok(Answer::Undecided)
            }
            (true, false) => Err("a call in a U line that the papers decide"),
            (false, true) => Err("a call in an R line that the papers do not decide"),
        }
    }

    /// The questions before a call, but for question 8, which goes by the roster:
    /// 15, then 1 and 2 as of a step, then 4 and 14 of a set.
    fn ask(&self, call: Call) -> Asked {
        if let Call::Fresh(cells) = call {
            return match question::before_fresh(&self.store.table, cells) {
                Ok(()) => Asked::Passed,
                Err(refusal) => Asked::Refused(refusal),
            };
        }
        if let Err(refusal) = ask_seat(call) {
            return Asked::Refused(refusal);
        }
        // An end of the chain that was moved is 0 at least, which is within every
        // range: what is refused even so is refused. It is at most the C it is
        // within: what passes even so passes.
        let least = self.with_moved_ends(|_| NIL);
        if let Err(refusal) = question::store(&least, &self.store.queue) {
            return Asked::Refused(refusal);
        }
        let most = self.with_moved_ends(|cells| cells);
        let is_open = question::store(&most, &self.store.queue).is_err();
        match self.ask_after_the_first(call) {
            later if is_open => Asked::Open {
                refused: later.is_err(),
            },
            Ok(()) => Asked::Passed,
            Err(refusal) => Asked::Refused(refusal),
        }
    }

    /// Question 2, then 4 and 14 of a set.
    fn ask_after_the_first(&self, call: Call) -> Result<(), Refusal> {
        if self.store.scratch.len() < self.store.table[CELLS] as usize {
            return Err(Refusal::Scratch);
        }
        ask_reading(call)
    }

    /// The table with each end of the free chain that was moved put in.
    fn with_moved_ends(&self, end: impl Fn(u16) -> u16) -> Vec<u16> {
        let mut table = self.store.table.clone();
        for (index, within) in [FIRST_FREE, LAST_FREE].into_iter().zip(self.moved) {
            if let Some(cells) = within {
                table[index] = end(cells);
            }
        }
        table
    }

    /// Makes a call that the papers decide.
    fn perform(&mut self, call: Call) -> Answer {
        if let Asked::Refused(refusal) = self.ask(call) {
            return Answer::Same(refusal);
        }
        let cells = self.store.table[CELLS];
        let roster = match (&mut self.standing, call) {
            (standing, Call::Fresh(cells)) => {
                let fresh = row::fresh(&mut self.store.table, &mut self.store.queue, cells);
                fresh.expect("fresh was asked before");
                self.moved = [None; 2];
                *standing = Standing::Roster(Roster::empty());
                return Answer::Ended {
                    reply: Reply::Done(0),
                    present: 0,
                };
            }
            (Standing::Roster(roster), _) => roster,
            _ => unreachable!("decided on a roster only"),
        };
        let reply = reply(roster, call, cells);
        let present = roster.present();
        // The call ends with the scratch as after an audit.
        self.store.scratch[..cells as usize].fill(0);
        self.moved = [Some(cells); 2];
        Answer::Ended { reply, present }
    }
}

impl Default for Runner {
    fn default() -> Runner {
        Runner::new()
    }
}

/// The reply to a call that passed all questions but 8.
fn reply(roster: &mut Roster, call: Call, cells: u16) -> Reply {
    match call {
        Call::Fresh(_) => unreachable!("fresh goes by no roster"),
        Call::Set { seat, reading } => {
            let left = cells - CELLS_OF_A_SEAT * roster.present();
            if roster.look_up(seat).is_none() && left < CELLS_OF_A_SEAT {
                return Reply::Refused(Refusal::NoFreeCell);
            }
            roster.set(seat, reading);
            Reply::Done(0)
        }
        Call::LookUp(seat) => roster.look_up(seat).map_or(Reply::Absent, Reply::Done),
        Call::Remove(seat) if roster.remove(seat) => Reply::Done(0),
        Call::Remove(_) => Reply::Absent,
        Call::Count(threshold) => Reply::Done(roster.count(threshold)),
    }
}

fn write_answer(output: &mut impl Write, answer: Answer, scratch: &[u16]) -> io::Result<()> {
    let (reply, present) = match answer {
        Answer::Undecided => return writeln!(output, " UNDECIDED"),
        Answer::Same(refusal) => return writeln!(output, " NO {}\nSAME", refusal as u8),
        Answer::Ended { reply, present } => (reply, present),
    };
    match reply {
        Reply::Done(value) => writeln!(output, " OK {value}")?,
        Reply::Absent => writeln!(output, " ABSENT")?,
        Reply::Refused(refusal) => writeln!(output, " NO {}", refusal as u8)?,
    }
    // Sound, with no packet waiting. One hold in all, of the roster's word, but
    // none where it is empty and the word nil.
    let holds = u16::from(present > 0);
    let in_use = CELLS_OF_A_SEAT * present;
    writeln!(output, "A 0 0 {holds} {holds} {holds} {in_use}")?;
    write_runs(output, 'S', scratch)
}
