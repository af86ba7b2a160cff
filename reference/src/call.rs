//! Calls and replies as values, for the programs that read and write them.

use crate::audit::{self, Rule, Verdict};
use crate::collector::{self, Step};
use crate::question::{self, Refusal};
use crate::row;
use crate::store::Store;
use crate::table::NIL;

/// Operands in document 01's order; the replaces have x, then y.
#[derive(Clone, Copy, Debug, PartialEq, Eq)]
pub enum Call {
    Fresh(u16),
    Car(u16),
    Cdr(u16),
    Cons(u16, u16),
    ReplaceLeft(u16, u16),
    ReplaceRight(u16, u16),
    Up(u16, u16),
    Down(u16, u16),
    Step,
    Audit,
}

#[derive(Clone, Copy, Debug, PartialEq, Eq)]
pub enum Reply {
    /// Accepted, with the new cell, the word read or detached, else 0.
    Done(u16),
    Refused(Refusal),
    Idle,
    Taken {
        kind: u16,
        freed: u16,
    },
    Sound,
    Broken(Rule),
}

impl Call {
    /// Makes the call. On a store that fails the audit, a call may do anything
    /// past its first questions, unless it is decided on any store.
    pub fn perform(self, store: &mut Store) -> Reply {
        self.attempt(store).unwrap_or_else(Reply::Refused)
    }

    fn attempt(self, store: &mut Store) -> Result<Reply, Refusal> {
        let Store {
            table,
            queue,
            scratch,
        } = store;
        Ok(match self {
            Call::Fresh(cells) => {
                row::fresh(table, queue, cells)?;
                Reply::Done(0)
            }
            Call::Car(x) => Reply::Done(row::car(table, queue, x)?),
            Call::Cdr(x) => Reply::Done(row::cdr(table, queue, x)?),
            Call::Cons(x, y) => Reply::Done(row::cons(table, queue, x, y)?),
            Call::ReplaceLeft(x, y) => Reply::Done(row::replace_left(table, queue, x, y)?),
            Call::ReplaceRight(x, y) => Reply::Done(row::replace_right(table, queue, x, y)?),
            Call::Up(x, n) => {
                row::up(table, queue, x, n)?;
                Reply::Done(0)
            }
            Call::Down(x, n) => {
                row::down(table, queue, x, n)?;
                Reply::Done(0)
            }
            Call::Step => match collector::step(table, queue, scratch)? {
                Step::Idle => Reply::Idle,
                Step::Taken { kind, freed } => Reply::Taken { kind, freed },
            },
            Call::Audit => match audit::audit(table, queue, scratch)? {
                Verdict::Sound => Reply::Sound,
                Verdict::Broken(rule) => Reply::Broken(rule),
            },
        })
    }

    /// Whether the call is decided on stores that fail the audit too: fresh,
    /// the audit itself, and a read of nil, which looks at no cell (A1).
    pub fn is_decided_on_any_store(self) -> bool {
        matches!(self, Call::Fresh(_) | Call::Audit) || self.is_nil_read()
    }

    pub fn is_nil_read(self) -> bool {
        matches!(self, Call::Car(NIL) | Call::Cdr(NIL))
    }

    /// Questions 1 to 5 and 14, without making the call.
    pub fn first_questions(self, store: &Store) -> Result<(), Refusal> {
        let Store {
            table,
            queue,
            scratch,
        } = store;
        match self {
            Call::Fresh(cells) => return question::before_fresh(table, cells),
            Call::Car(x) | Call::Cdr(x) => question::before_read(table, queue, x),
            Call::Cons(x, y) => question::before_cons(table, queue, x, y),
            Call::ReplaceLeft(x, y) | Call::ReplaceRight(x, y) => {
                question::before_replace(table, queue, x, y)
            }
            Call::Up(x, n) | Call::Down(x, n) => question::before_up_or_down(table, queue, x, n),
            Call::Step | Call::Audit => question::before_step_or_audit(table, queue, scratch),
        }
        .map(|_| ())
    }
}
