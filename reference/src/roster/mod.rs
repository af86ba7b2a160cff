//! The seat roster (A7): its calls as values, the plain list of seat and reading
//! that they must behave as, and the runner for lists of them. Nothing here knows
//! a cell: the papers say what a call gives without one.

mod lines;
mod plain;
mod runner;

pub use lines::{Line, MOST_SCRATCH, MOST_TABLE};
pub use plain::Roster;
pub use runner::{run, Answer, Runner};

use crate::question::Refusal;
use crate::table::{CLIP, FIRST_ATOM};

/// The highest seat.
pub const SEATS: u16 = 600;
/// How many cells a seat takes.
pub const CELLS_OF_A_SEAT: u16 = 2;

#[derive(Clone, Copy, Debug, PartialEq, Eq)]
pub enum Call {
    /// The store's fresh with this C, after which the roster is empty.
    Fresh(u16),
    Set {
        seat: u16,
        reading: u16,
    },
    LookUp(u16),
    Remove(u16),
    /// How many seats have a reading at or above this threshold.
    Count(u16),
}

#[derive(Clone, Copy, Debug, PartialEq, Eq)]
pub enum Reply {
    /// The reading looked up, the number counted, else 0.
    Done(u16),
    Absent,
    Refused(Refusal),
}

impl Call {
    /// The call with this code and these two numbers, of which only a set has a second.
    pub fn decode(code: u16, p: u16, q: u16) -> Option<Call> {
        Some(match (code, q) {
            (0, 0) => Call::Fresh(p),
            (1, reading) => Call::Set { seat: p, reading },
            (2, 0) => Call::LookUp(p),
            (3, 0) => Call::Remove(p),
            (4, 0) => Call::Count(p),
            _ => return None,
        })
    }

    /// Code, p and q.
    pub fn encode(self) -> (u16, u16, u16) {
        match self {
            Call::Fresh(cells) => (0, cells, 0),
            Call::Set { seat, reading } => (1, seat, reading),
            Call::LookUp(seat) => (2, seat, 0),
            Call::Remove(seat) => (3, seat, 0),
            Call::Count(threshold) => (4, threshold, 0),
        }
    }

    /// The seat, if the call has one.
    fn seat(self) -> Option<u16> {
        match self {
            Call::Set { seat, .. } | Call::LookUp(seat) | Call::Remove(seat) => Some(seat),
            Call::Fresh(_) | Call::Count(_) => None,
        }
    }
}

/// Question 15. Count has no seat and passes.
fn ask_seat(call: Call) -> Result<(), Refusal> {
    match call.seat() {
        Some(seat) if !(1..=SEATS).contains(&seat) => Err(Refusal::Seat),
        _ => Ok(()),
    }
}

/// Questions 4 and 14 of a set's reading, which would be stored as an atom of its
/// value: over 32,767 there is no such atom, from 4,095 on it is clipped (A5).
fn ask_reading(call: Call) -> Result<(), Refusal> {
    match call {
        Call::Set { reading, .. } if reading >= FIRST_ATOM => Err(Refusal::Word),
        Call::Set { reading, .. } if reading >= CLIP => Err(Refusal::Clipped),
        _ => Ok(()),
    }
}
