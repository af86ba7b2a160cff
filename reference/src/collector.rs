//! The collector step: make the oldest packet's changes, then mark and sweep.

use crate::naming;
use crate::question::{self, Refusal};
use crate::queue::{self, Packet, Queue};
use crate::table::*;

#[derive(Clone, Copy, Debug, PartialEq, Eq)]
pub enum Step {
    Idle,
    Taken { kind: u16, freed: u16 },
}

pub fn step(table: &mut [u16], queue: &mut Queue, scratch: &mut [u16]) -> Result<Step, Refusal> {
    let cells = question::before_step_or_audit(table, queue, scratch)?;
    let Some(packet) = naming::take(table, queue) else {
        return Ok(Step::Idle);
    };
    let marks = &mut scratch[..cells as usize];
    changes(packet, |change| add(table, cells, change));
    mark(table, marks);
    let freed = sweep(table, marks);
    marks.fill(0);
    Ok(Step::Taken {
        kind: packet.kind,
        freed,
    })
}

/// One change to one count of a word.
#[derive(Clone, Copy, Debug, PartialEq, Eq, PartialOrd, Ord)]
pub struct Change {
    pub word: u16,
    /// `ROOT_COUNT` or `CELL_COUNT`.
    pub count: usize,
    pub by: i32,
}

fn root(word: u16, by: i32) -> Change {
    Change {
        word,
        count: ROOT_COUNT,
        by,
    }
}

fn cell(word: u16, by: i32) -> Change {
    Change {
        word,
        count: CELL_COUNT,
        by,
    }
}

/// Gives a packet's count changes one by one, in figure 8's order (A3). The
/// figure's x and y are a and b. Cells are freed only after the last change:
/// between those of a read, the cell read may be reached by nothing.
pub fn changes(packet: Packet, mut make: impl FnMut(Change)) {
    let Packet { kind, a, b, .. } = packet;
    match kind {
        // P1: rrc_down(x); rrc_up(y).
        queue::READ => {
            make(root(a, -1));
            make(root(b, 1));
        }
        // P2: rrc_down(x); crc_up(x); rrc_down(y); crc_up(y).
        queue::CONS => {
            make(root(a, -1));
            make(cell(a, 1));
            make(root(b, -1));
            make(cell(b, 1));
        }
        // P3: rrc_down(x); crc_up(x); rrc_down(y), where document 01 corrects the
        // last to crc_down(y). A cell put in where it stood with a cell count of
        // 4,095 has 4,096 in passing.
        queue::REPLACE_LEFT | queue::REPLACE_RIGHT => {
            make(root(a, -1));
            make(cell(a, 1));
            make(cell(b, -1));
        }
        // P4 and P5, with the y rounds of their loops at one stroke.
        queue::UP => make(root(a, i32::from(b))),
        queue::DOWN => make(root(a, -i32::from(b))),
        _ => {}
    }
}

/// Makes one change; nil and atoms have no counts. Wrapping, since on a damaged
/// store a count can be anything.
fn add(table: &mut [u16], cells: u16, change: Change) {
    let Change { word, count, by } = change;
    if is_cell(word, cells) {
        let count = &mut table[at(word) + count];
        *count = (i32::from(*count) + by) as u16;
    }
}

/// The cells still to be followed, a list threaded through the marks: a mark
/// is 0 for a cell not yet reached, else the next cell on the list or `END`.
struct Worklist<'a> {
    marks: &'a mut [u16],
    head: u16,
}

const END: u16 = u16::MAX;

impl Worklist<'_> {
    /// Reaches the cell in `word`, if it is one and wasn't reached before.
    #[inline]
    fn reach(&mut self, word: u16) {
        // Nil wraps to an index past every mark, as atoms have one.
        if let Some(mark) = self.marks.get_mut((word as usize).wrapping_sub(1)) {
            if *mark == 0 {
                *mark = self.head;
                self.head = word;
            }
        }
    }

    #[inline]
    fn next(&mut self) -> Option<u16> {
        if self.head == END {
            return None;
        }
        let x = self.head;
        self.head = self.marks[x as usize - 1];
        Some(x)
    }
}

/// Whether a cell is a root, told from the cell alone (A6): its root count is
/// above 0, or a waiting packet names it.
fn is_root(cell: &[u16; CELL_WORDS]) -> bool {
    cell[ROOT_COUNT] > 0 || cell[NAMED] > 0
}

/// Leaves the marks of exactly the reached cells other than 0.
pub fn mark(table: &[u16], marks: &mut [u16]) {
    marks.fill(0);
    let cells = cells_of(table, marks.len() as u16);
    let mut list = Worklist { marks, head: END };
    for (x, cell) in (1..).zip(cells) {
        if is_root(cell) {
            list.reach(x);
        }
    }
    while let Some(x) = list.next() {
        let cell = cells[x as usize - 1];
        list.reach(cell[LEFT]);
        list.reach(cell[RIGHT]);
    }
}

/// Frees every cell in use without a mark and gives their number. They join the
/// free chain at its front (A8), the lowest first of all, the others ascending
/// behind it and the cells that were free already behind them.
fn sweep(table: &mut [u16], marks: &[u16]) -> u16 {
    let mut freed = 0;
    let cells = marks.len() as u16;
    let free_before = table[FIRST_FREE];
    // The last cell freed so far, and the word that tells which one is next.
    let (mut last, mut next) = (NIL, FIRST_FREE);
    for (x, &mark) in (1..=cells).zip(marks) {
        if mark != 0 || table[at(x) + STATE] != IN_USE {
            continue;
        }
        for side in [LEFT, RIGHT] {
            let child = table[at(x) + side];
            // An unmarked child is freed in this sweep too, and then has no
            // counts to lower.
            if is_cell(child, cells) && marks[child as usize - 1] != 0 {
                add(table, cells, cell(child, -1));
            }
        }
        table[at(x)..at(x) + CELL_WORDS].fill(0);
        table[next] = x;
        (last, next) = (x, at(x) + LEFT);
        freed += 1;
    }
    table[next] = free_before;
    if free_before == NIL && last != NIL {
        table[LAST_FREE] = last;
    }
    freed
}
