//! The questions asked before a call. The first "no" is the refusal. Questions 11
//! to 13 (A4) are asked in `rule_text`, which asks 14 (A5) from here; the roster's
//! (A7) are asked in `roster`.

use crate::queue::Queue;
use crate::table::*;

#[derive(Clone, Copy, Debug, PartialEq, Eq)]
pub enum Refusal {
    Store = 1,
    Scratch = 2,
    Number = 3,
    Word = 4,
    NotCell = 5,
    NotHeld = 6,
    QueueFull = 7,
    NoFreeCell = 8,
    HeldCount = 9,
    Pointers = 10,
    /// A text outside the notation or over 4,096 bytes.
    Outside = 11,
    /// More than 32 brackets open together.
    Deep = 12,
    /// A text that doesn't fit the buffer.
    Buffer = 13,
    /// A clipped reading that would be stored.
    Clipped = 14,
    /// A seat outside 1 to 600.
    Seat = 15,
}

fn ask(yes: bool, refusal: Refusal) -> Result<(), Refusal> {
    if yes {
        Ok(())
    } else {
        Err(refusal)
    }
}

/// Question 1. Gives C, which the other questions need.
pub fn store(table: &[u16], queue: &Queue) -> Result<u16, Refusal> {
    let &[cells, first, last, ..] = table else {
        return Err(Refusal::Store);
    };
    let in_range = (1..=MAX_CELLS).contains(&cells)
        && first <= cells
        && last <= cells
        && (queue.place as usize) < Queue::SLOTS
        && queue.count as usize <= Queue::SLOTS;
    ask(in_range && table.len() >= length(cells), Refusal::Store)?;
    Ok(cells)
}

fn number(n: u16) -> Result<(), Refusal> {
    ask((1..=MAX_COUNT).contains(&n), Refusal::Number)
}

fn word(word: u16, cells: u16) -> Result<(), Refusal> {
    ask(is_legal(word, cells), Refusal::Word)
}

fn cell(word: u16, cells: u16) -> Result<(), Refusal> {
    ask(is_cell(word, cells), Refusal::NotCell)
}

/// Question 14 (A5) of a word that is to be stored.
pub fn may_be_stored(word: u16) -> Result<(), Refusal> {
    ask(!is_clipped(word), Refusal::Clipped)
}

// Questions 1 to 5 and then 14, call by call. They are answered as written on any
// store; the later ones are decided on sound stores only.

/// Fresh has only question 3 and the length part of question 1, in that order.
pub fn before_fresh(table: &[u16], cells: u16) -> Result<(), Refusal> {
    ask((1..=MAX_CELLS).contains(&cells), Refusal::Number)?;
    ask(table.len() >= length(cells), Refusal::Store)
}

/// Question 1, then question 4 of each of these words. Gives C.
pub fn legal_words(table: &[u16], queue: &Queue, words: &[u16]) -> Result<u16, Refusal> {
    let cells = store(table, queue)?;
    for &operand in words {
        word(operand, cells)?;
    }
    Ok(cells)
}

/// Questions 1, 4 and 5 of car and cdr. Nil can be read (A1) and isn't asked 5.
pub fn before_read(table: &[u16], queue: &Queue, x: u16) -> Result<u16, Refusal> {
    let cells = legal_words(table, queue, &[x])?;
    if x != NIL {
        cell(x, cells)?;
    }
    Ok(cells)
}

/// Questions 1, 4 and 14 of cons, which stores both operands.
pub fn before_cons(table: &[u16], queue: &Queue, x: u16, y: u16) -> Result<u16, Refusal> {
    let cells = legal_words(table, queue, &[x, y])?;
    may_be_stored(x)?;
    may_be_stored(y)?;
    Ok(cells)
}

/// Questions 1, 4, 5 and 14 of the replaces, which store y.
pub fn before_replace(table: &[u16], queue: &Queue, x: u16, y: u16) -> Result<u16, Refusal> {
    let cells = legal_words(table, queue, &[x, y])?;
    cell(x, cells)?;
    may_be_stored(y)?;
    Ok(cells)
}

/// Questions 1, 3, 4 and 5 of up and down.
pub fn before_up_or_down(table: &[u16], queue: &Queue, x: u16, n: u16) -> Result<u16, Refusal> {
    let cells = store(table, queue)?;
    number(n)?;
    word(x, cells)?;
    cell(x, cells)?;
    Ok(cells)
}

/// Questions 1 and 2 of step and audit.
pub fn before_step_or_audit(table: &[u16], queue: &Queue, scratch: &[u16]) -> Result<u16, Refusal> {
    let cells = store(table, queue)?;
    ask(scratch.len() >= cells as usize, Refusal::Scratch)?;
    Ok(cells)
}

/// Root count of `x` plus the waiting root changes.
fn held_count(table: &[u16], queue: &Queue, x: u16) -> i32 {
    let waiting: i32 = queue.waiting().map(|p| p.root_change(x)).sum();
    i32::from(table[at(x) + ROOT_COUNT]) + waiting
}

/// Cell count of `x` plus the waiting cell changes. On a sound store that is
/// the number of pointers to `x`, by rule S4, without a pass over the table.
fn pointers(table: &[u16], queue: &Queue, x: u16) -> i32 {
    let waiting: i32 = queue.waiting().map(|p| p.cell_change(x)).sum();
    i32::from(table[at(x) + CELL_COUNT]) + waiting
}

/// Question 6 for a cell that the call names `times` times.
pub fn held(table: &[u16], queue: &Queue, x: u16, times: u16) -> Result<(), Refusal> {
    ask(
        held_count(table, queue, x) >= i32::from(times),
        Refusal::NotHeld,
    )
}

/// Question 6 for a call that names the cell `x` and the word `y`.
pub fn held_both(table: &[u16], queue: &Queue, cells: u16, x: u16, y: u16) -> Result<(), Refusal> {
    if x == y && is_cell(x, cells) {
        return held(table, queue, x, 2);
    }
    for operand in [x, y] {
        if is_cell(operand, cells) {
            held(table, queue, operand, 1)?;
        }
    }
    Ok(())
}

/// Question 7.
pub fn slot_empty(queue: &Queue) -> Result<(), Refusal> {
    ask(!queue.is_full(), Refusal::QueueFull)
}

/// Question 8. Gives the first free cell.
pub fn cell_free(table: &[u16]) -> Result<u16, Refusal> {
    let first = table[FIRST_FREE];
    ask(first != NIL, Refusal::NoFreeCell)?;
    Ok(first)
}

/// Question 9 for a cell that the call gains `n` more holds of.
pub fn held_after(table: &[u16], queue: &Queue, x: u16, n: u16) -> Result<(), Refusal> {
    ask(
        held_count(table, queue, x) + i32::from(n) <= i32::from(MAX_COUNT),
        Refusal::HeldCount,
    )
}

/// Question 10 for a cell that the call makes `n` more pointers to.
pub fn pointers_after(table: &[u16], queue: &Queue, x: u16, n: u16) -> Result<(), Refusal> {
    ask(
        pointers(table, queue, x) + i32::from(n) <= i32::from(MAX_COUNT),
        Refusal::Pointers,
    )
}
