//! Fresh and the row calls. A row call writes fields, queues a packet and notes
//! whom it names (A6); the counts follow when the collector takes the packet.

use crate::naming;
use crate::question::{self, Refusal};
use crate::queue::{self, Packet, Queue};
use crate::table::*;

/// Lays out a chain of `cells` free cells and empties the queue.
pub fn fresh(table: &mut [u16], queue: &mut Queue, cells: u16) -> Result<(), Refusal> {
    question::before_fresh(table, cells)?;
    table[CELLS] = cells;
    table[FIRST_FREE] = 1;
    table[LAST_FREE] = cells;
    table[HEADER_WORDS..length(cells)].fill(0);
    for x in 1..cells {
        table[at(x) + LEFT] = x + 1;
    }
    *queue = Queue::empty();
    Ok(())
}

pub fn car(table: &mut [u16], queue: &mut Queue, x: u16) -> Result<u16, Refusal> {
    read(table, queue, x, LEFT)
}

pub fn cdr(table: &mut [u16], queue: &mut Queue, x: u16) -> Result<u16, Refusal> {
    read(table, queue, x, RIGHT)
}

fn read(table: &mut [u16], queue: &mut Queue, x: u16, side: usize) -> Result<u16, Refusal> {
    let cells = question::before_read(table, queue, x)?;
    // The end of a list (A1): there is no cell to hold or to count.
    if x == NIL {
        return Ok(NIL);
    }
    question::held(table, queue, x, 1)?;
    question::slot_empty(queue)?;
    let word = table[at(x) + side];
    // Where x is read out of itself its held count ends where it was.
    if is_cell(word, cells) && word != x {
        question::held_after(table, queue, word, 1)?;
    }
    let packet = Packet {
        kind: queue::READ,
        a: x,
        b: word,
        c: 0,
    };
    naming::push(table, queue, packet);
    Ok(word)
}

pub fn cons(table: &mut [u16], queue: &mut Queue, x: u16, y: u16) -> Result<u16, Refusal> {
    let cells = question::before_cons(table, queue, x, y)?;
    question::held_both(table, queue, cells, x, y)?;
    question::slot_empty(queue)?;
    let new = question::cell_free(table)?;
    // Question 9 can't fail: only the new cell's held count rises, to 1.
    if x == y && is_cell(x, cells) {
        question::pointers_after(table, queue, x, 2)?;
    } else {
        for operand in [x, y] {
            if is_cell(operand, cells) {
                question::pointers_after(table, queue, operand, 1)?;
            }
        }
    }
    let next = table[at(new) + LEFT];
    table[FIRST_FREE] = next;
    if next == NIL {
        table[LAST_FREE] = NIL;
    }
    table[at(new)..at(new) + CELL_WORDS].copy_from_slice(&[x, y, 1, 0, IN_USE, 0]);
    let packet = Packet {
        kind: queue::CONS,
        a: x,
        b: y,
        c: new,
    };
    naming::push(table, queue, packet);
    Ok(new)
}

pub fn replace_left(table: &mut [u16], queue: &mut Queue, x: u16, y: u16) -> Result<u16, Refusal> {
    replace(table, queue, x, y, LEFT, queue::REPLACE_LEFT)
}

pub fn replace_right(table: &mut [u16], queue: &mut Queue, x: u16, y: u16) -> Result<u16, Refusal> {
    replace(table, queue, x, y, RIGHT, queue::REPLACE_RIGHT)
}

fn replace(
    table: &mut [u16],
    queue: &mut Queue,
    x: u16,
    y: u16,
    side: usize,
    kind: u16,
) -> Result<u16, Refusal> {
    let cells = question::before_replace(table, queue, x, y)?;
    question::held_both(table, queue, cells, x, y)?;
    question::slot_empty(queue)?;
    let detached = table[at(x) + side];
    // Question 9 can't fail: no held count rises. Where y replaces itself the
    // pointers to it end where they were.
    if is_cell(y, cells) && y != detached {
        question::pointers_after(table, queue, y, 1)?;
    }
    table[at(x) + side] = y;
    let packet = Packet {
        kind,
        a: y,
        b: detached,
        c: x,
    };
    naming::push(table, queue, packet);
    Ok(detached)
}

pub fn up(table: &mut [u16], queue: &mut Queue, x: u16, n: u16) -> Result<(), Refusal> {
    question::before_up_or_down(table, queue, x, n)?;
    question::held(table, queue, x, 1)?;
    question::slot_empty(queue)?;
    question::held_after(table, queue, x, n)?;
    let packet = Packet {
        kind: queue::UP,
        a: x,
        b: n,
        c: 0,
    };
    naming::push(table, queue, packet);
    Ok(())
}

pub fn down(table: &mut [u16], queue: &mut Queue, x: u16, n: u16) -> Result<(), Refusal> {
    question::before_up_or_down(table, queue, x, n)?;
    question::held(table, queue, x, n)?;
    question::slot_empty(queue)?;
    let packet = Packet {
        kind: queue::DOWN,
        a: x,
        b: n,
        c: 0,
    };
    naming::push(table, queue, packet);
    Ok(())
}
