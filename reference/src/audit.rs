//! The audit: rules S1 to S5, in that order. Each rule's check relies on the
//! rules before it.

use crate::collector;
use crate::naming;
use crate::question::{self, Refusal};
use crate::queue::{self, Packet, Queue};
use crate::table::*;

#[derive(Clone, Copy, Debug, PartialEq, Eq)]
pub enum Rule {
    Cells = 1,
    FreeChain = 2,
    Packets = 3,
    Pointers = 4,
    Reached = 5,
}

#[derive(Clone, Copy, Debug, PartialEq, Eq)]
pub enum Verdict {
    Sound,
    Broken(Rule),
}

pub fn audit(table: &[u16], queue: &Queue, scratch: &mut [u16]) -> Result<Verdict, Refusal> {
    let cells = question::before_step_or_audit(table, queue, scratch)?;
    let work = &mut scratch[..cells as usize];
    let verdict = examine(table, queue, cells, work);
    work.fill(0);
    Ok(verdict)
}

fn examine(table: &[u16], queue: &Queue, cells: u16, work: &mut [u16]) -> Verdict {
    if !cells_hold(table, cells) {
        Verdict::Broken(Rule::Cells)
    } else if !free_chain_holds(table, cells, work) {
        Verdict::Broken(Rule::FreeChain)
    } else if !packets_hold(table, queue, cells, work) || !named_hold(table, queue, work) {
        Verdict::Broken(Rule::Packets)
    } else if !pointers_hold(table, queue, cells, work) {
        Verdict::Broken(Rule::Pointers)
    } else if !all_reached(table, cells, work) {
        Verdict::Broken(Rule::Reached)
    } else {
        Verdict::Sound
    }
}

/// Nil, an atom or a cell in use.
fn is_live_word(table: &[u16], word: u16, cells: u16) -> bool {
    word == NIL || word >= FIRST_ATOM || is_cell_in_use(table, word, cells)
}

/// S1. States and counts are looked at in every cell, fields in those in use.
fn cells_hold(table: &[u16], cells: u16) -> bool {
    (1..=cells).all(|x| {
        let cell = &table[at(x)..at(x) + CELL_WORDS];
        cell[ROOT_COUNT] <= MAX_COUNT
            && cell[CELL_COUNT] <= MAX_COUNT
            && match cell[STATE] {
                FREE => true,
                IN_USE => {
                    is_live_word(table, cell[LEFT], cells)
                        && is_live_word(table, cell[RIGHT], cells)
                }
                _ => false,
            }
    })
}

/// S2. `met` notes the cells that the chain has met.
fn free_chain_holds(table: &[u16], cells: u16, met: &mut [u16]) -> bool {
    met.fill(0);
    let mut unmet = (1..=cells)
        .filter(|&x| table[at(x) + STATE] == FREE)
        .count();
    let mut last = NIL;
    let mut x = table[FIRST_FREE];
    while x != NIL {
        if !is_cell(x, cells) || met[x as usize - 1] != 0 {
            return false;
        }
        let cell = &table[at(x)..at(x) + CELL_WORDS];
        // The sixth word too: a free cell's other words are 0.
        if cell[RIGHT..] != [0, 0, 0, FREE, 0] {
            return false;
        }
        met[x as usize - 1] = 1;
        unmet -= 1;
        last = x;
        x = cell[LEFT];
    }
    unmet == 0 && last == table[LAST_FREE]
}

/// S3. `held` has the root counts as they are when the packet replayed now is
/// the oldest.
fn packets_hold(table: &[u16], queue: &Queue, cells: u16, held: &mut [u16]) -> bool {
    for x in 1..=cells {
        held[x as usize - 1] = table[at(x) + ROOT_COUNT];
    }
    queue.vacant().all(|slot| slot == Packet::ZERO)
        && queue
            .waiting()
            .all(|packet| is_well_formed(table, cells, packet) && replay(held, packet))
}

/// S3 of the sixth words (A6): each is how often the waiting packets name its
/// cell. That of a free cell S2 has seen.
fn named_hold(table: &[u16], queue: &Queue, times: &mut [u16]) -> bool {
    naming::count(queue, times);
    (1..)
        .zip(times)
        .all(|(x, times)| table[at(x) + NAMED] == *times)
}

fn is_well_formed(table: &[u16], cells: u16, packet: Packet) -> bool {
    let Packet { kind, a, b, c } = packet;
    let in_use = |word| is_cell_in_use(table, word, cells);
    let live = |word| is_live_word(table, word, cells);
    match kind {
        queue::READ => in_use(a) && live(b) && c == 0,
        queue::CONS | queue::REPLACE_LEFT | queue::REPLACE_RIGHT => live(a) && live(b) && in_use(c),
        queue::UP | queue::DOWN => in_use(a) && (1..=MAX_COUNT).contains(&b) && c == 0,
        _ => false,
    }
}

/// Asks questions 6 and 9 as at the packet's call and makes its root changes.
fn replay(held: &mut [u16], packet: Packet) -> bool {
    let Packet { kind, a, b, c } = packet;
    match kind {
        queue::READ => lower(held, a, 1) && raise(held, b, 1),
        queue::CONS => lower(held, a, 1) && lower(held, b, 1),
        // The call also names the cell written, and keeps that hold.
        queue::REPLACE_LEFT | queue::REPLACE_RIGHT => lower(held, a, 1) && is_held(held, c),
        queue::UP => is_held(held, a) && raise(held, a, b),
        queue::DOWN => lower(held, a, b),
        _ => false,
    }
}

/// The entry of a word that is a cell, in a list with one entry for each cell.
fn count_of(counts: &mut [u16], word: u16) -> Option<&mut u16> {
    counts.get_mut((word as usize).wrapping_sub(1))
}

fn is_held(held: &mut [u16], x: u16) -> bool {
    count_of(held, x).is_some_and(|count| *count > 0)
}

/// Lowers a word's count by `n`, if it has a count and that is high enough.
fn lower(counts: &mut [u16], word: u16, n: u16) -> bool {
    let Some(count) = count_of(counts, word) else {
        return true;
    };
    if *count < n {
        return false;
    }
    *count -= n;
    true
}

/// Raises a word's count, if it has one, and tells whether it is in range still.
fn raise(counts: &mut [u16], word: u16, n: u16) -> bool {
    let Some(count) = count_of(counts, word) else {
        return true;
    };
    *count += n;
    *count <= MAX_COUNT
}

/// The fields that the undoing of packets has changed so far, latest last. At
/// most two for each packet, so the table itself need not be copied.
struct Undone {
    fields: [(usize, u16); 2 * Queue::SLOTS],
    len: usize,
}

impl Undone {
    fn get(&self, table: &[u16], index: usize) -> u16 {
        let changed = self.fields[..self.len].iter().rev();
        changed
            .filter(|field| field.0 == index)
            .map(|field| field.1)
            .next()
            .unwrap_or(table[index])
    }

    fn set(&mut self, index: usize, word: u16) {
        self.fields[self.len] = (index, word);
        self.len += 1;
    }
}

/// S4. `pointers` has the pointers to each cell at the stage reached.
fn pointers_hold(table: &[u16], queue: &Queue, cells: u16, pointers: &mut [u16]) -> bool {
    count_pointers(table, cells, pointers);
    if pointers.iter().any(|&count| count > MAX_COUNT) {
        return false;
    }
    let mut undone = Undone {
        fields: [(0, 0); 2 * Queue::SLOTS],
        len: 0,
    };
    queue
        .waiting()
        .rev()
        .all(|packet| undo(table, &mut undone, pointers, packet))
        && (1..=cells).all(|x| pointers[x as usize - 1] == table[at(x) + CELL_COUNT])
}

fn count_pointers(table: &[u16], cells: u16, pointers: &mut [u16]) {
    pointers.fill(0);
    for x in 1..=cells {
        if table[at(x) + STATE] == IN_USE {
            for side in [LEFT, RIGHT] {
                if let Some(count) = count_of(pointers, table[at(x) + side]) {
                    *count += 1;
                }
            }
        }
    }
}

/// Undoes one packet; false where its fields don't hold what it wrote or where
/// the detached word then has too many pointers.
fn undo(table: &[u16], undone: &mut Undone, pointers: &mut [u16], packet: Packet) -> bool {
    let Packet { kind, a, b, c } = packet;
    match kind {
        queue::CONS => {
            let (left, right) = (at(c) + LEFT, at(c) + RIGHT);
            if undone.get(table, left) != a || undone.get(table, right) != b {
                return false;
            }
            undone.set(left, NIL);
            undone.set(right, NIL);
            lower(pointers, a, 1) && lower(pointers, b, 1)
        }
        queue::REPLACE_LEFT | queue::REPLACE_RIGHT => {
            let side = if kind == queue::REPLACE_LEFT {
                LEFT
            } else {
                RIGHT
            };
            let field = at(c) + side;
            if undone.get(table, field) != a {
                return false;
            }
            undone.set(field, b);
            lower(pointers, a, 1) && raise(pointers, b, 1)
        }
        _ => true,
    }
}

/// S5, with the cells as they are.
fn all_reached(table: &[u16], cells: u16, marks: &mut [u16]) -> bool {
    collector::mark(table, marks);
    (1..=cells).all(|x| table[at(x) + STATE] != IN_USE || marks[x as usize - 1] != 0)
}
