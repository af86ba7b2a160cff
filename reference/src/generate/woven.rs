//! Random sound stores with packets that no list of calls need have queued: they
//! are made from the rules of the audit, and not by calls. A cons may have made
//! one of its own operands, and any packet may name one cell in all its places.

use super::atoms;
use super::recount::recounted;
use super::rng::Rng;
use crate::queue::{self, Packet};
use crate::store::Store;
use crate::table::*;

/// What is known of a cell in use while its packets are chosen.
#[derive(Clone, Copy, Default)]
struct Cell {
    /// The fields before all packets and after those chosen so far.
    before: [u16; 2],
    now: [u16; 2],
    /// What the packets so far add to the root count, the root count that they
    /// need at first, and the most that they add on their way.
    change: i32,
    needed: i32,
    highest: i32,
}

struct Weaver {
    cells: Vec<Cell>,
    packets: Vec<Packet>,
}

/// A sound store of `cells` cells, all but a few of them in use, with so many
/// packets waiting from any place.
pub fn woven(rng: &mut Rng, cells: u16, waiting: usize) -> Store {
    let free = rng.below(cells as usize).min(1 + rng.below(4)) as u16;
    let mut order: Vec<u16> = (1..=cells).collect();
    shuffle(rng, &mut order);
    let (chain, in_use) = order.split_at(free as usize);
    let mut weaver = Weaver {
        cells: vec![Cell::default(); cells as usize + 1],
        packets: Vec::new(),
    };
    for &x in in_use {
        // Many cells contain nil twice, as a cons needs it.
        if rng.one_in(2) {
            let fields = [any_word(rng, in_use), any_word(rng, in_use)];
            weaver.cells[x as usize].before = fields;
            weaver.cells[x as usize].now = fields;
        }
    }
    while weaver.packets.len() < waiting {
        weaver.choose(rng, in_use);
    }
    weaver.store(rng, cells, chain, in_use)
}

fn shuffle(rng: &mut Rng, words: &mut [u16]) {
    for i in (1..words.len()).rev() {
        words.swap(i, rng.below(i + 1));
    }
}

/// Nil, an atom or a cell in use; few cells are chosen often.
fn any_word(rng: &mut Rng, in_use: &[u16]) -> u16 {
    match rng.below(8) {
        0 => NIL,
        1 => atoms::storable(rng),
        2 => atoms::clipped(rng),
        _ => any_cell(rng, in_use),
    }
}

fn any_cell(rng: &mut Rng, in_use: &[u16]) -> u16 {
    let few = in_use.len().min(3);
    match rng.below(2) {
        0 => rng.pick(&in_use[..few]),
        _ => rng.pick(in_use),
    }
}

impl Weaver {
    /// One more packet, if the kind drawn can have one.
    fn choose(&mut self, rng: &mut Rng, in_use: &[u16]) {
        let kind = rng.within(queue::READ, queue::REPLACE_RIGHT);
        let x = any_cell(rng, in_use);
        let mut packet = Packet {
            kind,
            a: x,
            b: rng.within(1, 4),
            c: 0,
        };
        let fields = &mut self.cells[x as usize].now;
        match kind {
            queue::READ => packet.b = any_word(rng, in_use),
            queue::CONS => {
                if *fields != [NIL, NIL] {
                    return;
                }
                let (a, b) = (any_word(rng, in_use), any_word(rng, in_use));
                *fields = [a, b];
                packet = Packet { kind, a, b, c: x };
            }
            queue::REPLACE_LEFT | queue::REPLACE_RIGHT => {
                let field = &mut fields[usize::from(kind == queue::REPLACE_RIGHT)];
                // Often the cell itself, so that it stands in all places.
                let a = match rng.below(3) {
                    0 => x,
                    _ => any_word(rng, in_use),
                };
                let b = std::mem::replace(field, a);
                packet = Packet { kind, a, b, c: x };
            }
            _ => {}
        }
        self.note(packet);
    }

    /// Notes what the replay of S3 asks of the root counts.
    fn note(&mut self, packet: Packet) {
        let Packet { kind, a, b, c } = packet;
        match kind {
            queue::READ => {
                self.lose(a, 1);
                self.gain(b, 1);
            }
            queue::CONS => {
                self.lose(a, 1);
                self.lose(b, 1);
            }
            queue::UP => {
                self.need(a, 1);
                self.gain(a, i32::from(b));
            }
            queue::DOWN => self.lose(a, i32::from(b)),
            _ => {
                self.lose(a, 1);
                self.need(c, 1);
            }
        }
        self.packets.push(packet);
    }

    fn need(&mut self, word: u16, n: i32) {
        if let Some(cell) = self.cell(word) {
            cell.needed = cell.needed.max(n - cell.change);
        }
    }

    fn lose(&mut self, word: u16, n: i32) {
        self.need(word, n);
        if let Some(cell) = self.cell(word) {
            cell.change -= n;
        }
    }

    fn gain(&mut self, word: u16, n: i32) {
        if let Some(cell) = self.cell(word) {
            cell.change += n;
            cell.highest = cell.highest.max(cell.change);
        }
    }

    fn cell(&mut self, word: u16) -> Option<&mut Cell> {
        let is_cell = word != NIL && word < FIRST_ATOM;
        is_cell.then(|| &mut self.cells[word as usize])
    }

    /// The table of the fields now and the counts before, the chain in its order.
    fn store(self, rng: &mut Rng, cells: u16, chain: &[u16], in_use: &[u16]) -> Store {
        let mut store = Store::zeroed(length(cells), cells as usize);
        let table = &mut store.table;
        table[CELLS] = cells;
        table[FIRST_FREE] = chain.first().copied().unwrap_or(NIL);
        table[LAST_FREE] = chain.last().copied().unwrap_or(NIL);
        for pair in chain.windows(2) {
            table[at(pair[0]) + LEFT] = pair[1];
        }
        for &x in in_use {
            let cell = self.cells[x as usize];
            let spare = match rng.below(6) {
                // Up to 4,095 holds at the highest.
                0 => i32::from(MAX_COUNT) - cell.needed - cell.highest,
                1 | 2 => rng.below(3) as i32,
                _ => 0,
            };
            table[at(x) + LEFT] = cell.now[0];
            table[at(x) + RIGHT] = cell.now[1];
            table[at(x) + ROOT_COUNT] = (cell.needed + spare) as u16;
            table[at(x) + STATE] = IN_USE;
            for word in cell.before {
                if is_cell(word, cells) {
                    table[at(word) + CELL_COUNT] += 1;
                }
            }
        }
        store.queue.place = rng.within(0, 63);
        for packet in self.packets {
            store.queue.push(packet);
        }
        let mut store = recounted(store);
        hold_unreached(&mut store);
        store
    }
}

/// Holds once whatever else nothing reaches.
fn hold_unreached(store: &mut Store) {
    let cells = store.table[CELLS];
    for x in 1..=cells {
        let mut marks = vec![0; cells as usize];
        crate::collector::mark(&store.table, &mut marks);
        if store.table[at(x) + STATE] == IN_USE && marks[x as usize - 1] == 0 {
            store.table[at(x) + ROOT_COUNT] = 1;
        }
    }
}
