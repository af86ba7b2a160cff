//! Lists of stores in which one step frees a great many cells, up to all of
//! them: rings, chains, trees.

use std::io;

use super::atoms::{FIRST_CLIPPED, LAST_STORED};
use super::list::{word, List};
use super::recount::recounted;
use crate::call::Call;
use crate::queue::{self, Packet};
use crate::store::Store;
use crate::table::*;

/// At most so many of the seven sizes.
pub fn rings(list: &mut List, cases: usize) -> io::Result<()> {
    let sizes = [1, 2, 3, 63, 64, 65, MAX_CELLS];
    for cells in sizes.into_iter().take(cases) {
        ring(list, cells)?;
        chain(list, cells)?;
        if cells > 1 {
            tree(list, cells.min(1_000))?;
            fans(list, cells)?;
        }
    }
    Ok(())
}

/// Cells 1 to C in use, their fields as told and nothing held; the cell counts
/// are the pointers. The scratch is used and longer than C.
fn connected(cells: u16, fields: impl Fn(u16) -> [u16; 2]) -> Store {
    let mut store = Store::zeroed(length(cells), cells as usize + 2);
    store.scratch.fill(4_097);
    store.table[CELLS] = cells;
    for x in 1..=cells {
        store.table[word(x, STATE)] = IN_USE;
        for (part, field) in [LEFT, RIGHT].into_iter().zip(fields(x)) {
            store.table[word(x, part)] = field;
            if is_cell(field, cells) {
                store.table[word(field, CELL_COUNT)] += 1;
            }
        }
    }
    store
}

fn waiting(mut store: Store, x: u16, holds: u16, packets: &[[u16; 4]]) -> Store {
    store.table[word(x, ROOT_COUNT)] = holds;
    for &[kind, a, b, c] in packets {
        store.queue.push(Packet { kind, a, b, c });
    }
    recounted(store)
}

/// As many steps as packets wait and one more, with audits; then the first
/// cells are taken again. Whole for small stores.
fn case(list: &mut List, title: &str, store: &Store) -> io::Result<()> {
    let cells = store.table[CELLS];
    list.title(&format!("{title}, {cells} cells"))?;
    list.store(store)?;
    let mut calls = vec![Call::Audit];
    for _ in 0..=store.queue.count {
        calls.extend([Call::Step, Call::Audit]);
    }
    calls.extend([
        Call::Cons(NIL, NIL),
        Call::Cons(NIL, LAST_STORED),
        Call::Audit,
    ]);
    for call in calls {
        if cells < 100 {
            list.call(call)?;
        } else {
            list.brief(call)?;
        }
    }
    Ok(())
}

/// A ring of all cells, each in the left of the one before, given up; and the
/// same not reached by anything from the start.
fn ring(list: &mut List, cells: u16) -> io::Result<()> {
    let ring = connected(cells, |x| [x % cells + 1, NIL]);
    let down = [queue::DOWN, 1, 1, 0];
    case(list, "ring", &waiting(ring.clone(), 1, 1, &[down]))?;
    if cells < 100 {
        case(list, "ring reached by nothing", &ring)?;
    }
    Ok(())
}

/// Each cell in the right of the one after it, with a clipped reading beside it;
/// the last one is held, so that marking goes against the numbers of the cells.
fn chain(list: &mut List, cells: u16) -> io::Result<()> {
    let chain = connected(cells, |x| [FIRST_CLIPPED, x - 1]);
    let up = [queue::UP, cells, 1, 0];
    let down = [queue::DOWN, cells, 2, 0];
    case(list, "chain", &waiting(chain, cells, 1, &[up, down]))
}

/// Cell x holds 2x and 2x + 1. The last cell stands above and held the first
/// one, which a replace of its left took out.
fn tree(list: &mut List, cells: u16) -> io::Result<()> {
    let inner = |word: u16| if word < cells { word } else { NIL };
    let mut tree = connected(cells, |x| match x {
        x if x == cells => [NIL, FIRST_ATOM],
        x => [inner(2 * x), inner(2 * x + 1)],
    });
    tree.table[word(1, CELL_COUNT)] = 1;
    let replace = [queue::REPLACE_LEFT, NIL, 1, cells];
    case(list, "tree", &waiting(tree, cells, 1, &[replace]))
}

/// A ring of all cells but the first, each of which also holds the first. The
/// ring is given up; the first cell stays and its cell count falls to 0.
fn fans(list: &mut List, cells: u16) -> io::Result<()> {
    let mut fans = connected(cells, |x| match x {
        1 => [NIL, NIL],
        x => [1, if x == cells { 2 } else { x + 1 }],
    });
    fans.table[word(1, ROOT_COUNT)] = 1;
    let down = [queue::DOWN, 2, 7, 0];
    case(list, "fans", &waiting(fans, 2, 7, &[down]))
}
