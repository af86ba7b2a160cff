//! Stores that never were rosters: sound ones, damaged ones and garbage, with any
//! word; rings that a walk over seats would follow without end.

use std::io;

use super::altered::last_calls;
use super::{any_reading, plain_scratch, Calls};
use crate::generate::damaged::mutant;
use crate::generate::edges;
use crate::generate::rng::Rng;
use crate::generate::sound;
use crate::store::Store;
use crate::table::*;

pub fn others(rng: &mut Rng, calls: &mut Calls, cases: usize) -> io::Result<()> {
    for case in 0..cases {
        let cells = match case % 12 {
            10 => 1,
            11 => rng.pick(&[30, 64]),
            _ => rng.within(1, 8),
        };
        let count = rng.below(90);
        let (title, mut store) = match case % 4 {
            0 => ("sound store", sound::clipped_store(rng, cells, count).store),
            1 => ("damaged store", mutant(rng, cells)),
            2 => ("garbage", edges::garbled(rng, cells)),
            _ => ("cells like seats", like_seats(rng, cells)),
        };
        let spare = usize::from(cells) + rng.below(3);
        store.scratch = plain_scratch(rng, spare);
        calls.title(&format!("{title}, {cells} cells"))?;
        calls.store(&store)?;
        let word = match rng.below(6) {
            0 => rng.pick(&[0, 32_767, 32_769, 65_535]),
            _ => rng.within(1, cells),
        };
        calls.roster_word(word)?;
        if rng.one_in(5) {
            calls.scratch(&store.scratch[..usize::from(cells) - 1])?;
            calls.set(rng.within(0, 601), rng.word())?;
            calls.look_up(rng.within(1, 600))?;
            calls.count(rng.word())?;
            calls.scratch(&store.scratch)?;
        }
        if rng.one_in(6) {
            calls.set(rng.within(1, 600), 4_095)?;
            calls.fresh(cells)?;
            calls.set(rng.within(1, 600), any_reading(rng))?;
            calls.count(0)?;
        } else {
            last_calls(rng, calls)?;
        }
    }
    large(calls)
}

/// Cells that contain cells and small atoms, all in use and held, as a roster's might
/// be: chains, rings, cells shared, seats that stand twice, clipped readings. The
/// counts are any.
fn like_seats(rng: &mut Rng, cells: u16) -> Store {
    let mut store = Store::zeroed(length(cells), cells as usize);
    store.table[CELLS] = cells;
    for x in 1..=cells {
        let mut field = || match rng.below(5) {
            0 | 1 => rng.within(0, cells),
            2 => FIRST_ATOM + rng.within(1, 6),
            3 => FIRST_ATOM + any_reading(rng),
            // The next cell, the first after the last.
            _ => x % cells + 1,
        };
        let words = [field(), field(), 1, 1, IN_USE, 0];
        store.table[at(x)..at(x) + CELL_WORDS].copy_from_slice(&words);
    }
    if rng.one_in(3) {
        store.table[at(cells) + ROOT_COUNT] = 4_095;
    }
    store
}

/// Stores of 4,096 cells whose every word is the same, so that each cell contains one
/// cell twice.
fn large(calls: &mut Calls) -> io::Result<()> {
    for (fill, word) in [(1, 1), (4_096, 4_096), (2, 1), (0, 0), (32_769, 5)] {
        calls.title(&format!(
            "4096 cells, every word {fill}, the roster's {word}"
        ))?;
        let mut store = Store::zeroed(length(4_096), 4_096);
        store.table.fill(fill);
        store.table[..HEADER_WORDS].copy_from_slice(&[4_096, 0, 0]);
        calls.store(&store)?;
        calls.roster_word(word)?;
        calls.set(1, 4_095)?;
        calls.look_up(2)?;
        calls.count(7)?;
        calls.set(3, 9)?;
        calls.remove(4)?;
    }
    Ok(())
}
