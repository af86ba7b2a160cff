//! Scratches of all lengths and words, and freshes over anything.

use std::io;

use super::{any_reading, any_scratch, plain_scratch, Calls};
use crate::generate::edges;
use crate::generate::rng::Rng;
use crate::roster::Call;
use crate::store::Store;
use crate::table::*;

/// Scratches from none to longer than C, of any words, lent anew before every call:
/// calls that are accepted, replied absent, refused with 8, and refused otherwise.
pub fn scratches(rng: &mut Rng, calls: &mut Calls) -> io::Result<()> {
    for cells in [1, 2, 3, 4, 5, 8] {
        let c = usize::from(cells);
        for words in [0, c - 1, c, c + 1, c + 5] {
            calls.empty_roster(&format!("scratches of {words} words, {cells} cells"), cells)?;
            for seat in 1..=cells / 2 {
                calls.set(seat, any_reading(rng))?;
            }
            for call in [
                Call::Set {
                    seat: 600,
                    reading: 9,
                },
                Call::Set {
                    seat: 1,
                    reading: 4_094,
                },
                Call::LookUp(1),
                Call::LookUp(599),
                Call::Count(9),
                Call::Remove(598),
                Call::Set {
                    seat: 1,
                    reading: 4_095,
                },
                Call::Set {
                    seat: 2,
                    reading: 40_000,
                },
                Call::LookUp(601),
                Call::Remove(1),
            ] {
                let scratch = any_scratch(rng, words);
                calls.scratch(&scratch)?;
                calls.call(call)?;
            }
        }
    }
    // A scratch kept over many calls, and others in between.
    calls.empty_roster("one scratch after another", 9)?;
    for words in [9, 8, 9, 12, 0, 4_100, 10, 4_096] {
        let scratch = plain_scratch(rng, words);
        calls.scratch(&scratch)?;
        let seat = rng.within(1, 6);
        calls.set(seat, any_reading(rng))?;
        calls.look_up(seat)?;
        calls.look_up(rng.within(1, 6))?;
        calls.remove(rng.within(1, 6))?;
        calls.count(2_000)?;
    }
    for (cells, words) in [(4_096, 4_095), (4_096, 4_096), (4_096, 4_100), (600, 4_100)] {
        calls.title(&format!("scratch of {words} words, {cells} cells"))?;
        let mut store = Store::zeroed(length(cells), 0);
        store.scratch = plain_scratch(rng, words);
        calls.store(&store)?;
        calls.fresh(cells)?;
        calls.set(600, 4_094)?;
        calls.count(4_094)?;
        calls.remove(600)?;
    }
    Ok(())
}

/// A few calls from which it is seen how much room there is.
fn use_a_little(rng: &mut Rng, calls: &mut Calls) -> io::Result<()> {
    for seat in [600, 1, 300] {
        calls.look_up(seat)?;
        calls.set(seat, any_reading(rng))?;
    }
    calls.count(0)
}

/// Fresh with every C at its borders over tables of just enough words, one fewer and
/// more; over garbage, over rosters, and refused on them.
pub fn freshes(rng: &mut Rng, calls: &mut Calls) -> io::Result<()> {
    for cells in [1, 2, 3, 5, 6, 64, 4_095, 4_096] {
        for words in [length(cells) - 1, length(cells), length(cells) + 4] {
            calls.title(&format!("fresh {cells} in a table of {words} words"))?;
            let mut store = match cells {
                0..=6 => edges::garbled(rng, cells),
                _ => Store::zeroed(words, 0),
            };
            store.table.resize(words, rng.word());
            store.scratch = plain_scratch(rng, cells as usize);
            calls.store(&store)?;
            calls.roster_word(rng.word())?;
            calls.fresh(cells)?;
            if calls.runner.roster().is_some() {
                use_a_little(rng, calls)?;
            } else {
                calls.look_up(601)?;
            }
        }
    }
    calls.title("freshes with other C in one table, over full rosters")?;
    let mut store = Store::zeroed(length(8) + 2, 9);
    store.scratch = any_scratch(rng, 9);
    calls.store(&store)?;
    for cells in [8, 2, 8, 1, 3, 7, 4, 6, 5, 8] {
        calls.fresh(cells)?;
        use_a_little(rng, calls)?;
        calls.set(2, 2)?;
        // Refused, they leave the roster what it is.
        for refused in [0, 9, 4_096, 4_097, 65_535] {
            calls.fresh(refused)?;
            calls.look_up(600)?;
        }
        calls.count(0)?;
    }
    calls.title("fresh needs no scratch")?;
    calls.store(&Store::zeroed(length(3), 0))?;
    calls.fresh(3)?;
    calls.set(1, 1)?;
    calls.count(0)?;
    calls.scratch(&[6, 6, 6])?;
    calls.set(1, 1)?;
    calls.scratch(&[])?;
    calls.fresh(2)?;
    calls.look_up(1)?;
    calls.scratch(&[6, 6])?;
    calls.look_up(1)
}
