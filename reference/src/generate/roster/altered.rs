//! Rosters of which a word is altered: they are rosters no more, and only what comes
//! before the cells is decided on them.

use std::io;

use super::{any_reading, plain_scratch, Calls};
use crate::generate::rng::Rng;
use crate::queue::{Packet, Queue};
use crate::table::*;

/// A roster of some seats, set in no order, one of them set again.
fn some_seats(rng: &mut Rng, calls: &mut Calls, title: &str, cells: u16) -> io::Result<()> {
    calls.empty_roster(title, cells)?;
    let most = usize::from(cells / 2);
    for _ in 0..rng.below(most + 1) {
        calls.set(rng.within(1, 6), any_reading(rng))?;
    }
    if rng.one_in(2) {
        calls.remove(rng.within(1, 6))?;
    }
    Ok(())
}

/// First what the papers decide of such a store, then calls that they don't, then now
/// and then such that they would decide of any other.
pub fn last_calls(rng: &mut Rng, calls: &mut Calls) -> io::Result<()> {
    let seat = rng.within(1, 6);
    match rng.below(4) {
        0 => calls.look_up(rng.pick(&[0, 601, 32_768]))?,
        1 => calls.remove(rng.pick(&[0, 601, 65_535]))?,
        2 => calls.set(0, rng.word())?,
        _ => calls.set(601, 4_095)?,
    }
    calls.set(seat, rng.pick(&[32_768, 36_862, 65_535]))?;
    calls.set(seat, rng.pick(&[4_095, 32_767]))?;
    let mut order = [0, 1, 2, 3];
    for i in (1..order.len()).rev() {
        order.swap(i, rng.below(i + 1));
    }
    for call in order {
        match call {
            0 => calls.look_up(rng.within(1, 6))?,
            1 => calls.count(rng.within(0, 4_095))?,
            2 => calls.set(rng.within(1, 6), any_reading(rng))?,
            _ => calls.remove(rng.within(1, 6))?,
        }
    }
    if rng.one_in(6) {
        calls.fresh(1)?;
        calls.look_up(0)?;
    }
    Ok(())
}

/// Every word of a table of four cells altered, the roster's word, and the queue.
pub fn words(rng: &mut Rng, calls: &mut Calls) -> io::Result<()> {
    let cells = 4;
    for index in 0..length(cells) {
        let value = match index {
            CELLS => rng.within(1, 3),
            FIRST_FREE | LAST_FREE => rng.within(0, cells),
            _ => match rng.below(3) {
                0 => rng.within(0, cells),
                1 => rng.pick(&[4_095, 4_096, 32_767, 32_769, 36_863, 65_535]),
                _ => rng.pick(&[0, 1, 2, 5]),
            },
        };
        let title = format!("word {index} of a roster's table becomes {value}");
        some_seats(rng, calls, &title, cells)?;
        calls.word(index, value)?;
        last_calls(rng, calls)?;
    }
    for word in [0, 1, 2, 3, 4, 5, 6, 32_767, 32_768, 32_769, 36_863, 65_535] {
        for seats in [0, 2] {
            let title = format!("the word of a roster with {seats} seats becomes {word}");
            calls.empty_roster(&title, 5)?;
            for seat in 1..=seats {
                calls.set(seat, any_reading(rng))?;
            }
            calls.roster_word(word)?;
            last_calls(rng, calls)?;
        }
    }
    for (title, place, packets) in [
        ("no packet at another place", 9, vec![]),
        ("an up", 0, vec![[4, 1, 5, 0]]),
        ("a down", 63, vec![[5, 1, 1, 0]]),
        ("a down of a free cell", 0, vec![[5, 6, 4_095, 0]]),
        ("a read", 5, vec![[1, 1, 2, 0]]),
        ("a cons", 60, vec![[2, 1, 2, 5]]),
        ("replaces", 62, vec![[3, 0, 1, 2], [6, 1, 0, 2]]),
        ("no kind", 0, vec![[0, 0, 0, 0]]),
        ("64 ups", 17, vec![[4, 1, 4_095, 0]; 64]),
        ("64 downs", 0, vec![[5, 1, 1, 0]; 64]),
        ("64 of no kind", 1, vec![[7, 65_535, 65_535, 65_535]; 64]),
    ] {
        calls.empty_roster(&format!("a roster's queue gets {title}"), 6)?;
        calls.set(1, 1)?;
        calls.set(2, 2)?;
        let mut queue = Queue::empty();
        queue.place = place;
        for [kind, a, b, c] in packets {
            queue.push(Packet { kind, a, b, c });
        }
        calls.queue(&queue)?;
        last_calls(rng, calls)?;
    }
    Ok(())
}

/// Rosters with one to three things altered, some put right by a fresh.
pub fn altered(rng: &mut Rng, calls: &mut Calls, cases: usize) -> io::Result<()> {
    for case in 0..cases {
        let cells = match case % 10 {
            8 => 20,
            9 => rng.pick(&[64, 150]),
            _ => rng.within(1, 9),
        };
        some_seats(rng, calls, &format!("altered, {cells} cells"), cells)?;
        for _ in 0..1 + rng.below(3) {
            match rng.below(6) {
                0 => calls.roster_word(rng.within(0, cells + 1))?,
                1 => {
                    let mut queue = Queue::empty();
                    queue.place = rng.within(0, 63);
                    for _ in 0..rng.below(4) {
                        let (kind, a) = (rng.within(1, 6), rng.within(0, cells));
                        let (b, c) = (rng.within(0, cells), rng.within(0, cells));
                        queue.push(Packet { kind, a, b, c });
                    }
                    calls.queue(&queue)?;
                }
                // Fields are altered most often, in the cells that are taken first:
                // rings, ends too soon, parts that two seats share.
                field => {
                    let x = rng.within(1, cells.min(8));
                    let part = match field {
                        2 | 3 => rng.pick(&[LEFT, RIGHT]),
                        _ => rng.below(CELL_WORDS),
                    };
                    let value = match rng.below(4) {
                        0 => rng.pick(&[0, 4_095, 32_768, 32_769, 32_773, 65_535]),
                        _ => rng.within(0, cells.min(8)),
                    };
                    calls.word(at(x) + part, value)?;
                }
            }
        }
        let short = rng.one_in(5);
        if short {
            let scratch = plain_scratch(rng, usize::from(cells) - 1);
            calls.scratch(&scratch)?;
            calls.look_up(rng.within(1, 6))?;
            calls.set(rng.within(1, 6), rng.word())?;
            calls.count(rng.word())?;
            let scratch = plain_scratch(rng, usize::from(cells));
            calls.scratch(&scratch)?;
        }
        if rng.one_in(3) {
            calls.set(rng.within(1, 600), 4_095)?;
            calls.fresh(rng.within(1, cells))?;
            calls.set(rng.within(1, 6), any_reading(rng))?;
            calls.count(0)?;
        } else {
            last_calls(rng, calls)?;
        }
    }
    Ok(())
}
