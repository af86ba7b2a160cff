//! Random runs of calls.

use std::io;

use super::{any_reading, any_scratch, plain_scratch, Calls};
use crate::generate::edges;
use crate::generate::rng::Rng;
use crate::roster::Call;
use crate::table::*;

/// How much there is of each sort of call in one run.
struct Mix {
    set: usize,
    remove: usize,
    look_up: usize,
    count: usize,
    refused: usize,
    scratch: usize,
    fresh: usize,
}

fn random_mix(rng: &mut Rng) -> Mix {
    let mut weight = |most: usize| 1 + rng.below(most);
    Mix {
        set: weight(40),
        remove: weight(30),
        look_up: weight(20),
        count: weight(12),
        refused: weight(10),
        scratch: weight(8),
        fresh: weight(3),
    }
}

/// Runs from a fresh over garbage, with few seats in play, so that they come again.
pub fn runs(rng: &mut Rng, calls: &mut Calls, cases: usize) -> io::Result<()> {
    for case in 0..cases {
        let cells = match case % 10 {
            8 => rng.pick(&[16, 31, 64, 65]),
            9 => rng.pick(&[129, 300]),
            _ => rng.within(1, 12),
        };
        let mut store = edges::garbled(rng, cells.min(12));
        let over = rng.below(3);
        store.table.resize(length(cells) + over, rng.word());
        store.scratch = plain_scratch(rng, usize::from(cells) + over);
        calls.title(&format!("run of calls, {cells} cells"))?;
        calls.store(&store)?;
        calls.roster_word(rng.word())?;
        calls.fresh(cells)?;
        // From fewer seats than find room to more.
        let many = 1 + rng.below(usize::from(cells) + 1);
        let seats: Vec<u16> = match rng.below(3) {
            0 => (1..).take(many).collect(),
            1 => (1..=600).rev().take(many).collect(),
            _ => (0..many).map(|_| rng.within(1, 600)).collect(),
        };
        let mix = random_mix(rng);
        let length = if cells > 100 { 60 } else { 30 };
        for _ in 0..length {
            turn(rng, calls, &mix, &seats)?;
        }
    }
    Ok(())
}

/// One call, or another scratch.
fn turn(rng: &mut Rng, calls: &mut Calls, mix: &Mix, seats: &[u16]) -> io::Result<()> {
    let cells = calls.runner.cells().unwrap_or(0);
    let roster = calls.roster();
    let seat = rng.pick(seats);
    match rng.weighted(&[
        mix.set,
        mix.remove,
        mix.look_up,
        mix.count,
        mix.refused,
        mix.scratch,
        mix.fresh,
    ]) {
        0 => calls.set(seat, any_reading(rng)),
        1 if roster.is_empty() || rng.one_in(3) => calls.remove(seat),
        1 => {
            let present: Vec<u16> = roster.seats().collect();
            calls.remove(rng.pick(&present))
        }
        2 => calls.look_up(seat),
        3 => {
            // A threshold that stands in the roster, one above it, or any.
            let reading = roster.look_up(seat).unwrap_or(0);
            calls.count(rng.pick(&[reading, reading + 1, 0]))?;
            let threshold = match rng.below(3) {
                0 => rng.word(),
                _ => rng.within(0, 4_095),
            };
            calls.count(threshold)
        }
        4 => refused_call(rng, calls, seat),
        5 => {
            let words = match rng.below(5) {
                0 => usize::from(cells) - 1,
                n => usize::from(cells) + n - 1,
            };
            let scratch = match cells {
                0..=12 => any_scratch(rng, words),
                _ => plain_scratch(rng, words),
            };
            calls.scratch(&scratch)?;
            calls.look_up(seat)
        }
        // Never with more cells than the table has words for.
        _ => {
            let most = (calls.runner.table_length() - HEADER_WORDS) / CELL_WORDS;
            calls.fresh(rng.within(1, most as u16))
        }
    }
}

/// A call that is refused on any store, if not by an earlier question.
fn refused_call(rng: &mut Rng, calls: &mut Calls, seat: u16) -> io::Result<()> {
    let outside = match rng.below(3) {
        0 => 0,
        1 => 601,
        _ => rng.within(601, u16::MAX),
    };
    let reading = match rng.below(4) {
        0 => rng.within(4_095, 32_767),
        1 => rng.within(32_768, u16::MAX),
        2 => rng.pick(&[4_095, 32_767]),
        _ => rng.pick(&[32_768, 65_535]),
    };
    let call = match rng.below(6) {
        0 => Call::LookUp(outside),
        1 => Call::Remove(outside),
        2 => Call::Set {
            seat: outside,
            reading: rng.word(),
        },
        3 => Call::Fresh(rng.pick(&[0, 4_097, 65_535])),
        _ => Call::Set { seat, reading },
    };
    calls.call(call)
}
