//! Lists of sound stores with calls.

use std::io;

use super::atoms::{self, FIRST_CLIPPED, LAST_STORED};
use super::follower::{Follower, Mix, QUESTIONS};
use super::list::List;
use super::rng::Rng;
use crate::call::Call;
use crate::store::Store;
use crate::table::*;

pub fn random_mix(rng: &mut Rng) -> Mix {
    let mut weight = || 1 + rng.below(40);
    Mix {
        nil_read: 1 + weight() / 10,
        read: weight(),
        cons: weight(),
        replace: weight(),
        up: weight(),
        down: weight(),
        step: [3, 30, 120][weight() % 3],
    }
}

/// A table and a scratch of garbage, for `cells` cells, with some words over.
fn garbage(rng: &mut Rng, cells: u16) -> Store {
    let extra = rng.below(4);
    let mut store = Store::zeroed(length(cells) + extra, cells as usize + extra);
    for word in store.table.iter_mut().chain(&mut store.scratch) {
        *word = rng.word();
    }
    store
}

/// Any of the ten calls with any operands, those at the borders more often.
pub fn any_call(rng: &mut Rng, cells: u16) -> Call {
    let mut word = || match rng.below(8) {
        0 => rng.pick(&[
            NIL,
            cells + 1,
            32_767,
            FIRST_ATOM,
            LAST_STORED,
            FIRST_CLIPPED,
            u16::MAX,
        ]),
        1 => rng.word(),
        _ => rng.within(0, cells),
    };
    let (x, y) = (word(), word());
    let n = match rng.below(4) {
        0 => rng.pick(&[0, 1, 4_094, 4_095, 4_096, u16::MAX]),
        _ => rng.within(1, 4),
    };
    match rng.below(13) {
        0 => Call::Car(x),
        1 => Call::Cdr(x),
        2 => Call::Cons(x, y),
        3 => Call::ReplaceLeft(x, y),
        4 => Call::ReplaceRight(x, y),
        5 => Call::Up(x, n),
        6 => Call::Down(x, n),
        7 => Call::Audit,
        8 if rng.one_in(5) => Call::Fresh(rng.pick(&[0, 1, cells - 1, cells, cells + 1, 4_097])),
        _ => Call::Step,
    }
}

/// Runs of calls from a fresh over garbage, written whole for small stores and
/// with checksums for large ones.
pub fn runs(rng: &mut Rng, list: &mut List, cases: usize) -> io::Result<()> {
    for case in 0..cases {
        let cells = match case % 12 {
            11 => rng.pick(&[63, 64, 65, 300]),
            10 => 1,
            _ => rng.within(1, 10),
        };
        list.title(&format!("run of calls, {cells} cells"))?;
        let store = garbage(rng, cells);
        list.store(&store)?;
        let mut follower = Follower::new(store);
        let mix = random_mix(rng);
        let brief = cells > 10;
        let fresh = Call::Fresh(cells);
        list.call(fresh)?;
        follower.perform(fresh);
        for i in 0..if brief { 400 } else { 25 } {
            let call = match rng.below(8) {
                0 => any_call(rng, follower.cells()),
                1 => {
                    let question = rng.pick(&QUESTIONS);
                    let refused = follower.refused_call(rng, question);
                    refused.unwrap_or(Call::Audit)
                }
                _ => follower.lively_call(rng, mix),
            };
            if brief && i % 100 != 99 {
                list.brief(call)?;
            } else {
                list.call(call)?;
            }
            follower.perform(call);
        }
    }
    Ok(())
}

/// A sound store somewhere in the middle of things.
pub fn random_store(rng: &mut Rng, cells: u16, calls: usize) -> Follower {
    let mut follower = Follower::fresh(cells);
    let mix = random_mix(rng);
    for _ in 0..calls {
        let call = follower.lively_call(rng, mix);
        follower.perform(call);
    }
    follower
}

/// The same with clipped readings in it.
pub fn clipped_store(rng: &mut Rng, cells: u16, calls: usize) -> Follower {
    let mut follower = random_store(rng, cells, calls);
    atoms::clip_some(rng, &mut follower.store);
    follower
}

/// Sound stores written out, each with a few calls.
pub fn snapshots(rng: &mut Rng, list: &mut List, cases: usize) -> io::Result<()> {
    for _ in 0..cases {
        let cells = rng.within(1, 9);
        let calls = rng.below(200);
        let mut follower = clipped_store(rng, cells, calls);
        // Now and then the scratch is one short; its words are any.
        let scratch = cells as usize - usize::from(rng.one_in(6)) + rng.below(2);
        follower.store.scratch = (0..scratch).map(|_| rng.word()).collect();
        list.title(&format!("sound store of {cells} cells after {calls} calls"))?;
        list.store(&follower.store)?;
        let mix = random_mix(rng);
        for _ in 0..3 {
            let call = if rng.one_in(2) {
                any_call(rng, follower.cells())
            } else {
                follower.lively_call(rng, mix)
            };
            list.call(call)?;
            follower.perform(call);
        }
        list.call(Call::Audit)?;
    }
    Ok(())
}

/// Every call with every pair of border operands, one after another.
pub fn operands(rng: &mut Rng, list: &mut List) -> io::Result<()> {
    for cells in [1, 3, 8, 4_095, 4_096] {
        list.title(&format!("border operands, {cells} cells"))?;
        if cells <= 8 {
            list.store(&clipped_store(rng, cells, 60).store)?;
        } else {
            list.store(&Store::zeroed(length(cells), cells as usize))?;
            list.brief(Call::Fresh(cells))?;
        }
        let words = [
            0,
            1,
            2,
            cells - 1,
            cells,
            cells.saturating_add(1),
            32_767,
            32_768,
            LAST_STORED,
            FIRST_CLIPPED,
            65_535,
        ];
        let numbers = [0, 1, 2, 4_094, 4_095, 4_096, 32_768, 65_535];
        list.brief(Call::Cons(0, LAST_STORED))?;
        list.brief(Call::Up(1, 3))?;
        for x in words {
            list.brief(Call::Car(x))?;
            list.brief(Call::Cdr(x))?;
            for y in words {
                list.brief(Call::Cons(x, y))?;
                list.brief(Call::ReplaceLeft(x, y))?;
                list.brief(Call::ReplaceRight(x, y))?;
                list.brief(Call::Step)?;
            }
            for n in numbers {
                list.brief(Call::Up(x, n))?;
                list.brief(Call::Step)?;
                list.brief(Call::Down(x, n))?;
            }
            list.brief(Call::Audit)?;
        }
        list.brief(Call::Fresh(cells))?;
        list.brief(Call::Audit)?;
    }
    Ok(())
}

/// A long run in a store of 4,096 cells, with checksums.
pub fn large(rng: &mut Rng, list: &mut List, calls: usize) -> io::Result<()> {
    let mut follower = Follower::new(Store::for_any_fresh());
    list.title("run of calls, 4096 cells")?;
    list.store(&follower.store)?;
    let mix = random_mix(rng);
    for i in 0..calls {
        let call = match i {
            0 => Call::Fresh(MAX_CELLS),
            _ if i % 50 == 0 => Call::Audit,
            _ => follower.lively_call(rng, mix),
        };
        list.brief(call)?;
        follower.perform(call);
    }
    Ok(())
}
