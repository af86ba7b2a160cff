//! Runs of all calls, and texts written and read back in another store.

use std::io;

use super::{any_fill, random, scattered, Case};
use crate::call::Call;
use crate::generate::atoms;
use crate::generate::follower::{Follower, QUESTIONS};
use crate::generate::list::List;
use crate::generate::rng::Rng;
use crate::generate::sound::{any_call, random_mix, random_store};
use crate::store::Store;
use crate::table::*;

/// Runs of calls of all codes, with many texts.
pub fn mixed(rng: &mut Rng, list: &mut List, cases: usize) -> io::Result<()> {
    for case in 0..cases {
        let cells = match case % 16 {
            15 => rng.pick(&[63, 64, 65]),
            14 => 1,
            13 => 200,
            _ => rng.within(1, 14),
        };
        run(rng, list, cells, if cells > 20 { 90 } else { 36 })?;
    }
    let calls = 60;
    run(rng, list, MAX_CELLS, calls)
}

fn run(rng: &mut Rng, list: &mut List, cells: u16, calls: usize) -> io::Result<()> {
    let extra = rng.below(3);
    let mut store = Store::zeroed(length(cells) + extra, cells as usize + rng.below(2));
    store.scratch.fill(rng.word());
    let mut follower = Follower::new(store);
    let ready = cells <= 14 && rng.one_in(2);
    if ready {
        let kept = rng.within(0, cells);
        follower = scattered(rng, cells, kept);
    }
    let title = format!("all calls, {cells} cells");
    let mut case = Case::start(list, &title, follower)?;
    if !ready {
        case.call(Call::Fresh(cells))?;
    }
    let mix = random_mix(rng);
    for _ in 0..calls {
        let cells = case.follower.cells();
        match rng.below(12) {
            0..=2 => {
                let depth = 1 + rng.below(3);
                let text = if rng.one_in(5) {
                    random::broken(rng, depth)
                } else {
                    random::text(rng, depth)
                };
                if cells < 10 && rng.one_in(6) {
                    case.read_whole(&text)?;
                } else {
                    case.read(&text)?;
                }
                if rng.one_in(2) {
                    case.call(Call::Audit)?;
                }
            }
            3 | 4 => {
                let word = match rng.below(8) {
                    0 => case.follower.illegal_word(rng),
                    1 => rng.within(1, cells),
                    2 => case.follower.operand(rng),
                    _ => case.follower.held_cell(rng).unwrap_or(NIL),
                };
                let length = match case.peek(word, 120) {
                    Some(text) => text.len() - usize::from(rng.one_in(3)) + rng.below(2),
                    None => rng.below(80),
                };
                case.write(word, length, any_fill(rng))?;
            }
            5 => {
                let call = any_call(rng, cells);
                case.call(call)?;
            }
            6 => {
                let question = rng.pick(&QUESTIONS);
                let call = case.follower.refused_call(rng, question);
                case.call(call.unwrap_or(Call::Audit))?;
            }
            _ => {
                let call = case.follower.lively_call(rng, mix);
                case.call(call)?;
            }
        }
    }
    case.call(Call::Audit)?;
    Ok(())
}

/// Words of random stores, rings left out, written; their texts read in another
/// store, twice if there is room, and written there. Every fourth store has clipped
/// readings, of which the text isn't read again.
pub fn back(rng: &mut Rng, list: &mut List, cases: usize) -> io::Result<()> {
    let mut made = 0;
    while made < cases {
        let cells = rng.within(2, 8);
        let calls = 20 + rng.below(100);
        let mut follower = random_store(rng, cells, calls);
        if made % 4 == 3 {
            atoms::clip_some(rng, &mut follower.store);
        }
        let Some(word) = follower.held_cell(rng) else {
            continue;
        };
        let mut first = Case { list, follower };
        let Some(text) = first.peek(word, 250).filter(|text| text.len() > 4) else {
            continue;
        };
        let follower = first.follower;
        let mut first = Case::start(list, &format!("{cells} cells, to be copied"), follower)?;
        first.write(word, text.len(), any_fill(rng))?;
        made += 1;
        let room = rng.within(4, 70);
        let kept = rng.within(1, 2);
        let follower = scattered(rng, room, kept);
        let mut second = Case::start(list, "the copy", follower)?;
        for _ in 0..2 {
            let Some(copy) = second.read(&text)? else {
                break;
            };
            second.write(copy, text.len(), any_fill(rng))?;
            second.write(copy, text.len() - 1, any_fill(rng))?;
        }
        second.call(Call::Audit)?;
    }
    Ok(())
}
