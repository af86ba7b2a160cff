//! Texts at the borders of the empty slots and of the free cells.

use std::io;

use super::{scattered, some_pairs, Case};
use crate::call::Call;
use crate::generate::atoms;
use crate::generate::follower::Follower;
use crate::generate::list::List;
use crate::generate::rng::Rng;
use crate::queue::Queue;
use crate::table::*;

/// Packets until so many wait, all of which keep the cell held.
fn fill(rng: &mut Rng, follower: &mut Follower, waiting: usize) {
    while (follower.store.queue.count as usize) < waiting {
        let Some(x) = follower.held_cell(rng) else {
            return;
        };
        let call = match rng.below(5) {
            0 => Call::ReplaceLeft(x, NIL),
            1 => Call::ReplaceRight(x, atoms::storable(rng)),
            2 if follower.holds(x) > 1 => Call::Down(x, 1),
            _ => Call::Up(x, 1),
        };
        follower.perform(call);
    }
}

/// Few empty slots and few free cells, with texts that are too much for one or
/// both, until one fits.
fn both_short(rng: &mut Rng, list: &mut List) -> io::Result<()> {
    for empty in 0..5 {
        for free in 0..5 {
            let mut follower = scattered(rng, free as u16 + 1, 1);
            fill(rng, &mut follower, Queue::SLOTS - empty);
            let title = format!("{empty} slots empty, {free} cells free");
            let mut case = Case::start(list, &title, follower)?;
            for pairs in (empty.min(free)..=empty.max(free) + 1).rev() {
                for _ in 0..3 {
                    let text = some_pairs(rng, pairs);
                    case.read(&text)?;
                }
            }
            case.call(Call::Audit)?;
        }
    }
    Ok(())
}

/// Every number of waiting packets, with texts of as many pairs as slots are
/// empty, one less and one more.
pub fn queues(rng: &mut Rng, list: &mut List) -> io::Result<()> {
    for waiting in 0..=Queue::SLOTS {
        let empty = Queue::SLOTS - waiting;
        // Cells enough, or one less than slots, or far fewer.
        let free = match waiting % 4 {
            3 => empty.saturating_sub(1),
            2 => empty + 1,
            _ => empty + 3,
        };
        let kept = 1 + rng.within(0, 2);
        let mut follower = scattered(rng, free as u16 + kept, kept);
        fill(rng, &mut follower, waiting);
        let title = format!("{waiting} packets waiting, {free} cells free");
        let mut case = Case::start(list, &title, follower)?;
        let text = some_pairs(rng, empty + 1);
        case.read(&text)?;
        let text = some_pairs(rng, empty);
        case.read(&text)?;
        if rng.one_in(2) && empty > 0 {
            let text = some_pairs(rng, empty - 1);
            case.read(&text)?;
        }
        // What is left by now, for texts and for other calls.
        for pairs in [2, 1, 0] {
            let text = some_pairs(rng, pairs);
            case.read(&text)?;
        }
        let x = case.follower.held_cell(rng).unwrap_or(1);
        case.call(rng.pick(&[Call::Cons(NIL, NIL), Call::Cdr(x), Call::Up(x, 1)]))?;
        case.call(rng.pick(&[Call::Car(NIL), Call::ReplaceLeft(x, NIL), Call::Down(x, 1)]))?;
        for _ in 0..rng.below(3) {
            case.call(Call::Step)?;
            let text = some_pairs(rng, 1);
            case.read(&text)?;
        }
        if rng.one_in(3) {
            case.call(Call::Audit)?;
        }
    }
    both_short(rng, list)
}

/// Stores with 0 to 24 cells free and some more, with texts of as many pairs,
/// one less and one more, into scattered chains.
pub fn free(rng: &mut Rng, list: &mut List) -> io::Result<()> {
    let numbers = (0..=24).chain([31, 40, 62, 63, 64]);
    for free in numbers {
        for twice in 0..2 {
            let kept = 1 + rng.within(0, 3);
            let cells = free as u16 + kept;
            let mut follower = scattered(rng, cells, kept);
            if twice == 1 {
                fill(rng, &mut follower, (64 - free).min(20));
                follower.store.table.push(rng.word());
            }
            let title = format!("{free} cells free of {cells}");
            let mut case = Case::start(list, &title, follower)?;
            let text = some_pairs(rng, free + 1);
            case.read(&text)?;
            let mut left = free;
            if twice == 1 && free > 1 {
                // In two goes.
                let first = 1 + rng.below(free - 1);
                let text = some_pairs(rng, first);
                if free < 12 {
                    case.read_whole(&text)?;
                } else {
                    case.read(&text)?;
                }
                left -= first;
                case.call(Call::Step)?;
                let text = some_pairs(rng, left + 1);
                case.read(&text)?;
            }
            let text = some_pairs(rng, left);
            let word = case.read(&text)?;
            let text = some_pairs(rng, 1);
            case.read(&text)?;
            case.read(b"()")?;
            case.call(Call::Audit)?;
            if let Some(word) = word.filter(|&word| is_cell(word, cells)) {
                case.write(word, 200, 1)?;
                if rng.one_in(2) {
                    case.call(Call::Step)?;
                    case.call(Call::Step)?;
                    case.call(Call::Down(word, 1))?;
                    case.step_until_idle()?;
                    case.read(&text)?;
                    case.call(Call::Audit)?;
                }
            }
        }
    }
    Ok(())
}
