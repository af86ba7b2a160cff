//! Lists for fresh and the row calls alone: stores are written out again and
//! again, as no step empties the queue.

use std::io;

use super::atoms;
use super::follower::{Follower, Mix, QUESTIONS};
use super::list::List;
use super::rng::Rng;
use super::session::ceiling_calls;
use super::sound::{any_call, clipped_store, random_mix};
use crate::call::Call;
use crate::queue::Queue;
use crate::table::*;

/// Sound stores with row calls, many of them to be refused.
pub fn rows(rng: &mut Rng, list: &mut List, cases: usize) -> io::Result<()> {
    for case in 0..cases {
        let cells = match case % 16 {
            0..6 => [1, 2, 3, 63, 64, 65][case % 16],
            6 if case % 64 == 6 => MAX_CELLS,
            _ => rng.within(1, 9),
        };
        let calls = rng.below(100 + cells as usize);
        let mut follower = clipped_store(rng, cells, calls);
        match case % 3 {
            0 => follower.drain(),
            1 => fill_queue(rng, &mut follower),
            _ => {}
        }
        // Words past the cells, and a scratch of any length, stay as they are.
        let extra = rng.below(3);
        follower.store.table.extend((0..extra).map(|_| rng.word()));
        follower.store.scratch = (0..rng.below(4)).map(|_| rng.word()).collect();
        list.title(&format!("row calls, {cells} cells after {calls} calls"))?;
        list.store(&follower.store)?;
        let mix = without_steps(rng);
        for _ in 0..14 {
            let call = row_call(rng, &mut follower, mix);
            if cells < 100 && rng.one_in(if cells < 10 { 3 } else { 8 }) {
                list.call(call)?;
            } else {
                list.brief(call)?;
            }
            follower.perform(call);
        }
    }
    Ok(())
}

/// Reads of nil are frequent, so that enough of them meet a full queue.
fn without_steps(rng: &mut Rng) -> Mix {
    Mix {
        nil_read: 12,
        step: 0,
        ..random_mix(rng)
    }
}

fn row_call(rng: &mut Rng, follower: &mut Follower, mix: Mix) -> Call {
    let call = match rng.below(5) {
        0 => any_call(rng, follower.cells()),
        1 | 2 => {
            let question = rng.pick(&QUESTIONS);
            follower.refused_call(rng, question).unwrap_or(Call::Audit)
        }
        _ => follower.lively_call(rng, mix),
    };
    if !matches!(call, Call::Step | Call::Audit) {
        return call;
    }
    match follower.held_cell(rng) {
        Some(x) => rng.pick(&[
            Call::Car(x),
            Call::Cdr(x),
            Call::Cons(x, NIL),
            Call::ReplaceLeft(x, NIL),
            Call::ReplaceRight(x, FIRST_ATOM),
            Call::Down(x, 1),
        ]),
        None => Call::Cons(NIL, NIL),
    }
}

/// Fills the queue, or nearly so, with calls that give up no last hold.
fn fill_queue(rng: &mut Rng, follower: &mut Follower) {
    let count = Queue::SLOTS - rng.below(4);
    while (follower.store.queue.count as usize) < count {
        let Some(x) = follower.held_cell(rng) else {
            // Without a held cell, an empty queue leaves all cells free.
            follower.drain();
            follower.perform(Call::Cons(NIL, NIL));
            continue;
        };
        let other = follower.held_cell(rng).filter(|&y| follower.holds(y) > 2);
        let mut calls = vec![
            Call::Up(x, rng.within(1, 3)),
            Call::ReplaceLeft(x, NIL),
            Call::ReplaceRight(x, atoms::storable(rng)),
            Call::Cons(NIL, NIL),
        ];
        if let Some(y) = other {
            calls.extend([
                Call::Down(y, 1),
                Call::Cdr(y),
                Call::ReplaceLeft(x, y),
                Call::Cons(y, y),
            ]);
        }
        follower.perform(rng.pick(&calls));
    }
}

/// Stores in which cell 1 is at 4,094 pointers, with the calls around that
/// ceiling and around 4,095 holds; at most so many of the three.
pub fn ceilings(rng: &mut Rng, list: &mut List, cases: usize) -> io::Result<()> {
    let stores = [
        ("17 packets waiting", 2_100, 17),
        ("queue nearly full", 2_060, 62),
        ("no cell free", 2_048, 0),
    ];
    for (title, cells, waiting) in stores.into_iter().take(cases) {
        let mut follower = crowd(cells, waiting);
        follower.store.table.extend([rng.word(), rng.word()]);
        follower.store.scratch.fill(rng.word());
        list.title(&format!("4094 pointers, {title}"))?;
        list.store(&follower.store)?;
        list.brief(Call::Audit)?;
        for call in ceiling_calls() {
            list.brief(call)?;
        }
        // From 4,095 pointers again, in the right field.
        for call in [
            Call::Up(1, 20),
            Call::ReplaceRight(3, 1),
            Call::ReplaceRight(4, 1),
            Call::ReplaceLeft(4, NIL),
            Call::ReplaceRight(3, 1),
            Call::ReplaceRight(3, 1),
            Call::Cons(1, NIL),
            Call::ReplaceLeft(4, 1),
            Call::Cons(NIL, 1),
        ] {
            list.brief(call)?;
        }
        list.brief(Call::Audit)?;
    }
    Ok(())
}

/// Cells 2 to 2,048 hold cell 1 twice each, the last of them so far by packets
/// that wait.
fn crowd(cells: u16, waiting: usize) -> Follower {
    let mut follower = Follower::fresh(cells);
    follower.perform(Call::Cons(NIL, FIRST_ATOM));
    follower.perform(Call::Up(1, 10));
    for pair in 0..MAX_COUNT as usize / 2 {
        if follower.holds(1) < 10 {
            follower.perform(Call::Up(1, 4_000));
        }
        if pair + waiting <= MAX_COUNT as usize / 2 {
            follower.drain();
        }
        follower.perform(Call::Cons(1, 1));
    }
    if waiting == 0 {
        follower.drain();
    }
    follower
}
