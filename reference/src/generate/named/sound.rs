//! Sound stores with many packets: such that calls make, where all calls are
//! accepted, and random ones that no list of calls makes.

use std::io;

use super::{read, write};
use crate::call::{Call, Reply};
use crate::generate::follower::Follower;
use crate::generate::list::{word, List};
use crate::generate::rng::Rng;
use crate::generate::sound::{any_call, random_mix};
use crate::generate::woven::woven;
use crate::queue::Queue;
use crate::store::Store;
use crate::table::*;
use crate::text_call::TextCall;

/// A store of any size with so many packets, most of which name a cell twice or
/// three times; every call of the format is accepted on it.
fn crowded(rng: &mut Rng, cells: u16, waiting: usize) -> Follower {
    let mut follower = Follower::fresh(cells);
    let mix = random_mix(rng);
    for _ in 0..cells.min(40) * 2 {
        let call = follower.lively_call(rng, mix);
        follower.perform(call);
    }
    follower.drain();
    while follower.held_cell(rng).is_none() || free_cells(&follower.store) < 3 {
        match follower.held_cell(rng) {
            Some(x) => follower.perform(Call::Down(x, follower.holds(x))),
            None => follower.perform(Call::Cons(NIL, NIL)),
        };
        follower.drain();
    }
    // One cell is held often enough for all of them, and not too often.
    let x = follower.held_cell(rng).expect("a cell is held");
    if follower.holds(x) > 10 {
        follower.perform(Call::Down(x, follower.holds(x) - 10));
    }
    follower.perform(Call::Up(x, 300));
    follower.drain();
    while (follower.store.queue.count as usize) < waiting {
        let call = match follower.naming_call(rng) {
            // Three cells at least stay free.
            Call::Cons(..) if free_cells(&follower.store) < 4 => Call::Up(x, 2),
            Call::Down(..) => Call::Up(x, 3),
            call => call,
        };
        follower.perform(call);
    }
    follower
}

fn free_cells(store: &Store) -> usize {
    let cells = 1..=store.table[CELLS];
    cells
        .filter(|&x| store.table[word(x, STATE)] == FREE)
        .count()
}

pub fn accepted(rng: &mut Rng, list: &mut List) -> io::Result<()> {
    for (cells, waiting) in [(5, 12), (8, 40), (9, 54), (20, 30), (64, 50), (65, 54)] {
        let follower = crowded(rng, cells, waiting);
        list.title(&format!(
            "all calls accepted, {cells} cells, {waiting} packets"
        ))?;
        let mut store = follower.store;
        store.table.extend([rng.word(), rng.word()]);
        list.store(&store)?;
        let mut case = Case {
            list,
            store,
            accepted: true,
        };
        case.call(Call::Audit)?;
        let x = (1..=cells).find(|&x| case.accepts(Call::Up(x, 9)));
        let x = x.expect("a cell is held, and not too often");
        for call in [
            Call::Up(x, 9),
            Call::ReplaceLeft(x, x),
            Call::ReplaceLeft(x, x),
            Call::Car(x),
            Call::ReplaceRight(x, NIL),
            Call::Cdr(x),
            Call::Cons(x, x),
        ] {
            case.call(call)?;
        }
        let made = case.text(&read(b"(1 . 2)"))?;
        case.text(&write(made, 9))?;
        case.text(&write(NIL, 4))?;
        case.call(Call::Down(made, 1))?;
        case.call(Call::Down(x, 1))?;
        case.call(Call::Audit)?;
        for _ in 0..case.store.queue.count / 2 {
            case.call(Call::Step)?;
        }
        case.call(Call::Audit)?;
        case.text(&read(b"(3)"))?;
        while case.store.queue.count > 0 {
            case.call(Call::Step)?;
        }
        case.call(Call::Audit)?;
        case.call(Call::Fresh(cells))?;
        case.call(Call::Audit)?;
    }
    Ok(())
}

/// A store in a list and what the calls so far have made of it.
struct Case<'a, 'b> {
    list: &'a mut List<'b>,
    store: Store,
    /// Whether every call is accepted.
    accepted: bool,
}

impl Case<'_, '_> {
    fn call(&mut self, call: Call) -> io::Result<()> {
        let reply = call.perform(&mut self.store);
        assert!(!self.accepted || !matches!(reply, Reply::Refused(_) | Reply::Idle));
        self.list.brief(call)
    }

    /// Gives the word read, or the length written.
    fn text(&mut self, call: &TextCall) -> io::Result<u16> {
        let value = call.perform(&mut self.store).value;
        assert!(!self.accepted || value.is_ok(), "{call:?}");
        self.list.text(call, true)?;
        Ok(value.map_or(0, |value| value as u16))
    }

    fn accepts(&self, call: Call) -> bool {
        !matches!(call.perform(&mut self.store.clone()), Reply::Refused(_))
    }

    /// A random call; three times out of four one that is accepted, if one is found.
    fn random_call(&mut self, rng: &mut Rng) -> Call {
        let cells = self.store.table[CELLS];
        for _ in 0..30 {
            let call = match any_call(rng, cells) {
                Call::Fresh(_) => Call::Step,
                Call::Step if rng.one_in(2) => continue,
                call => call,
            };
            if rng.one_in(4) || self.accepts(call) {
                return call;
            }
        }
        Call::Step
    }
}

/// Stores that no list of calls makes, with all calls; every third one has a sixth
/// word changed.
pub fn random(rng: &mut Rng, list: &mut List, cases: usize) -> io::Result<()> {
    for i in 0..cases {
        let cells = match i % 10 {
            9 => rng.pick(&[33, 64, 65]),
            8 => 1,
            _ => rng.within(2, 9),
        };
        let waiting = match i % 4 {
            0 => rng.below(6),
            1 => Queue::SLOTS - rng.below(2),
            _ => rng.below(Queue::SLOTS),
        };
        let mut store = woven(rng, cells, waiting);
        store.scratch.fill(rng.word());
        if i % 3 == 2 {
            let x = rng.within(1, cells);
            let named = &mut store.table[word(x, NAMED)];
            *named = match rng.below(4) {
                0 => rng.word() % 256,
                1 => named.wrapping_sub(1),
                _ => *named + 1,
            };
        }
        list.title(&format!("woven, {cells} cells, {waiting} packets"))?;
        list.store(&store)?;
        let mut case = Case {
            list,
            store,
            accepted: false,
        };
        case.call(Call::Audit)?;
        case.call(Call::Car(NIL))?;
        for i in 0..10 {
            let call = case.random_call(rng);
            if cells < 6 && i == 5 {
                call.perform(&mut case.store);
                case.list.call(call)?;
            } else {
                case.call(call)?;
            }
        }
        case.text(&read(b"(1 . 2)"))?;
        let x = rng.within(1, cells);
        case.text(&write(x, 9))?;
        for _ in 0..8 {
            case.call(Call::Step)?;
        }
        case.call(Call::Audit)?;
    }
    Ok(())
}
