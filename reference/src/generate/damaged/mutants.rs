//! Sound stores with random words changed.

use std::io;

use crate::call::Call;
use crate::generate::atoms::{self, FIRST_CLIPPED, LAST_STORED};
use crate::generate::edges;
use crate::generate::follower::nil_read;
use crate::generate::list::List;
use crate::generate::recount::recount;
use crate::generate::rng::Rng;
use crate::generate::sound;
use crate::question;
use crate::queue::Queue;
use crate::store::Store;

/// Sound stores with some random words written into them.
pub fn mutants(rng: &mut Rng, list: &mut List, cases: usize) -> io::Result<()> {
    for _ in 0..cases {
        let cells = rng.within(1, 9);
        let store = mutant(rng, cells);
        list.title("mutant")?;
        list.store(&store)?;
        list.call(Call::Audit)?;
        list.brief(nil_read(rng))?;
        if rng.one_in(2) {
            list.brief(clipped_call(rng, cells))?;
        }
        for _ in 0..2 {
            list.brief(sound::any_call(rng, cells))?;
        }
    }
    Ok(())
}

/// A call that question 14 refuses on any store of so many cells.
fn clipped_call(rng: &mut Rng, cells: u16) -> Call {
    let (x, y) = (rng.within(1, cells), rng.within(0, cells));
    let clipped = atoms::clipped(rng);
    rng.pick(&[
        Call::Cons(clipped, y),
        Call::Cons(y, clipped),
        Call::ReplaceLeft(x, clipped),
        Call::ReplaceRight(x, clipped),
    ])
}

/// A sound store with one or two words changed. In two of three the sixth words
/// follow the queue, so that other rules than S3 are met.
pub fn mutant(rng: &mut Rng, cells: u16) -> Store {
    let calls = rng.below(120);
    let mut store = sound::clipped_store(rng, cells, calls).store;
    for word in &mut store.scratch {
        *word = rng.word();
    }
    for _ in 0..1 + rng.below(2) {
        let value = match rng.below(4) {
            0 => rng.pick(&[0, cells + 1, 4_095, 4_096, 32_767, 32_768, 65_535]),
            1 if rng.one_in(2) => rng.pick(&[LAST_STORED, FIRST_CLIPPED]),
            1 => rng.word(),
            _ => rng.within(0, cells),
        };
        mutate(rng, &mut store, value);
    }
    if !rng.one_in(3) && question::store(&store.table, &store.queue).is_ok() {
        recount(&mut store);
    }
    store
}

/// Mutants and garbage, audited, each with reads of nil and calls that questions
/// 3 to 5 and 14 refuse on any store and then all row calls and steps on its
/// cells, decided or not.
pub fn wrecks(rng: &mut Rng, list: &mut List, cases: usize) -> io::Result<()> {
    for case in 0..cases {
        let cells = match case % 12 {
            0..6 => [1, 2, 3, 63, 64, 65][case % 12],
            _ => rng.within(1, 9),
        };
        let store = match case % 3 {
            0 => edges::garbled(rng, cells),
            _ => mutant(rng, cells),
        };
        list.title(&format!("wreck of {cells} cells"))?;
        list.store(&store)?;
        list.brief(Call::Audit)?;
        let (x, y, n) = (cells, rng.within(0, cells), rng.within(1, 4_095));
        let bad = rng.pick(&[cells + 1, 32_767]);
        let no_cell = rng.pick(&[0, 32_768, 65_535]);
        let atom = rng.pick(&[32_768, 65_535]);
        for call in [
            Call::Car(0),
            Call::Fresh(rng.pick(&[0, 4_097])),
            rng.pick(&[Call::Up(x, 0), Call::Down(bad, 4_096)]),
            rng.pick(&[Call::Car(bad), Call::Cdr(bad), Call::Up(bad, n)]),
            rng.pick(&[Call::Cons(y, bad), Call::ReplaceLeft(no_cell, bad)]),
            rng.pick(&[Call::Car(atom), Call::Cdr(atom), Call::Down(no_cell, n)]),
            rng.pick(&[
                Call::ReplaceLeft(no_cell, y),
                Call::ReplaceRight(no_cell, y),
            ]),
            // Question 4 or 5 comes before question 14.
            rng.pick(&[
                Call::Cons(FIRST_CLIPPED, bad),
                Call::ReplaceLeft(no_cell, FIRST_CLIPPED),
                Call::ReplaceRight(bad, FIRST_CLIPPED),
            ]),
            clipped_call(rng, cells),
            Call::Cdr(0),
        ] {
            list.brief(call)?;
        }
        let mut calls = vec![Call::Step; 4];
        for _ in 0..2 {
            let (x, y, n) = (rng.within(1, cells), rng.within(0, cells), rng.within(1, 9));
            calls.extend([
                Call::Car(x),
                Call::Cdr(x),
                Call::Cons(x, y),
                Call::Cons(y, x),
                Call::ReplaceLeft(x, y),
                Call::ReplaceRight(x, y),
                Call::Up(x, n),
                Call::Down(x, n),
            ]);
        }
        while !calls.is_empty() {
            let next = rng.below(calls.len());
            list.brief(calls.swap_remove(next))?;
        }
        list.brief(Call::Fresh(cells))?;
    }
    Ok(())
}

/// Writes `value` somewhere into the table or the queue.
fn mutate(rng: &mut Rng, store: &mut Store, value: u16) {
    let queue = &mut store.queue;
    if rng.one_in(2) {
        // Not C, whose every change is refused by question 1 or S2.
        let index = 1 + rng.below(store.table.len() - 1);
        store.table[index] = value;
        return;
    }
    let near = rng.below(queue.count as usize % 64 + 2);
    let slot = (queue.place as usize + near) % Queue::SLOTS;
    match rng.below(9) {
        0 => queue.place = value % 66,
        1 => queue.count = value % 66,
        2 | 3 => queue.kinds[slot] = value % 8,
        4 | 5 => queue.a[slot] = value,
        6 | 7 => queue.b[slot] = value,
        _ => queue.c[slot] = value,
    }
}
