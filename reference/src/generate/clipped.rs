//! Clipped readings (A5): atoms around 4,095 in every operand, with each other
//! refusal that may come before 14 or after it, and stores that contain some.

use std::io;

use super::atoms::{clip_some, rename, storable, BORDER_VALUES, LAST_STORED};
use super::damaged::sample;
use super::follower::Follower;
use super::list::{word, List};
use super::rng::Rng;
use crate::call::Call;
use crate::queue::Queue;
use crate::store::Store;
use crate::table::*;

pub fn clipped(rng: &mut Rng, list: &mut List) -> io::Result<()> {
    for (title, store) in sound_stores() {
        every_operand(list, title, &store, &BORDER_VALUES)?;
    }
    for (title, store) in damaged_stores() {
        every_operand(list, title, &store, &BORDER_VALUES)?;
    }
    for (title, store) in unfit_stores() {
        every_operand(list, title, &store, &[CLIP - 1, CLIP])?;
    }
    stored_before(list)?;
    waiting_before(list)?;
    random_stores(rng, list)
}

/// Cell 1 is held often, 3 once and contains 2, which isn't held. The other cells
/// are free. So many packets wait.
fn base(cells: u16, waiting: usize) -> Store {
    let mut follower = Follower::fresh(cells);
    for call in [
        Call::Cons(NIL, FIRST_ATOM + 7),
        Call::Cons(NIL, NIL),
        Call::Cons(2, NIL),
        Call::Up(1, 100),
    ] {
        follower.perform(call);
    }
    follower.drain();
    for _ in 0..waiting {
        follower.perform(Call::Up(1, 1));
    }
    follower.store
}

fn sound_stores() -> Vec<(&'static str, Store)> {
    let mut with_one = base(24, 0);
    rename(&mut with_one, FIRST_ATOM + 7, u16::MAX);
    vec![
        ("cells free, no packet waiting", with_one),
        ("one slot empty", base(24, Queue::SLOTS - 1)),
        ("queue full", base(24, Queue::SLOTS)),
        ("no cell free", base(3, 0)),
        ("queue full, no cell free", base(3, Queue::SLOTS)),
    ]
}

/// A store for each rule of the audit, which it breaks.
fn damaged_stores() -> Vec<(&'static str, Store)> {
    let edited = |index: usize, value: u16| {
        let mut store = sample();
        store.table[index] = value;
        store
    };
    let mut stray = sample();
    stray.queue.c[30] = 1;
    let mut unreached = base(3, 0);
    unreached.table[word(3, ROOT_COUNT)] = 0;
    let mut full = base(3, Queue::SLOTS);
    full.table[word(2, STATE)] = 2;
    vec![
        ("S1 broken", edited(word(5, LEFT), 9)),
        ("S2 broken", edited(FIRST_FREE, 0)),
        ("S3 broken", stray),
        ("S4 broken", edited(word(1, CELL_COUNT), 2)),
        ("S5 broken, no cell free", unreached),
        ("S1 broken, queue full", full),
    ]
}

fn unfit_stores() -> Vec<(&'static str, Store)> {
    let mut short = base(24, 0);
    short.table.pop();
    let mut far = base(24, 0);
    far.queue.place = 64;
    vec![("table too short", short), ("place is 64", far)]
}

/// For each value the store anew and every call with that atom, first those that
/// are refused by what goes by the operands.
fn every_operand(list: &mut List, title: &str, store: &Store, values: &[u16]) -> io::Result<()> {
    for &value in values {
        list.title(&format!("atom {value}, {title}"))?;
        list.store(store)?;
        list.brief(Call::Audit)?;
        let mut calls = calls_with(FIRST_ATOM + value, store.table[CELLS]);
        calls.sort_by_key(|call| call.first_questions(store).is_ok());
        for call in calls {
            list.brief(call)?;
        }
        list.brief(Call::Step)?;
        list.brief(Call::Audit)?;
    }
    Ok(())
}

fn calls_with(atom: u16, cells: u16) -> Vec<Call> {
    // A cell held often, one in use and not held, an illegal word.
    let (held, other, bad) = (1, 2, cells + 1);
    let mut calls = Vec::new();
    for word in [NIL, held, other, cells, bad, 32_767, LAST_STORED, atom] {
        calls.extend([Call::Cons(atom, word), Call::Cons(word, atom)]);
    }
    for x in [held, other, cells, NIL, atom, FIRST_ATOM, bad, 32_767] {
        calls.extend([Call::ReplaceLeft(x, atom), Call::ReplaceRight(x, atom)]);
    }
    for y in [NIL, held, bad] {
        calls.extend([Call::ReplaceLeft(atom, y), Call::ReplaceRight(atom, y)]);
    }
    calls.extend([Call::Car(atom), Call::Cdr(atom)]);
    for n in [0, 1, 4_095, 4_096] {
        calls.extend([Call::Up(atom, n), Call::Down(atom, n)]);
    }
    // A number is no word: 4,095 is as good as any.
    calls.extend([Call::Up(held, 4_095), Call::Down(held, 4_095)]);
    calls
}

/// A cell that contains a clipped reading from before A5, with its cons waiting or
/// not: read, refused elsewhere, taken out by replaces or freed with the cell.
fn stored_before(list: &mut List) -> io::Result<()> {
    let mark = FIRST_ATOM + 1;
    for value in [CLIP - 1, CLIP, CLIP + 1, u16::MAX - FIRST_ATOM] {
        let atom = FIRST_ATOM + value;
        for (left, right) in [(mark, NIL), (NIL, mark), (mark, mark)] {
            for (settled, replaced) in [(false, false), (false, true), (true, false), (true, true)]
            {
                let mut follower = Follower::fresh(4);
                follower.perform(Call::Cons(left, right));
                follower.perform(Call::Up(1, 4));
                if settled {
                    follower.drain();
                }
                rename(&mut follower.store, mark, atom);
                list.title(&format!("atom {value} in a cell"))?;
                list.store(&follower.store)?;
                life(list, atom, replaced)?;
            }
        }
    }
    Ok(())
}

/// Cell 1 is held five times and contains the atom.
fn life(list: &mut List, atom: u16, replaced: bool) -> io::Result<()> {
    use Call::*;
    let mut calls = vec![
        Audit,
        Car(1),
        Cdr(1),
        Cons(atom, NIL),
        ReplaceLeft(1, atom),
        ReplaceRight(1, atom),
        // The cell itself may be stored, whatever it contains.
        Cons(1, LAST_STORED),
        Audit,
    ];
    if replaced {
        calls.extend([
            ReplaceLeft(1, LAST_STORED),
            ReplaceRight(1, NIL),
            Car(1),
            Cons(atom, 1),
            Audit,
        ]);
    }
    calls.extend([Down(2, 1), Down(1, 1), Down(1, 1)]);
    for call in calls {
        list.call(call)?;
    }
    for _ in 0..13 {
        list.brief(Step)?;
        list.brief(Audit)?;
    }
    list.call(Cons(NIL, LAST_STORED))?;
    list.call(Audit)
}

/// Packets of all kinds with clipped readings wait: what was put in, taken out and
/// read before A5. They are taken as any others; and a cell is one atom off.
fn waiting_before(list: &mut List) -> io::Result<()> {
    let (one, two) = (FIRST_ATOM + 1, FIRST_ATOM + 2);
    let mut follower = Follower::fresh(3);
    for call in [
        Call::Cons(one, two),
        Call::Up(1, 6),
        Call::ReplaceLeft(1, two),
        Call::ReplaceRight(1, one),
        Call::ReplaceRight(1, NIL),
        Call::ReplaceRight(1, two),
        Call::Car(1),
        Call::Cdr(1),
        Call::Cons(1, one),
        Call::ReplaceLeft(2, NIL),
        Call::Down(1, 3),
    ] {
        follower.perform(call);
    }
    rename(&mut follower.store, one, FIRST_ATOM + CLIP);
    rename(&mut follower.store, two, u16::MAX);
    for off in [None, Some(word(1, LEFT)), Some(word(2, RIGHT))] {
        let mut store = follower.store.clone();
        if let Some(index) = off {
            store.table[index] -= 1;
        }
        list.title("clipped readings in waiting packets")?;
        list.store(&store)?;
        list.call(Call::Audit)?;
        list.brief(Call::ReplaceLeft(1, u16::MAX))?;
        list.brief(Call::Cons(FIRST_ATOM + CLIP, NIL))?;
        for _ in 0..=store.queue.count {
            list.call(Call::Step)?;
            list.brief(Call::Audit)?;
        }
    }
    Ok(())
}

/// All cells but one in use, with more atoms in them than cells and nil.
fn full_of_atoms(rng: &mut Rng, cells: u16) -> Follower {
    let mut follower = Follower::fresh(cells);
    for _ in 1..cells {
        let (x, y) = (storable(rng), storable(rng));
        let cell = follower.held_cell(rng).unwrap_or(NIL);
        follower.perform(rng.pick(&[
            Call::Cons(x, y),
            Call::Cons(x, NIL),
            Call::Cons(cell, x),
            Call::Cons(y, cell),
        ]));
    }
    follower
}

/// Random stores with clipped readings: what is held is read and replaced.
fn random_stores(rng: &mut Rng, list: &mut List) -> io::Result<()> {
    for _ in 0..24 {
        let cells = rng.within(3, 9);
        let mut follower = full_of_atoms(rng, cells);
        if rng.one_in(2) {
            follower.drain();
        }
        clip_some(rng, &mut follower.store);
        list.title(&format!("clipped readings in {cells} cells"))?;
        list.store(&follower.store)?;
        list.brief(Call::Audit)?;
        for x in (1..=cells).filter(|&x| follower.holds(x) > 0) {
            for call in [
                Call::Up(x, 2),
                Call::Car(x),
                Call::Cdr(x),
                Call::ReplaceLeft(x, LAST_STORED),
                Call::ReplaceRight(x, NIL),
                Call::Step,
            ] {
                list.brief(call)?;
            }
        }
        list.brief(Call::Audit)?;
    }
    Ok(())
}
