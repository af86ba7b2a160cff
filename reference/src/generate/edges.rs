//! Lists of stores at the edges of questions 1 and 2 and of fresh, and of
//! stores that are garbage throughout.

use std::io;

use super::atoms::{self, FIRST_CLIPPED};
use super::damaged::sample;
use super::follower::{nil_read, Follower};
use super::list::List;
use super::rng::Rng;
use super::sound::any_call;
use crate::call::Call;
use crate::queue::Packet;
use crate::store::Store;
use crate::table::*;

/// Each call once; only fresh may get past question 1. The reads of nil and the
/// clipped readings stand where they are decided even if the store does pass it.
fn every_call(list: &mut List, title: &str, store: &Store) -> io::Result<()> {
    list.title(title)?;
    list.store(store)?;
    list.brief(Call::Car(0))?;
    list.brief(Call::Cdr(0))?;
    list.brief(Call::Cons(0, FIRST_CLIPPED))?;
    list.brief(Call::ReplaceLeft(1, u16::MAX))?;
    for call in [
        Call::Audit,
        Call::Step,
        Call::Car(1),
        Call::Cdr(65_535),
        Call::Cons(0, 32_767),
        Call::ReplaceLeft(0, 1),
        Call::ReplaceRight(1, 0),
        Call::Up(1, 0),
        Call::Down(1, 1),
        Call::Fresh(0),
        Call::Fresh(4_097),
        Call::Fresh(2),
        Call::Audit,
    ] {
        list.call(call)?;
    }
    Ok(())
}

pub fn question_1(list: &mut List) -> io::Result<()> {
    let sample = sample();
    // Enough for 1, 2 and 8 cells are 9, 15 and 51; before A6 8, 13 and 43 were.
    for length in [0, 1, 2, 3, 4, 8, 9, 13, 14, 15, 43, 50, 51, 52, 57] {
        let mut store = sample.clone();
        store.table.resize(length, 12_345);
        every_call(list, &format!("table of {length} words"), &store)?;
    }
    for cells in [0, 1, 7, 9, 4_096, 4_097, 8_192, 32_768, 65_535] {
        let mut store = sample.clone();
        store.table[CELLS] = cells;
        every_call(list, &format!("C is {cells}"), &store)?;
    }
    for index in [FIRST_FREE, LAST_FREE] {
        for end in [0, 8, 9, 32_768, 65_535] {
            let mut store = sample.clone();
            store.table[index] = end;
            every_call(list, &format!("free end {index} is {end}"), &store)?;
        }
    }
    for place in [0, 63, 64, 65, 124, 65_535] {
        let mut store = sample.clone();
        store.queue.place = place;
        every_call(list, &format!("place is {place}"), &store)?;
    }
    for count in [0, 63, 64, 65, 128, 65_535] {
        let mut store = sample.clone();
        store.queue.count = count;
        every_call(list, &format!("count is {count}"), &store)?;
    }
    long_tables(list)
}

/// C of 4,096 and more with tables long enough and one word short.
fn long_tables(list: &mut List) -> io::Result<()> {
    for (cells, length) in [
        (4_096, length(4_096)),
        (4_096, length(4_096) - 1),
        (4_096, length(4_096) + 2),
        (4_095, length(4_096) - 1),
        (4_097, length(4_097)),
        // Enough before A6.
        (4_096, 3 + 5 * 4_096),
        (0, length(4_096)),
    ] {
        let mut store = Store::zeroed(length, 4_096);
        store.table[CELLS] = cells;
        list.title(&format!("C is {cells} in a table of {length} words"))?;
        list.store(&store)?;
        for call in [
            Call::Audit,
            Call::Car(0),
            Call::Step,
            Call::Cons(0, 0),
            Call::Fresh(4_097),
            Call::Fresh(4_096),
            Call::Fresh(4_095),
            Call::Audit,
            Call::Cons(4_096, 0),
            Call::Cons(0, 0),
            Call::Step,
            Call::Audit,
        ] {
            list.brief(call)?;
        }
    }
    Ok(())
}

/// Scratch of every length around C, with packets waiting and without, in
/// sound and damaged stores.
pub fn question_2(list: &mut List) -> io::Result<()> {
    let waiting = sample();
    let mut idle = waiting.clone();
    while Call::Step.perform(&mut idle) != crate::call::Reply::Idle {}
    let mut damaged = waiting.clone();
    damaged.table[at(1) + CELL_COUNT] = 3;
    let mut damaged_idle = idle.clone();
    damaged_idle.table[at(1) + STATE] = 9;
    for (title, store) in [
        ("packets wait", waiting),
        ("none wait", idle),
        ("damaged, packets wait", damaged),
        ("damaged, none wait", damaged_idle),
    ] {
        for length in [0, 1, 7, 8, 9, 20] {
            let mut store = store.clone();
            store.scratch = (0..length).map(|i| 60_000 + i).collect();
            list.title(&format!("scratch of {length} words, {title}"))?;
            list.store(&store)?;
            list.call(Call::Audit)?;
            // The audit left zeros; the step shall meet garbage too.
            list.store(&store)?;
            list.call(Call::Step)?;
            list.call(Call::Step)?;
            list.call(Call::Audit)?;
        }
    }
    Ok(())
}

/// Fresh over any table, queue and scratch.
pub fn fresh(rng: &mut Rng, list: &mut List) -> io::Result<()> {
    for cells in [0, 1, 2, 3, 63, 64, 65, 4_095, 4_096, 4_097, 65_535] {
        for length in [
            length(cells.min(4_097)).saturating_sub(1),
            length(cells.min(4_097)),
            length(cells.min(4_097)) + 3,
        ] {
            let mut store = Store::zeroed(length, rng.below(4));
            store.table.fill(rng.word());
            garble_queue(rng, &mut store);
            list.title(&format!("fresh {cells} in a table of {length} words"))?;
            list.store(&store)?;
            if cells <= 65 {
                list.call(Call::Fresh(cells))?;
            } else {
                list.brief(Call::Fresh(cells))?;
            }
            list.brief(Call::Audit)?;
            list.brief(Call::Cons(0, 0))?;
        }
    }
    let mut follower = Follower::fresh(6);
    follower.store.scratch = vec![5; 8];
    list.title("freshes with other C in one table")?;
    list.store(&follower.store)?;
    for cells in [6, 2, 6, 1, 7, 5] {
        for call in [
            Call::Fresh(cells),
            Call::Cons(0, 0),
            Call::Cons(1, 0),
            Call::Step,
            Call::Audit,
        ] {
            list.call(call)?;
        }
    }
    Ok(())
}

fn garble_queue(rng: &mut Rng, store: &mut Store) {
    for _ in 0..rng.below(20) {
        let packet = Packet {
            kind: rng.word(),
            a: rng.word(),
            b: rng.word(),
            c: rng.word(),
        };
        store.queue.set_slot(rng.below(64), packet);
    }
    store.queue.place = rng.word();
    store.queue.count = rng.word();
}

/// Any words, or small ones with clipped readings among them.
fn garble(rng: &mut Rng, store: &mut Store) {
    let small = rng.one_in(2);
    for word in &mut store.table {
        *word = match small {
            true if rng.one_in(6) => atoms::clipped(rng),
            true => rng.word() % 4,
            false => rng.word(),
        };
    }
    store.scratch.fill(rng.word());
    garble_queue(rng, store);
}

/// Makes a store pass question 1.
fn put_in_range(store: &mut Store, cells: u16) {
    store.table[CELLS] = cells;
    store.table[FIRST_FREE] %= cells + 1;
    store.table[LAST_FREE] %= cells + 1;
    store.queue.place %= 64;
    store.queue.count %= 65;
}

/// Garbage that passes question 1, with some scratch over.
pub fn garbled(rng: &mut Rng, cells: u16) -> Store {
    let mut store = Store::zeroed(length(cells), cells as usize + rng.below(3));
    garble(rng, &mut store);
    put_in_range(&mut store, cells);
    store
}

/// Garbage throughout, some of it within the range of question 1.
pub fn garbage(rng: &mut Rng, list: &mut List, cases: usize) -> io::Result<()> {
    for _ in 0..cases {
        let cells = rng.within(1, 5);
        let mut store = Store::zeroed(length(cells) + rng.below(2), cells as usize);
        garble(rng, &mut store);
        if !rng.one_in(4) {
            put_in_range(&mut store, cells);
        }
        list.title("garbage")?;
        list.store(&store)?;
        list.call(Call::Audit)?;
        list.brief(nil_read(rng))?;
        list.brief(Call::Cons(atoms::clipped(rng), 0))?;
        for _ in 0..3 {
            list.brief(any_call(rng, cells))?;
        }
        list.store(&store)?;
        list.call(Call::Fresh(cells))?;
        list.brief(Call::Audit)?;
    }
    Ok(())
}
