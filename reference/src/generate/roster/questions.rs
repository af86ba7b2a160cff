//! What is asked before what, and stores that fail question 1.

use std::io;

use super::{plain_scratch, Calls};
use crate::generate::edges;
use crate::generate::rng::Rng;
use crate::queue::{Packet, Queue};
use crate::roster::Call;
use crate::store::Store;
use crate::table::*;

/// Each seat call with each sort of seat and each sort of reading, and counts: what
/// is refused by 15, 4 and 14 alone and together, and what isn't.
fn mixed_calls() -> Vec<Call> {
    let mut calls = Vec::new();
    for seat in [0, 601, 7, 9] {
        for reading in [65_535, 32_768, 32_767, 4_095, 4_094] {
            calls.push(Call::Set { seat, reading });
        }
        calls.push(Call::LookUp(seat));
        calls.push(Call::Remove(seat));
    }
    for threshold in [0, 601, 65_535] {
        calls.push(Call::Count(threshold));
    }
    calls
}

/// The calls that change nothing of a roster with seat 7 in it and no room.
fn quiet(call: &Call) -> bool {
    !matches!(call, Call::Remove(7))
}

/// All of these on a roster with a cell pair left and on one without, with scratch
/// enough and too little, and on stores that pass question 1 and fail it. Seat 7 is
/// there, seat 9 isn't.
pub fn questions(calls: &mut Calls) -> io::Result<()> {
    for cells in [2, 3, 4, 5] {
        for scratch in [cells as usize, cells as usize - 1, 0] {
            let title = format!("what is asked first, {cells} cells, scratch of {scratch}");
            calls.empty_roster(&title, cells)?;
            calls.set(7, 70)?;
            calls.scratch(&vec![8; scratch])?;
            for call in mixed_calls().into_iter().filter(quiet) {
                calls.call(call)?;
            }
            calls.remove(7)?;
            calls.look_up(7)?;
        }
    }
    calls.empty_roster("what is asked first, one cell", 1)?;
    for scratch in [0, 1] {
        calls.scratch(&vec![8; scratch])?;
        for call in mixed_calls() {
            calls.call(call)?;
        }
    }
    for (title, cells, scratch) in [
        ("C is 0, scratch enough", 0, 4),
        ("C is 0, no scratch", 0, 0),
        ("C is 5, scratch enough", 5, 5),
        ("C is 5, no scratch", 5, 0),
    ] {
        calls.title(&format!("fails question 1: {title}"))?;
        let mut store = Store::zeroed(length(4), scratch);
        store.table[CELLS] = cells;
        calls.store(&store)?;
        for call in mixed_calls() {
            calls.call(call)?;
        }
        calls.fresh(4)?;
        calls.count(0)?;
    }
    // Fresh is asked 3 before 1, and neither 15 nor 2.
    calls.title("fresh: the number, then the length")?;
    calls.store(&Store::zeroed(length(2) - 1, 0))?;
    for cells in [0, 1, 2, 3, 4_096, 4_097, 32_768, 65_535] {
        calls.fresh(cells)?;
    }
    calls.look_up(0)?;
    calls.look_up(1)?;
    // Passes question 1 and is no roster: 15, 2, 4 and 14 are answered, then no more.
    for scratch in [2, 1] {
        calls.title(&format!("no roster, scratch of {scratch}"))?;
        let mut store = Store::zeroed(length(2), scratch);
        store.table[CELLS] = 2;
        calls.store(&store)?;
        let (decided, rest): (Vec<Call>, Vec<Call>) = mixed_calls()
            .into_iter()
            .partition(|&call| calls.runner.decides(call));
        for call in decided.into_iter().chain(rest) {
            calls.call(call)?;
        }
    }
    Ok(())
}

/// Some of each call, on a store that may fail question 1; those that it may pass
/// stand last.
fn every_call(calls: &mut Calls, rng: &mut Rng, title: &str, store: &Store) -> io::Result<()> {
    calls.title(title)?;
    calls.store(store)?;
    let (seat, reading) = (rng.within(1, 600), rng.within(0, 4_094));
    calls.look_up(rng.pick(&[0, 601, 65_535]))?;
    calls.set(0, reading)?;
    calls.set(seat, rng.pick(&[32_768, 65_535]))?;
    calls.set(seat, rng.pick(&[4_095, 32_767]))?;
    calls.set(seat, reading)?;
    calls.look_up(seat)?;
    calls.remove(seat)?;
    calls.count(rng.word())
}

/// Everything that question 1 looks at, in and out of range; given with the store,
/// and altered in a roster.
pub fn question_1(rng: &mut Rng, calls: &mut Calls) -> io::Result<()> {
    // Enough for one, two and four cells are 9, 15 and 27 words.
    for words in [0, 1, 2, 3, 4, 8, 9, 10, 14, 15, 26, 27, 28] {
        let mut store = Store::zeroed(words, 4);
        if let Some(first) = store.table.first_mut() {
            *first = 4;
        }
        every_call(calls, rng, &format!("table of {words} words"), &store)?;
    }
    let sample = edges::garbled(rng, 4);
    for cells in [0, 1, 3, 5, 4_096, 4_097, 32_768, 65_535] {
        let mut store = sample.clone();
        store.table[CELLS] = cells;
        every_call(calls, rng, &format!("C is {cells}"), &store)?;
    }
    for index in [FIRST_FREE, LAST_FREE] {
        for end in [0, 4, 5, 32_768, 65_535] {
            let mut store = sample.clone();
            store.table[index] = end;
            every_call(calls, rng, &format!("free end {index} is {end}"), &store)?;
        }
    }
    for (place, count) in [(63, 64), (64, 0), (65_535, 0), (0, 65), (0, 65_535)] {
        let mut store = sample.clone();
        (store.queue.place, store.queue.count) = (place, count);
        let title = format!("place is {place}, count is {count}");
        every_call(calls, rng, &title, &store)?;
    }
    for (cells, words) in [(4_096, 24_578), (4_096, 24_579), (4_097, 24_590)] {
        let mut store = Store::zeroed(words, 4_096);
        store.table[CELLS] = cells;
        let title = format!("C is {cells} in a table of {words} words");
        every_call(calls, rng, &title, &store)?;
    }
    lower_c(calls)?;
    in_a_roster(rng, calls)
}

/// An empty roster whose C is made lower, then also its last free cell: questions 1
/// and 2 go by what stands there.
fn lower_c(calls: &mut Calls) -> io::Result<()> {
    calls.empty_roster("C becomes lower, then the last free cell", 6)?;
    for (index, word) in [(CELLS, 4), (LAST_FREE, 5), (LAST_FREE, 4)] {
        calls.word(index, word)?;
        for scratch in [3, 4] {
            calls.scratch(&vec![2; scratch])?;
            calls.set(1, 65_535)?;
            calls.set(600, 4_095)?;
            calls.set(601, 4_095)?;
        }
    }
    calls.scratch(&[2; 3])?;
    calls.look_up(1)?;
    calls.count(0)?;
    calls.scratch(&[2; 4])?;
    calls.look_up(1)
}

/// A roster with two seats of which one word of the header or the queue is put out
/// of range, and put back.
fn in_a_roster(rng: &mut Rng, calls: &mut Calls) -> io::Result<()> {
    let roster = |calls: &mut Calls, title: &str| {
        calls.empty_roster(title, 6)?;
        calls.set(5, 50)?;
        calls.set(600, 60)
    };
    let refused = |calls: &mut Calls| {
        calls.look_up(5)?;
        calls.look_up(601)?;
        calls.set(5, 65_535)?;
        calls.set(8, 4_095)?;
        calls.set(8, 1)?;
        calls.remove(600)?;
        calls.count(0)
    };
    for (index, word) in [
        (CELLS, 0),
        (CELLS, 7),
        (CELLS, 4_097),
        (CELLS, 65_535),
        (FIRST_FREE, 7),
        (FIRST_FREE, 65_535),
        (LAST_FREE, 7),
        (LAST_FREE, 32_768),
    ] {
        let title = format!("word {index} of a roster's table becomes {word}");
        roster(calls, &title)?;
        calls.word(index, word)?;
        refused(calls)?;
        // In range again it passes question 1, but a roster it is no more.
        calls.word(index, if index == CELLS { 6 } else { 0 })?;
        calls.scratch(&plain_scratch(rng, 5))?;
        refused(calls)?;
        calls.scratch(&plain_scratch(rng, 7))?;
        calls.set(8, 4_095)?;
        calls.fresh(6)?;
        refused(calls)?;
    }
    for (place, count) in [(64, 0), (0, 65), (63, 65_535)] {
        let title = format!("a roster's queue gets place {place} and count {count}");
        roster(calls, &title)?;
        let mut queue = Queue::empty();
        (queue.place, queue.count) = (place, count);
        queue.set_slot(
            3,
            Packet {
                kind: 5,
                a: 1,
                b: 1,
                c: 0,
            },
        );
        calls.queue(&queue)?;
        refused(calls)?;
        calls.fresh(2)?;
        refused(calls)?;
    }
    Ok(())
}
