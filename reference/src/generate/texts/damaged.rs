//! Stores that fail the audit or question 1, with both text calls.

use std::io;

use super::borders::nested;
use super::random;
use crate::call::Call;
use crate::generate::damaged::{mutant, sample};
use crate::generate::edges;
use crate::generate::list::List;
use crate::generate::rng::Rng;
use crate::table::*;
use crate::text_call::TextCall;

fn read(text: &[u8]) -> TextCall {
    TextCall::Read(text.to_vec())
}

fn write(word: u16, length: usize) -> TextCall {
    let fill = 77;
    TextCall::Write { word, length, fill }
}

/// Texts that question 14 refuses on any store.
const CLIPPED: [&[u8]; 5] = [
    b"4095",
    b"(32767)",
    b"(1 . 4095)",
    b"((4096) 2)",
    b"(4095 1)",
];

pub fn damaged(rng: &mut Rng, list: &mut List, cases: usize) -> io::Result<()> {
    question_1(list)?;
    wrong_words(list)?;
    for case in 0..cases {
        let cells = rng.within(1, 9);
        let store = match case % 4 {
            0 => edges::garbled(rng, cells),
            _ => mutant(rng, cells),
        };
        list.title("damaged, with text")?;
        list.store(&store)?;
        list.brief(Call::Audit)?;
        // What is answered as written on any store.
        let outside = random::broken(rng, 2);
        let outside = [&outside[..], b"x"].concat();
        list.text(&read(&outside), true)?;
        if case % 3 == 0 {
            list.text(&read(&nested(33, "")), true)?;
            list.text(&read(&nested(33, ".")), true)?;
        }
        list.text(&read(rng.pick(&CLIPPED)), true)?;
        for word in [cells + 1, rng.within(cells + 1, 32_767)] {
            list.text(&write(word, rng.below(30)), rng.one_in(2))?;
        }
        list.text(&read(b""), false)?;
        // Past that nothing is decided, unless the store is sound after all.
        let depth = 1 + rng.below(3);
        let text = random::text(rng, depth);
        let length = rng.below(60);
        let mut calls = vec![
            read(&text),
            read(b"(1 2 3 4 5 6 7 8 9 10)"),
            read(b"()"),
            read(b"12"),
            write(rng.within(1, cells), length),
            write(rng.within(1, cells), 4_096),
            write(NIL, 5),
            write(u16::MAX, 5),
            read(&nested(32, "1")),
        ];
        for _ in 0..6 {
            let next = rng.below(calls.len());
            list.text(&calls.swap_remove(next), true)?;
        }
        list.brief(Call::Step)?;
        list.text(&calls[0], true)?;
    }
    Ok(())
}

/// Single wrong words in the free chain, where a reading takes its cells, and in
/// the fields, where a writing goes. All of it is undecided.
fn wrong_words(list: &mut List) -> io::Result<()> {
    // In use are cells 1, 2, 5 and 6; the free chain is 7, 8, 3, 4.
    let sample = sample();
    let edits = [
        (FIRST_FREE, 0),
        (FIRST_FREE, 2),
        (LAST_FREE, 0),
        (at(7) + LEFT, 7),
        (at(8) + LEFT, 7),
        (at(7) + LEFT, 2),
        (at(7) + LEFT, 9),
        (at(8) + LEFT, 32_767),
        (at(8) + LEFT, 65_535),
        (at(3) + LEFT, 0),
        (at(7) + STATE, 1),
        (at(8) + STATE, 2),
        (at(2) + STATE, 0),
        (at(5) + LEFT, 9),
        (at(5) + RIGHT, 32_767),
        (at(6) + LEFT, 9),
        (at(6) + LEFT, 4_096),
        (at(6) + RIGHT, 7),
        (at(2) + RIGHT, 9),
        (at(2) + LEFT, 3),
    ];
    for (i, (index, word)) in edits.into_iter().enumerate() {
        let mut store = sample.clone();
        store.table[index] = word;
        list.title(&format!("word {index} is {word}, with text"))?;
        list.store(&store)?;
        list.brief(Call::Audit)?;
        let mut calls = vec![
            read(b"(1 2)"),
            read(b"(1 2 3 4)"),
            read(b"(1 2 3 4 5)"),
            write(2, 40),
            write(6, 200),
            write(5, 4_096),
        ];
        calls.rotate_left(if i < 12 { 0 } else { 3 });
        for call in calls {
            list.text(&call, true)?;
        }
    }
    Ok(())
}

/// Both calls on stores around question 1.
fn question_1(list: &mut List) -> io::Result<()> {
    let sample = sample();
    let mut stores = Vec::new();
    for length in [0, 1, 2, 3, 43, 50, 51, 52] {
        let mut store = sample.clone();
        store.table.resize(length, 12_345);
        stores.push((format!("table of {length} words"), store));
    }
    for (index, word) in [
        (CELLS, 0),
        (CELLS, 9),
        (CELLS, 4_097),
        (CELLS, 65_535),
        (FIRST_FREE, 9),
        (FIRST_FREE, 65_535),
        (LAST_FREE, 9),
        (LAST_FREE, 32_768),
    ] {
        let mut store = sample.clone();
        store.table[index] = word;
        stores.push((format!("word {index} is {word}"), store));
    }
    for (place, count) in [(63, 64), (64, 0), (65_535, 1), (0, 65), (5, 65_535)] {
        let mut store = sample.clone();
        store.queue.place = place;
        store.queue.count = count;
        stores.push((format!("place {place}, count {count}"), store));
    }
    for (title, store) in stores {
        list.title(&title)?;
        list.store(&store)?;
        for call in [
            read(b"x"),
            read(&nested(33, "")),
            read(b"4095"),
            read(b"(1 4095)"),
            write(9, 3),
            write(32_767, 0),
            read(b"(1 2)"),
            read(b"()"),
            read(b"7"),
            write(NIL, 2),
            write(1, 50),
            write(2, 50),
            write(u16::MAX, 1),
        ] {
            list.text(&call, true)?;
        }
    }
    Ok(())
}
