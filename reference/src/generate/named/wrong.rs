//! Stores whose sixth words are wrong, tables around the length that they need, and
//! freshes over any words.

use std::io;

use super::{all_calls, answered, base, Waiting};
use crate::call::Call;
use crate::generate::damaged::sample;
use crate::generate::list::{word, List};
use crate::generate::rng::Rng;
use crate::queue::{self, Packet};
use crate::store::Store;
use crate::table::*;

/// An audit, what is answered on any store, then all calls; `first` of them first.
fn case(list: &mut List, title: &str, store: &Store, first: usize) -> io::Result<()> {
    list.title(title)?;
    list.store(store)?;
    list.brief(Call::Audit)?;
    answered(list)?;
    all_calls(list, first)
}

pub fn wrong(list: &mut List) -> io::Result<()> {
    let mut first = 0;
    for cells in [1, 2, 3, 8, 65, 300] {
        let queues: &[Waiting] = if cells > 8 {
            &[Waiting::Some]
        } else {
            &[Waiting::None, Waiting::Some, Waiting::Full]
        };
        for waiting in queues {
            let store = base(cells, *waiting);
            let queue = waiting.title();
            case(list, &format!("{cells} cells, {queue}"), &store, first)?;
            for x in victims(cells) {
                let right = store.table[word(x, NAMED)];
                for value in values(right, cells == 8) {
                    let mut store = store.clone();
                    store.table[word(x, NAMED)] = value;
                    let title = format!("{cells} cells, {queue}: {value} for {right} in cell {x}");
                    case(list, &title, &store, first)?;
                    first += 1;
                }
            }
        }
    }
    cancelling(list)?;
    of_the_sample(list)?;
    named_by_damage(list)
}

/// A cell that packets may name, one that they don't, free cells.
fn victims(cells: u16) -> Vec<u16> {
    let mut victims = vec![1, 2, 3];
    victims.retain(|&x| x < cells);
    victims.push(cells);
    victims
}

/// One too many and one too few, and what else a word may be.
fn values(right: u16, all: bool) -> Vec<u16> {
    let mut values = vec![right.wrapping_add(1), right.wrapping_sub(1)];
    if all {
        values.extend([0, 4_095, 4_096, 65_535]);
    }
    values.sort();
    values.dedup();
    values.retain(|&value| value != right);
    values
}

/// Two words wrong, so that their sum is right: in cells in use, in free ones, and
/// in both.
fn cancelling(list: &mut List) -> io::Result<()> {
    let sample = sample();
    // In use are cells 1, 2, 5 and 6; the free chain is 7, 8, 3, 4.
    for (from, to) in [
        (1, 2),
        (2, 1),
        (6, 5),
        (2, 6),
        (5, 7),
        (6, 4),
        (3, 8),
        (8, 1),
    ] {
        let mut store = sample.clone();
        let lowered = &mut store.table[word(from, NAMED)];
        *lowered = lowered.wrapping_sub(1);
        store.table[word(to, NAMED)] += 1;
        let title = format!("one from the sixth word of cell {from} to that of cell {to}");
        case(list, &title, &store, from as usize)?;
    }
    for (x, y) in [(1, 2), (2, 6), (5, 6), (6, 7)] {
        let mut store = sample.clone();
        store.table.swap(word(x, NAMED), word(y, NAMED));
        let title = format!("sixth words of cells {x} and {y} in each other's place");
        case(list, &title, &store, x as usize)?;
    }
    Ok(())
}

/// The sample's words one by one: as if a packet counted once for each cell, or
/// only in its first word, as if the oldest or the newest packet didn't count, and
/// as if the numbers of ups and downs were cells.
fn of_the_sample(list: &mut List) -> io::Result<()> {
    let sample = sample();
    let packets: Vec<Packet> = sample.queue.waiting().collect();
    let distinct = |packet: Packet| {
        let mut words = packet.named().to_vec();
        words.sort();
        words.dedup();
        words
    };
    type Naming<'a> = (&'a str, Box<dyn Fn(usize, Packet) -> Vec<u16>>);
    let last = packets.len() - 1;
    let namings: [Naming; 7] = [
        (
            "each packet once for a cell",
            Box::new(move |_, p| distinct(p)),
        ),
        ("only a", Box::new(|_, p| vec![p.a])),
        ("only a and b", Box::new(|_, p| p.named()[..2].to_vec())),
        ("all words", Box::new(|_, p| vec![p.a, p.b, p.c])),
        (
            "without the oldest packet",
            Box::new(|i, p| if i == 0 { vec![] } else { p.named().to_vec() }),
        ),
        (
            "without the newest packet",
            Box::new(move |i, p| {
                if i == last {
                    vec![]
                } else {
                    p.named().to_vec()
                }
            }),
        ),
        ("without any packet", Box::new(|_, _| vec![])),
    ];
    for (title, naming) in namings {
        let mut store = sample.clone();
        for x in 1..=store.table[CELLS] {
            store.table[word(x, NAMED)] = 0;
        }
        for (i, &packet) in packets.iter().enumerate() {
            for x in naming(i, packet) {
                if is_cell(x, store.table[CELLS]) {
                    store.table[word(x, NAMED)] += 1;
                }
            }
        }
        case(list, &format!("sixth words: {title}"), &store, 0)?;
    }
    Ok(())
}

/// Packets that name free cells, with the word at 0 and at what the queue gives; and
/// the sixth word wrong beside what breaks another rule.
fn named_by_damage(list: &mut List) -> io::Result<()> {
    for [kind, a, b, c] in [
        [queue::READ, 1, 7, 0],
        [queue::CONS, 7, 0, 2],
        [queue::REPLACE_LEFT, 0, 0, 7],
        [queue::UP, 7, 1, 0],
    ] {
        for named in [0, 1] {
            let mut store = base(8, Waiting::Some);
            store.queue.push(Packet { kind, a, b, c });
            for x in [a, b, c] {
                if is_cell(x, 6) && kind != queue::UP {
                    store.table[word(x, NAMED)] += 1;
                }
            }
            store.table[word(7, NAMED)] = named;
            let title = format!("packet of kind {kind} names a free cell, whose word is {named}");
            case(list, &title, &store, 0)?;
        }
    }
    for (title, index, value) in [
        ("S1", word(2, STATE), 2),
        ("S1", word(2, ROOT_COUNT), 4_096),
        ("S2", LAST_FREE, 0),
        ("S2", word(8, RIGHT), 1),
        ("S4", word(2, CELL_COUNT), 1),
        ("S5", word(2, ROOT_COUNT), 0),
    ] {
        for x in [2, 8] {
            let mut store = base(8, Waiting::Some);
            store.table[index] = value;
            store.table[word(x, NAMED)] = 1;
            let title = format!("{title} broken, and the sixth word of cell {x} is 1");
            case(list, &title, &store, 1)?;
        }
    }
    Ok(())
}

/// Tables one word short, just long enough, with words past the cells, and as long as
/// was enough with five words a cell.
pub fn lengths(rng: &mut Rng, list: &mut List) -> io::Result<()> {
    for cells in [1, 2, 3, 8, 64] {
        let enough = length(cells);
        let before = HEADER_WORDS + 5 * cells as usize;
        for length in [before, enough - 1, enough, enough + 1, enough + 6] {
            let mut store = base(cells, Waiting::Some);
            store.table.resize_with(length, || rng.word());
            store.scratch = vec![rng.word(); cells as usize];
            let title = format!("{cells} cells in a table of {length} words");
            case(list, &title, &store, 2)?;
            list.store(&store)?;
            for call in [Call::Fresh(cells), Call::Audit, Call::Cons(NIL, NIL)] {
                list.brief(call)?;
            }
            // The one that fits in any case.
            for call in [
                Call::Fresh(cells.div_ceil(2)),
                Call::Cons(NIL, NIL),
                Call::Audit,
            ] {
                list.call(call)?;
            }
        }
    }
    for length in [
        3 + 5 * 4_096,
        length(4_096) - 1,
        length(4_096),
        length(4_096) + 11,
    ] {
        let mut store = Store::zeroed(length, 4_096);
        store.table.fill(rng.word());
        store.scratch.fill(rng.word());
        list.title(&format!("4096 cells in a table of {length} words"))?;
        list.store(&store)?;
        for call in [
            Call::Fresh(4_096),
            Call::Audit,
            Call::Cons(NIL, NIL),
            Call::Up(1, 3),
            Call::Cons(1, 1),
            Call::ReplaceLeft(1, 1),
            Call::Audit,
            Call::Step,
            Call::Step,
            Call::Step,
            Call::Step,
            Call::Audit,
            Call::Fresh(3_413),
            Call::Audit,
        ] {
            list.brief(call)?;
        }
    }
    Ok(())
}

/// Freshes over tables whose sixth words are any, and over stores with packets.
pub fn freshes(rng: &mut Rng, list: &mut List) -> io::Result<()> {
    for (cells, fill) in [
        (1, 1),
        (2, 65_535),
        (3, 4_096),
        (5, 2),
        (64, 7),
        (4_096, 65_535),
    ] {
        let mut store = Store::zeroed(length(cells) + 3, cells as usize + 1);
        store.table.fill(fill);
        store.queue.count = 64;
        list.title(&format!("fresh {cells} over words {fill}"))?;
        list.store(&store)?;
        fresh_and_go_on(list, cells, cells > 5)?;
    }
    for cells in [3, 8] {
        let mut store = base(cells, Waiting::Full);
        for x in 1..=cells {
            store.table[word(x, NAMED)] = rng.word();
        }
        list.title(&format!("fresh {cells} over garbage in the sixth words"))?;
        list.store(&store)?;
        fresh_and_go_on(list, cells, false)?;
        // Smaller and larger again, over what waiting packets name.
        list.title(&format!("fresh {} over {cells} cells and back", cells - 1))?;
        list.store(&base(cells, Waiting::Some))?;
        fresh_and_go_on(list, cells - 1, false)?;
        fresh_and_go_on(list, cells, false)?;
    }
    Ok(())
}

fn fresh_and_go_on(list: &mut List, cells: u16, brief: bool) -> io::Result<()> {
    for call in [
        Call::Fresh(cells),
        Call::Audit,
        Call::Cons(NIL, NIL),
        Call::Up(1, 1),
        Call::Cons(1, 1),
        Call::ReplaceRight(1, NIL),
        Call::Audit,
        Call::Step,
        Call::Step,
        Call::Step,
        Call::Audit,
    ] {
        if brief {
            list.brief(call)?;
        } else {
            list.call(call)?;
        }
    }
    Ok(())
}
