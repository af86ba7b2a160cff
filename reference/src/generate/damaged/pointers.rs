//! Stores that break rule S4, or nearly do.

use std::io;

use super::{edited, sample, with_packets, Edit, Words};
use crate::call::Call;
use crate::generate::list::{word, List};
use crate::generate::recount::recounted;
use crate::queue::{Packet, Queue};
use crate::row;
use crate::store::Store;
use crate::table::*;

pub fn s4(list: &mut List) -> io::Result<()> {
    let sample = sample();
    list.case("S4: nothing changed", &sample)?;
    let cases: &[(&str, usize, u16)] = &[
        (
            "S4: replaced right holds another word",
            word(6, RIGHT),
            32_768,
        ),
        ("S4: replaced left holds nil", word(6, LEFT), 0),
        ("S4: replaced left holds another cell", word(6, LEFT), 1),
        ("S4: cell count one more", word(1, CELL_COUNT), 2),
        ("S4: cell count one less", word(1, CELL_COUNT), 0),
        (
            "S4: cell count 1 for a cell without pointers",
            word(5, CELL_COUNT),
            1,
        ),
        ("S4: cell count 1 in the new cell", word(6, CELL_COUNT), 1),
        ("S4: cell count 4095", word(2, CELL_COUNT), 4_095),
        ("S4: a pointer more", word(5, LEFT), 2),
        ("S4: a pointer less", word(2, RIGHT), 0),
        ("S4: an atom for another", word(5, LEFT), 50_000),
    ];
    for &(title, index, value) in cases {
        list.case(title, &edited(&sample, &[(index, value)]))?;
    }
    for i in 0..sample.queue.count as usize {
        let slot = (sample.queue.place as usize + i) % Queue::SLOTS;
        let packet = sample.queue.slot(slot);
        for other in [
            Packet {
                a: 32_768,
                ..packet
            },
            Packet {
                b: 32_768,
                ..packet
            },
            Packet { c: 5, ..packet },
            Packet {
                kind: [1, 1, 2, 6, 4, 5, 3][packet.kind as usize],
                ..packet
            },
        ] {
            let mut store = sample.clone();
            store.queue.set_slot(slot, other);
            let store = recounted(store);
            list.case(&format!("S4: packet {i} is {other:?}"), &store)?;
        }
    }
    undo_order(list)?;
    clipped(list)?;
    many_pointers(list)
}

/// Several packets on one field or cell.
fn undo_order(list: &mut List) -> io::Result<()> {
    // Cell 1's left went 0, 2, 3, atom; the counts are those before.
    let replaces = [[3, 2, 0, 1], [3, 3, 2, 1], [3, 32_770, 3, 1]];
    let good = edited(
        &with_packets([1, 1, 1], &replaces),
        &[(word(1, LEFT), 32_770)],
    );
    list.case("S4: three replaces of one field", &good)?;
    for (i, b) in [(0, 32_770), (1, 0), (2, 2)] {
        let mut store = good.clone();
        store.queue.b[i] = b;
        let store = recounted(store);
        list.case(&format!("S4: replace {i} detached another word"), &store)?;
    }
    for i in 0..3 {
        let mut store = good.clone();
        store.queue.kinds[i] = 6;
        list.case(&format!("S4: replace {i} was of the other field"), &store)?;
        let mut store = good.clone();
        store.queue.a[i] = 0;
        let store = recounted(store);
        list.case(&format!("S4: replace {i} put in another word"), &store)?;
    }
    let swapped = [replaces[1], replaces[0], replaces[2]];
    let store = edited(
        &with_packets([1, 2, 2], &swapped),
        &[(word(1, LEFT), 32_770)],
    );
    list.case("S4: two replaces in the wrong order", &store)?;
    // Cell 3 was made of 1 and 2, then its right was replaced.
    let packets = [[2, 1, 2, 3], [6, 0, 2, 3]];
    let good = edited(&with_packets([2, 2, 1], &packets), &[(word(3, LEFT), 1)]);
    list.case("S4: a new cell replaced in", &good)?;
    let mut store = good.clone();
    store.queue.b[1] = 0;
    list.case(
        "S4: undo fails only at the first packet, by its right",
        &recounted(store),
    )?;
    let mut store = good.clone();
    store.queue.a[0] = 0;
    list.case(
        "S4: undo fails only at the first packet, by its left",
        &recounted(store),
    )?;
    let mut store = good.clone();
    store.queue.c[0] = 2;
    let store = recounted(store);
    list.case("S4: the first packet made another cell", &store)?;
    let store = edited(&good, &[(word(2, CELL_COUNT), 1)]);
    list.case("S4: the count after a packet that is still waiting", &store)?;
    // A cons that was undone leaves nil, so an older one must have put in nil.
    let twice = [[2, 0, 0, 3], [2, 1, 2, 3]];
    let store = with_packets([2, 2, 1], &twice);
    let store = edited(&store, &[(word(3, LEFT), 1), (word(3, RIGHT), 2)]);
    list.case("S4: one cell made twice, first of nil", &store)?;
    let mut store = store;
    store.queue.a[0] = 1;
    let store = recounted(store);
    list.case("S4: one cell made twice, first of a cell", &store)?;
    // 64 replaces of one field, the oldest of them wrong.
    let mut packets: Vec<Words> = (0..64)
        .map(|i| [3, 32_768 + i + 1, 32_768 + i, 1])
        .collect();
    packets[0][2] = 0;
    let good = edited(
        &with_packets([1, 1, 1], &packets),
        &[(word(1, LEFT), 32_832)],
    );
    list.case("S4: 64 replaces of one field", &good)?;
    let mut store = good.clone();
    store.queue.b[1] = 0;
    let store = recounted(store);
    list.case("S4: 64 replaces, the one undone last fails", &store)?;
    let mut store = good;
    store.queue.b[0] = 1;
    let store = recounted(store);
    list.case("S4: 64 replaces, the count fails at the end", &store)
}

/// Clipped readings put in and taken out before A5, by packets that still wait.
fn clipped(list: &mut List) -> io::Result<()> {
    let packets = [
        [2, 36_863, 65_535, 3],
        [3, 36_863, 0, 1],
        [3, 36_864, 36_863, 1],
        [6, 65_535, 0, 2],
        [6, 0, 65_535, 2],
        [1, 3, 36_863, 0],
    ];
    let fields = [
        (word(3, LEFT), 36_863),
        (word(3, RIGHT), 65_535),
        (word(1, LEFT), 36_864),
    ];
    let good = edited(&with_packets([1, 1, 1], &packets), &fields);
    list.case("S4: clipped readings put in and taken out", &good)?;
    for (index, value) in [
        (word(3, LEFT), 36_862),
        (word(3, RIGHT), 36_863),
        (word(1, LEFT), 36_863),
        (word(2, RIGHT), 65_535),
    ] {
        let title = format!("S4: atom {} for another", value - FIRST_ATOM);
        list.case(&title, &edited(&good, &[(index, value)]))?;
    }
    Ok(())
}

/// Cells 2 to 2,049 hold cell 1 twice each, or as told; the cell count is as
/// given. Audited with checksums only, as the table is long.
fn many_pointers(list: &mut List) -> io::Result<()> {
    let build = |cell_count: u16, edits: &[Edit], packets: &[Words]| {
        let mut store = Store::zeroed(length(2_100), 2_100);
        let mut queue = Queue::empty();
        row::fresh(&mut store.table, &mut queue, 2_100).expect("the table is long enough");
        for x in 1..=2_049 {
            let fields = if x == 1 { [0, 0] } else { [1, 1] };
            let cell = [fields[0], fields[1], 1, 0, IN_USE, 0];
            store.table[at(x)..at(x) + CELL_WORDS].copy_from_slice(&cell);
        }
        store.table[FIRST_FREE] = 2_050;
        store.table[word(1, CELL_COUNT)] = cell_count;
        store.table[word(1, ROOT_COUNT)] = 4_000;
        for &[kind, a, b, c] in packets {
            store.queue.push(Packet { kind, a, b, c });
        }
        recounted(edited(&store, edits))
    };
    let one_less = [(word(2, LEFT), 0)];
    let two_less = [(word(2, LEFT), 0), (word(2, RIGHT), 0)];
    let cases: &[(&str, Store)] = &[
        ("4095 pointers", build(4_095, &one_less, &[])),
        // The newest packet put in the 4,096th.
        (
            "4096 pointers, 4095 once undone",
            build(4_095, &[], &[[3, 1, 0, 2]]),
        ),
        (
            "4094 pointers, 4095 once undone",
            build(4_095, &two_less, &[[3, 0, 1, 2]]),
        ),
        (
            "4096 pointers only in the middle of the undoing",
            build(4_095, &one_less, &[[6, 1, 0, 2], [3, 0, 1, 2]]),
        ),
        (
            "4095 pointers throughout, out and in",
            build(4_095, &one_less, &[[6, 0, 1, 2], [6, 1, 0, 2]]),
        ),
        (
            "4095 pointers, one put in where it stood",
            build(4_095, &one_less, &[[6, 1, 1, 2]]),
        ),
    ];
    for (title, store) in cases {
        list.title(&format!("S4: {title}"))?;
        list.store(store)?;
        for call in [
            Call::Audit,
            Call::Cons(0, 32_767),
            Call::Car(0),
            Call::Cons(1, 1),
            Call::Cons(1, 0),
            Call::Cons(0, 1),
            Call::ReplaceRight(2, 1),
            Call::ReplaceLeft(2, 1),
            Call::ReplaceLeft(1, 1),
            Call::Step,
            Call::Audit,
        ] {
            list.brief(call)?;
        }
    }
    Ok(())
}
