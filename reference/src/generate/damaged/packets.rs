//! Stores that break rule S3, or nearly do.

use std::io;

use super::{sample, settled, with_packets, Words};
use crate::call::Call;
use crate::generate::follower::Follower;
use crate::generate::list::{word, List};
use crate::generate::recount::recounted;
use crate::queue::{self, Packet, Queue};
use crate::table::*;

pub fn s3(list: &mut List) -> io::Result<()> {
    stray_slots(list)?;
    packet_forms(list)?;
    replays(list)
}

/// Words in slots that are not waiting, and waiting slots that are zero.
fn stray_slots(list: &mut List) -> io::Result<()> {
    let sample = sample();
    list.case("S3: nothing changed", &sample)?;
    let last = (sample.queue.place + sample.queue.count - 1) as usize % Queue::SLOTS;
    for slot in [last + 1, 30, sample.queue.place as usize - 1] {
        let strays = [[1, 0, 0, 0], [0, 1, 0, 0], [0, 0, 65_535, 0], [0, 0, 0, 1]];
        for [kind, a, b, c] in strays {
            let mut store = sample.clone();
            store.queue.set_slot(slot, Packet { kind, a, b, c });
            list.case(&format!("S3: stray word in slot {slot}"), &store)?;
        }
    }
    let counts: [(&str, i32, i32); 6] = [
        ("S3: count one more", 0, 1),
        ("S3: count one less", 0, -1),
        ("S3: count 0 with packets in the slots", 0, -6),
        ("S3: place one on", 1, 0),
        ("S3: place one on, count one less", 1, -1),
        ("S3: place one back, count one more", -1, 1),
    ];
    for (title, place, count) in counts {
        let mut store = sample.clone();
        store.queue.place = (i32::from(store.queue.place) + place) as u16;
        store.queue.count = (i32::from(store.queue.count) + count) as u16;
        // As before A6, and with only the slots wrong.
        list.case(title, &store)?;
        list.case(title, &recounted(store))?;
    }
    let mut empty = settled();
    for (slot, place) in [(63, 0), (0, 63), (0, 0), (63, 63)] {
        empty.queue = Queue::empty();
        empty.queue.place = place;
        list.case(&format!("S3: empty queue at place {place}"), &empty)?;
        empty.queue.c[slot] = 5;
        list.case(
            &format!("S3: stray word in slot {slot}, none waiting"),
            &empty,
        )?;
    }
    let mut full = Follower::fresh(2);
    full.perform(Call::Cons(0, 0));
    for _ in 0..Queue::SLOTS {
        full.perform(Call::Up(1, 1));
    }
    list.case("S3: full queue", &full.store)?;
    full.store.queue.place = 5;
    list.case("S3: full queue from another place", &full.store)?;
    full.store.queue.count = 63;
    list.case("S3: full queue with count 63", &recounted(full.store))
}

/// Single packets on cells 1 to 3 in use, each held twice, and cell 4 free.
fn packet_forms(list: &mut List) -> io::Result<()> {
    let packets: &[Words] = &[
        [0, 1, 0, 0],
        [0, 0, 0, 0],
        [7, 1, 0, 0],
        [65_535, 1, 1, 1],
        // Reads.
        [1, 1, 0, 0],
        [1, 1, 2, 0],
        [1, 1, 32_768, 0],
        [1, 1, 65_535, 0],
        [1, 1, 36_863, 0],
        [1, 36_863, 0, 0],
        [1, 0, 0, 0],
        [1, 32_768, 0, 0],
        [1, 4, 0, 0],
        [1, 5, 0, 0],
        [1, 32_767, 0, 0],
        [1, 65_535, 0, 0],
        [1, 1, 4, 0],
        [1, 1, 5, 0],
        [1, 1, 32_767, 0],
        [1, 1, 0, 1],
        [1, 1, 0, 32_768],
        // Cons.
        [2, 0, 0, 3],
        [2, 0, 0, 0],
        [2, 0, 0, 4],
        [2, 0, 0, 5],
        [2, 0, 0, 32_768],
        [2, 4, 0, 3],
        [2, 0, 4, 3],
        [2, 5, 0, 3],
        [2, 0, 32_767, 3],
        [2, 36_863, 0, 3],
        [2, 0, 0, 36_863],
        // Replaces.
        [3, 0, 0, 1],
        [6, 0, 0, 1],
        [3, 0, 0, 0],
        [6, 0, 0, 4],
        [3, 0, 0, 32_768],
        [6, 0, 0, 5],
        [3, 4, 0, 1],
        [6, 0, 4, 1],
        [3, 32_767, 0, 1],
        [6, 0, 5, 1],
        [3, 0, 36_863, 1],
        [6, 0, 65_535, 1],
        [6, 36_863, 0, 1],
        [3, 0, 0, 36_863],
        // Up and down.
        [4, 1, 1, 0],
        [4, 1, 0, 0],
        [4, 1, 4_093, 0],
        [4, 1, 4_094, 0],
        [4, 1, 4_095, 0],
        [4, 1, 4_096, 0],
        [4, 1, 65_535, 0],
        [4, 0, 1, 0],
        [4, 32_769, 1, 0],
        [4, 36_863, 1, 0],
        [4, 4, 1, 0],
        [4, 5, 1, 0],
        [4, 1, 1, 1],
        [5, 1, 1, 0],
        [5, 1, 2, 0],
        [5, 1, 3, 0],
        [5, 1, 0, 0],
        [5, 1, 4_095, 0],
        [5, 1, 4_096, 0],
        [5, 0, 1, 0],
        [5, 65_535, 1, 0],
        [5, 4, 1, 0],
        [5, 1, 1, 2],
    ];
    for packet in packets {
        let store = with_packets([2, 2, 2], &[*packet]);
        list.case(&format!("S3: packet {packet:?}"), &store)?;
    }
    Ok(())
}

/// Title, root counts of cells 1 to 3, packets.
type Replay<'a> = (&'a str, [u16; 3], &'a [Words]);

/// Where questions 6 and 9 hold or fail in the replay.
fn replays(list: &mut List) -> io::Result<()> {
    let up = |n| [queue::UP, 1, n, 0];
    let down = |n| [queue::DOWN, 1, n, 0];
    let read_2_of_1 = [queue::READ, 1, 2, 0];
    let mut downs = vec![down(1); 64];
    let cases: &[Replay] = &[
        ("downs to 0", [2, 1, 1], &[down(1), down(1)]),
        (
            "a down too many at the last packet",
            [2, 1, 1],
            &[down(1), down(1), down(1)],
        ),
        ("down of an unheld cell", [0, 1, 1], &[down(1)]),
        ("up of an unheld cell", [0, 1, 1], &[up(1)]),
        ("up after the last hold went", [1, 1, 1], &[down(1), up(1)]),
        ("up in time", [1, 1, 1], &[up(1), down(1), down(1)]),
        ("up to 4095", [4_094, 1, 1], &[up(1)]),
        ("up to 4096", [4_095, 1, 1], &[up(1)]),
        (
            "up to 4096 at the last packet",
            [4_090, 1, 1],
            &[up(5), down(1), up(1), up(1)],
        ),
        (
            "up over 4095 and down again",
            [4_095, 1, 1],
            &[up(1), down(1)],
        ),
        ("down and up to 4095", [4_095, 1, 1], &[down(1), up(1)]),
        ("up by 4095 from 1", [1, 1, 1], &[up(4_095)]),
        ("down by 4095 from 4095", [4_095, 1, 1], &[down(4_095)]),
        ("down by 4095 from 4094", [4_094, 1, 1], &[down(4_095)]),
        ("a read raises to 4095", [1, 4_094, 1], &[read_2_of_1]),
        ("a read raises to 4096", [1, 4_095, 1], &[read_2_of_1]),
        (
            "a read raises to 4096 at the last packet",
            [2, 4_094, 1],
            &[read_2_of_1; 2],
        ),
        ("a read without a hold", [0, 1, 1], &[read_2_of_1]),
        (
            "a cell read out of itself at 4095",
            [4_095, 1, 1],
            &[[1, 1, 1, 0]],
        ),
        (
            "a cell read out of itself without a hold",
            [0, 1, 1],
            &[[1, 1, 1, 0]],
        ),
        (
            "a replace without a hold of the cell written",
            [0, 1, 1],
            &[[3, 0, 0, 1]],
        ),
        (
            "a replace without a hold of the word put in",
            [1, 0, 1],
            &[[3, 2, 0, 1]],
        ),
        (
            "a replace right of a cell by itself with one hold",
            [1, 1, 1],
            &[[6, 1, 0, 1]],
        ),
        (
            "cons of an unheld first operand",
            [0, 1, 1],
            &[[2, 1, 2, 3]],
        ),
        (
            "cons of an unheld second operand",
            [1, 0, 1],
            &[[2, 1, 2, 3]],
        ),
        (
            "cons of one cell twice with one hold",
            [1, 1, 1],
            &[[2, 1, 1, 3]],
        ),
    ];
    for &(title, roots, packets) in cases {
        list.case(&format!("S3: {title}"), &with_packets(roots, packets))?;
    }
    list.case("S3: 64 downs", &with_packets([64, 1, 1], &downs))?;
    downs[63] = down(2);
    let title = "S3: 64 downs, the last one too many";
    list.case(title, &with_packets([64, 1, 1], &downs))?;
    // Packets whose fields are as they wrote them, so that only holds matter.
    for root in [1, 2, 3] {
        let mut store = with_packets([root, 1, 1], &[[2, 1, 1, 3]]);
        store.table[word(3, LEFT)] = 1;
        store.table[word(3, RIGHT)] = 1;
        list.case(
            &format!("S3: cons of one cell twice with {root} holds"),
            &store,
        )?;
        let mut store = with_packets([root, 1, 1], &[[3, 1, 0, 1]]);
        store.table[word(1, LEFT)] = 1;
        list.case(
            &format!("S3: a cell put into itself with {root} holds"),
            &store,
        )?;
    }
    // The cell that a cons made needs no hold of its own.
    let unheld_new = with_packets([1, 1, 0], &[[2, 0, 0, 3]]);
    list.case("S3: cons of a cell that isn't held", &unheld_new)?;
    let before = with_packets([1, 1, 1], &[[5, 3, 1, 0], [2, 0, 0, 3]]);
    list.case("S3: a new cell given up before its cons", &before)
}
