//! Whom the waiting packets name (request A6): each cell's sixth word tells how
//! many times they do, a packet counting once for each place. It is kept where a
//! packet comes into the queue and where it leaves it.

use crate::queue::{Packet, Queue};
use crate::table::*;

/// Adds a packet to a queue that isn't full; the cells it names are named once
/// more for each place.
pub fn push(table: &mut [u16], queue: &mut Queue, packet: Packet) {
    queue.push(packet);
    for word in packet.named() {
        add(table, word, 1);
    }
}

/// Takes the oldest packet, if one waits; its places count no longer.
pub fn take(table: &mut [u16], queue: &mut Queue) -> Option<Packet> {
    let packet = queue.take()?;
    for word in packet.named() {
        add(table, word, -1);
    }
    Some(packet)
}

/// Wrapping, since on a damaged store the word can be anything.
fn add(table: &mut [u16], word: u16, by: i16) {
    if is_cell(word, table[CELLS]) {
        let named = &mut table[at(word) + NAMED];
        *named = named.wrapping_add_signed(by);
    }
}

/// Counts in `times` how often the waiting packets name each cell, cell 1 first.
pub fn count(queue: &Queue, times: &mut [u16]) {
    times.fill(0);
    for packet in queue.waiting() {
        for word in packet.named() {
            // Nil wraps to an index past every cell, as atoms have one.
            if let Some(times) = times.get_mut((word as usize).wrapping_sub(1)) {
                *times += 1;
            }
        }
    }
}
