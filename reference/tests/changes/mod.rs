//! A packet's count changes as the collector makes them, one by one.

use reference::collector::{self, Change};
use reference::queue::Packet;
use reference::store::Store;
use reference::table::{at, is_cell, CELLS};

pub fn of(packet: Packet) -> Vec<Change> {
    let mut list = Vec::new();
    collector::changes(packet, |change| list.push(change));
    list
}

/// The packet that the next step takes.
pub fn oldest(store: &Store) -> Packet {
    store.queue.waiting().next().unwrap()
}

/// Makes one change and gives the count's new value, which is never below 0;
/// none for nil and atoms.
pub fn make(table: &mut [u16], change: Change) -> Option<u16> {
    if !is_cell(change.word, table[CELLS]) {
        return None;
    }
    let count = &mut table[at(change.word) + change.count];
    *count = u16::try_from(i32::from(*count) + change.by).expect("a count below 0");
    Some(*count)
}
