//! Lists of damaged stores: a sound store with one thing changed, for each
//! rule of the audit, with the borders where it just holds.

mod cells;
mod free_chain;
mod mutants;
mod packets;
mod pointers;
mod reached;

pub use cells::s1;
pub use free_chain::s2;
pub use mutants::{mutant, mutants, wrecks};
pub use packets::s3;
pub use pointers::s4;
pub use reached::s5;

use super::atoms::{self, FIRST_CLIPPED};
use super::follower::Follower;
use super::list::word;
use super::recount::recounted;
use crate::call::Call;
use crate::queue::{Packet, Queue};
use crate::store::Store;
use crate::table::*;

/// An index in the table and the word to write there.
type Edit = (usize, u16);

/// Kind, a, b, c.
type Words = [u16; 4];

/// A sound store of eight cells. Cells 1, 2, 5 and 6 are in use, 2 in a ring
/// with itself; the free chain is 7, 8, 3, 4; packets of every kind wait, from
/// slot 60 over the end to slot 1. Cell 5 contains a clipped reading.
pub fn sample() -> Store {
    let mut follower = Follower::fresh(8);
    follower.store.scratch = vec![9, 8, 7, 6, 5, 4, 3, 2, 1];
    for call in [
        Call::Cons(0, 32_775),
        Call::Cons(1, 0),
        Call::Cons(0, 0),
        Call::Cons(0, 0),
        Call::Cons(0, 32_768),
        Call::Cons(0, 0),
        Call::Cons(0, 0),
        Call::Cons(0, 0),
        Call::Up(2, 4),
        Call::Up(5, 1),
        Call::ReplaceRight(2, 2),
    ] {
        follower.perform(call);
    }
    // Given up one after another, each becomes the first of the chain (A8): in the
    // end it is 6, 7, 8, 3, 4, and the cons below takes 6.
    for x in [4, 3, 8, 7, 6] {
        follower.perform(Call::Down(x, 1));
    }
    follower.drain();
    while follower.store.queue.place != 60 {
        follower.perform(Call::Up(2, 1));
        follower.perform(Call::Down(2, 1));
        follower.perform(Call::Step);
        if follower.store.queue.place != 60 {
            follower.perform(Call::Step);
        }
    }
    for call in [
        Call::Car(2),
        Call::Cons(1, 5),
        Call::ReplaceLeft(6, 2),
        Call::Up(6, 3),
        Call::Down(6, 1),
        Call::ReplaceRight(6, 0),
    ] {
        follower.perform(call);
    }
    atoms::rename(&mut follower.store, 32_768, FIRST_CLIPPED);
    follower.store
}

/// A sound store of six cells without waiting packets: 1 holds 2 and 3, 2 and
/// 3 are a ring, 4 holds itself and a clipped reading; 1 and 4 are held once, 5
/// and 6 are free.
fn settled() -> Store {
    let mut follower = Follower::fresh(6);
    for call in [
        Call::Cons(0, 0),
        Call::Cons(0, 0),
        Call::Cons(0, 0),
        Call::Cons(0, 32_769),
        Call::Up(2, 1),
        Call::Up(3, 2),
        Call::ReplaceLeft(2, 3),
        Call::ReplaceLeft(3, 2),
        Call::ReplaceLeft(1, 2),
        Call::ReplaceRight(1, 3),
        Call::Down(3, 1),
        Call::Up(4, 1),
        Call::ReplaceLeft(4, 4),
    ] {
        follower.perform(call);
    }
    follower.drain();
    atoms::rename(&mut follower.store, 32_769, u16::MAX);
    follower.store
}

/// A store without free cells: two cells, both held.
fn crowded() -> Store {
    let mut follower = Follower::fresh(2);
    follower.perform(Call::Cons(0, 0));
    follower.perform(Call::Cons(0, 0));
    follower.drain();
    follower.store
}

/// A settled store of three held cells that contain nothing, with packets put
/// into the queue as given and named in the cells in use.
fn with_packets(roots: [u16; 3], packets: &[Words]) -> Store {
    let mut follower = Follower::fresh(4);
    for _ in 0..3 {
        follower.perform(Call::Cons(0, 0));
    }
    follower.drain();
    let mut store = follower.store;
    store.queue = Queue::empty();
    for (x, root) in (1..).zip(roots) {
        store.table[word(x, ROOT_COUNT)] = root;
    }
    for &[kind, a, b, c] in packets {
        store.queue.push(Packet { kind, a, b, c });
    }
    recounted(store)
}

fn edited(store: &Store, edits: &[Edit]) -> Store {
    let mut store = store.clone();
    for &(index, word) in edits {
        store.table[index] = word;
    }
    store
}
