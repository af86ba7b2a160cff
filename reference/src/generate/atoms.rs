//! Atoms for calls, and stores that contain clipped readings (A5): no list of
//! calls from fresh makes one, but the papers say what it is.

use std::collections::BTreeSet;

use super::rng::Rng;
use crate::store::Store;
use crate::table::*;

/// The last atom that may be stored and the first that may not.
pub const LAST_STORED: u16 = FIRST_CLIPPED - 1;
pub const FIRST_CLIPPED: u16 = FIRST_ATOM + CLIP;

/// Values on both sides of the limit and at both ends.
pub const BORDER_VALUES: [u16; 5] = [0, CLIP - 1, CLIP, CLIP + 1, u16::MAX - FIRST_ATOM];

/// An atom that may be stored.
pub fn storable(rng: &mut Rng) -> u16 {
    match rng.below(6) {
        0 => rng.pick(&[FIRST_ATOM, LAST_STORED - 1, LAST_STORED]),
        _ => rng.within(FIRST_ATOM, LAST_STORED),
    }
}

/// A clipped reading.
pub fn clipped(rng: &mut Rng) -> u16 {
    match rng.below(4) {
        0 => FIRST_CLIPPED,
        1 => rng.pick(&[FIRST_CLIPPED + 1, u16::MAX]),
        _ => rng.within(FIRST_CLIPPED, u16::MAX),
    }
}

/// An atom that may be stored, but for one in 24.
pub fn lively(rng: &mut Rng) -> u16 {
    if rng.one_in(24) {
        clipped(rng)
    } else {
        storable(rng)
    }
}

/// The atoms in the fields and packets of a sound store.
pub fn atoms_of(store: &Store) -> BTreeSet<u16> {
    let Store { table, queue, .. } = store;
    let fields = &table[HEADER_WORDS..length(table[CELLS])];
    let words = fields.iter().chain(&queue.a).chain(&queue.b);
    words.copied().filter(|&word| word >= FIRST_ATOM).collect()
}

/// Puts one atom for another in all fields and packets. Atoms have no counts, so
/// a sound store stays sound.
pub fn rename(store: &mut Store, from: u16, to: u16) {
    let Store { table, queue, .. } = store;
    let fields = HEADER_WORDS..length(table[CELLS]);
    let words = table[fields].iter_mut();
    for word in words.chain(&mut queue.a).chain(&mut queue.b) {
        if *word == from {
            *word = to;
        }
    }
}

/// Makes about half of a sound store's atoms clipped readings.
pub fn clip_some(rng: &mut Rng, store: &mut Store) {
    for atom in atoms_of(store) {
        if rng.one_in(2) {
            rename(store, atom, clipped(rng));
        }
    }
}
