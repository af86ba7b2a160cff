//! A table, a queue and a scratch, as a caller lends them.

use crate::queue::Queue;
use crate::table::{length, MAX_CELLS};

#[derive(Clone, Debug, PartialEq, Eq)]
pub struct Store {
    pub table: Vec<u16>,
    pub queue: Queue,
    pub scratch: Vec<u16>,
}

impl Store {
    /// A zero table and scratch of these lengths and an empty queue.
    pub fn zeroed(table: usize, scratch: usize) -> Store {
        Store {
            table: vec![0; table],
            queue: Queue::empty(),
            scratch: vec![0; scratch],
        }
    }
    /// A zero store with room for every C that a fresh can have.
    pub fn for_any_fresh() -> Store {
        Store::zeroed(length(MAX_CELLS), MAX_CELLS as usize)
    }
}
