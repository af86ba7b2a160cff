//! Sixth words (A6) for stores whose packets were put in by hand.

use crate::naming;
use crate::store::Store;
use crate::table::*;

/// Makes the sixth word of every cell in use what the queue gives, on a store that
/// passes question 1. That of a free cell stays as it is, so that a packet which
/// names one is all that is wrong.
pub fn recount(store: &mut Store) {
    let Store { table, queue, .. } = store;
    let mut times = vec![0; table[CELLS] as usize];
    naming::count(queue, &mut times);
    for (x, times) in (1..).zip(times) {
        if table[at(x) + STATE] == IN_USE {
            table[at(x) + NAMED] = times;
        }
    }
}

/// The store with its sixth words made so.
pub fn recounted(mut store: Store) -> Store {
    recount(&mut store);
    store
}
