//! Stores that break rule S2, or nearly do.

use std::io;

use super::{crowded, edited, sample, Edit};
use crate::generate::follower::Follower;
use crate::generate::list::{word, List};
use crate::store::Store;
use crate::table::*;

/// Title, store and what to change in it.
type Case<'a> = (&'a str, &'a Store, &'a [Edit]);

pub fn s2(list: &mut List) -> io::Result<()> {
    let sample = sample();
    let crowded = crowded();
    let mut fresh = Follower::fresh(1);
    fresh.store.scratch = vec![3];
    let single = fresh.store;
    let cases: &[Case] = &[
        ("S2: nothing changed", &sample, &[]),
        ("S2: no first free cell", &sample, &[(FIRST_FREE, 0)]),
        ("S2: no last free cell", &sample, &[(LAST_FREE, 0)]),
        (
            "S2: neither end",
            &sample,
            &[(FIRST_FREE, 0), (LAST_FREE, 0)],
        ),
        (
            "S2: chain one short at the front",
            &sample,
            &[(FIRST_FREE, 8)],
        ),
        (
            "S2: chain one short at the end",
            &sample,
            &[(word(3, LEFT), 0)],
        ),
        (
            "S2: chain one short at the end, and the last end with it",
            &sample,
            &[(word(3, LEFT), 0), (LAST_FREE, 3)],
        ),
        ("S2: chain skips a cell", &sample, &[(word(7, LEFT), 3)]),
        ("S2: last end in the middle", &sample, &[(LAST_FREE, 3)]),
        ("S2: last end is a cell in use", &sample, &[(LAST_FREE, 6)]),
        (
            "S2: first end is a cell in use",
            &sample,
            &[(FIRST_FREE, 5)],
        ),
        (
            "S2: chain one long, into a cell in use",
            &sample,
            &[(word(4, LEFT), 5)],
        ),
        ("S2: chain in a circle", &sample, &[(word(4, LEFT), 7)]),
        (
            "S2: chain in a circle of its last two",
            &sample,
            &[(word(4, LEFT), 3)],
        ),
        (
            "S2: last free cell is its own next",
            &sample,
            &[(word(4, LEFT), 4)],
        ),
        (
            "S2: first free cell is its own next",
            &sample,
            &[(word(7, LEFT), 7)],
        ),
        ("S2: chain ends at C + 1", &sample, &[(word(4, LEFT), 9)]),
        (
            "S2: chain ends at an atom",
            &sample,
            &[(word(4, LEFT), 32_768)],
        ),
        (
            "S2: chain ends at 65535",
            &sample,
            &[(word(8, LEFT), 65_535)],
        ),
        (
            "S2: chain ends at a clipped reading",
            &sample,
            &[(word(4, LEFT), 36_863)],
        ),
        (
            "S2: right of a free cell is a clipped reading",
            &sample,
            &[(word(7, RIGHT), 36_863)],
        ),
        (
            "S2: right of a free cell is 1",
            &sample,
            &[(word(8, RIGHT), 1)],
        ),
        (
            "S2: right of the last free cell is an atom",
            &sample,
            &[(word(4, RIGHT), 40_000)],
        ),
        (
            "S2: root count 1 in a free cell",
            &sample,
            &[(word(3, ROOT_COUNT), 1)],
        ),
        (
            "S2: cell count 1 in a free cell",
            &sample,
            &[(word(7, CELL_COUNT), 1)],
        ),
        (
            "S2: chain in another order",
            &sample,
            &[(word(7, LEFT), 3), (word(3, LEFT), 8), (word(8, LEFT), 4)],
        ),
        ("S2: no free cell, ends 0", &crowded, &[]),
        (
            "S2: no free cell, a first end",
            &crowded,
            &[(FIRST_FREE, 1)],
        ),
        ("S2: no free cell, a last end", &crowded, &[(LAST_FREE, 2)]),
        (
            "S2: no free cell, both ends",
            &crowded,
            &[(FIRST_FREE, 2), (LAST_FREE, 2)],
        ),
        ("S2: one cell, nothing changed", &single, &[]),
        ("S2: one cell, no first end", &single, &[(FIRST_FREE, 0)]),
        ("S2: one cell, no last end", &single, &[(LAST_FREE, 0)]),
        ("S2: one cell, its own next", &single, &[(word(1, LEFT), 1)]),
        (
            "S2: one cell, next is C + 1",
            &single,
            &[(word(1, LEFT), 2)],
        ),
        (
            "S2: one cell in use, ends as if free",
            &single,
            &[(word(1, STATE), 1)],
        ),
    ];
    for &(title, store, edits) in cases {
        list.case(title, &edited(store, edits))?;
    }
    let mut both = edited(&sample, &[(LAST_FREE, 8)]);
    both.queue.kinds[30] = 1;
    list.case("S2: broken together with S3", &both)
}
