//! Stores that break rule S5, or nearly do.

use std::io;

use super::{edited, settled, with_packets, Edit, Words};
use crate::generate::list::{word, List};
use crate::table::*;

pub fn s5(list: &mut List) -> io::Result<()> {
    let settled = settled();
    let unhold = |x| (word(x, ROOT_COUNT), 0);
    let cases: &[(&str, &[Edit])] = &[
        ("nothing changed", &[]),
        ("a cell that holds itself, not held", &[unhold(4)]),
        ("an unreached cell above an unreached ring", &[unhold(1)]),
        ("nothing held at all", &[unhold(1), unhold(4)]),
        (
            "an unreached ring beside a held cell",
            &[
                (word(1, LEFT), 0),
                (word(1, RIGHT), 0),
                (word(2, CELL_COUNT), 1),
                (word(3, CELL_COUNT), 1),
            ],
        ),
        (
            "a ring held by one pointer",
            &[(word(1, LEFT), 0), (word(2, CELL_COUNT), 1)],
        ),
        (
            "a ring that holds the held cell, and isn't held by it",
            &[
                (word(1, LEFT), 0),
                (word(1, RIGHT), 0),
                (word(2, CELL_COUNT), 1),
                (word(3, CELL_COUNT), 1),
                (word(2, RIGHT), 1),
                (word(1, CELL_COUNT), 1),
            ],
        ),
        (
            "an unreached chain of one",
            &[unhold(4), (word(4, LEFT), 0), (word(4, CELL_COUNT), 0)],
        ),
        (
            "the ring itself is held, the cell above it isn't",
            &[unhold(1), (word(3, ROOT_COUNT), 1)],
        ),
        (
            "a new cell in use without anything",
            &[(word(5, STATE), 1), (word(5, LEFT), 0), (FIRST_FREE, 6)],
        ),
        (
            "the last cell in use without anything",
            &[(word(6, STATE), 1), (word(5, LEFT), 0), (LAST_FREE, 5)],
        ),
        (
            "two rings, neither held",
            &[
                unhold(1),
                unhold(4),
                (word(1, LEFT), 1),
                (word(1, CELL_COUNT), 1),
                (word(2, CELL_COUNT), 1),
            ],
        ),
    ];
    for &(title, edits) in cases {
        list.case(&format!("S5: {title}"), &edited(&settled, edits))?;
    }
    named_only(list)
}

/// Title, packets, what to change in the table.
type Named<'a> = (&'a str, &'a [Words], &'a [Edit]);

/// Cells that no root count reaches, beside waiting packets that name them,
/// or that only seem to.
fn named_only(list: &mut List) -> io::Result<()> {
    // Cell 3 isn't held; 1 and 2 are.
    let cases: &[Named] = &[
        ("read out of another cell", &[[1, 1, 3, 0]], &[]),
        ("new, and given up", &[[2, 0, 0, 3]], &[]),
        ("detached", &[[3, 0, 3, 1]], &[(word(3, CELL_COUNT), 1)]),
        (
            "put in",
            &[[6, 3, 0, 1]],
            &[(word(1, RIGHT), 3), (word(3, ROOT_COUNT), 1)],
        ),
        ("the number of an up", &[[4, 1, 3, 0]], &[]),
        ("the number of a down", &[[5, 1, 3, 0]], &[]),
        ("named by nothing", &[[4, 1, 1, 0]], &[]),
        (
            "in a field of a held cell, beside a packet",
            &[[2, 0, 0, 2]],
            &[
                (word(2, ROOT_COUNT), 0),
                (word(2, LEFT), 0),
                (word(1, LEFT), 3),
                (word(3, CELL_COUNT), 1),
            ],
        ),
        (
            "detached, and only in itself",
            &[[3, 0, 3, 1]],
            &[(word(3, LEFT), 3), (word(3, CELL_COUNT), 2)],
        ),
        (
            "put in and out again, by two packets",
            &[[3, 3, 0, 1], [3, 0, 3, 1]],
            &[(word(3, ROOT_COUNT), 1)],
        ),
        (
            "in a field of a cell that only a packet names",
            &[[1, 1, 2, 0]],
            &[
                (word(2, ROOT_COUNT), 0),
                (word(2, RIGHT), 3),
                (word(3, CELL_COUNT), 1),
            ],
        ),
    ];
    for &(title, packets, edits) in cases {
        let store = edited(&with_packets([4, 4, 0], packets), edits);
        list.case(&format!("S5: {title}"), &store)?;
    }
    Ok(())
}
