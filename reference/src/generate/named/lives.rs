//! Packets from their call to the step that takes them, the whole store written
//! after each call.

use std::io;

use crate::call::Call::{self, *};
use crate::generate::follower::Follower;
use crate::generate::list::List;
use crate::queue::Queue;
use crate::table::*;

const ATOM: u16 = FIRST_ATOM;

/// Title, number of cells, calls made beforehand and taken, calls whose packets are
/// looked at.
type Life<'a> = (&'a str, u16, &'a [Call], &'a [Call]);

pub fn lives(list: &mut List) -> io::Result<()> {
    let lives: &[Life] = &[
        // Packets of each kind, with nil and atoms in them.
        (
            "conses of nil and atoms",
            4,
            &[],
            &[
                Cons(0, 0),
                Cons(ATOM, 0),
                Cons(0, ATOM + 9),
                Cons(ATOM, ATOM),
            ],
        ),
        (
            "conses of cells",
            6,
            &[Cons(0, 0), Cons(0, 0), Up(1, 4), Up(2, 1)],
            &[Cons(1, 2), Cons(1, 1), Cons(ATOM, 1), Cons(2, 0)],
        ),
        (
            "reads of nil, an atom, another cell and the cell itself",
            4,
            &[
                Cons(0, ATOM),
                Up(1, 5),
                Cons(1, 0),
                Up(2, 9),
                ReplaceRight(2, 2),
            ],
            &[Car(1), Cdr(1), Car(2), Cdr(2), Cdr(2), Car(1)],
        ),
        (
            "replaces of nil, atoms and cells",
            4,
            &[Cons(0, ATOM), Cons(0, 0), Up(1, 9), Up(2, 9)],
            &[
                ReplaceLeft(1, 0),
                ReplaceLeft(1, ATOM),
                ReplaceLeft(1, 2),
                ReplaceLeft(1, 2),
                ReplaceRight(1, 1),
                ReplaceRight(1, 1),
                ReplaceRight(1, 2),
                ReplaceLeft(1, 0),
            ],
        ),
        // The numbers of these are cells' numbers, and name none.
        (
            "ups and downs by numbers of cells",
            4,
            &[Cons(0, 0), Cons(0, 0), Cons(0, 0), Up(1, 9), Up(2, 9)],
            &[
                Up(1, 2),
                Up(2, 1),
                Down(1, 3),
                Down(2, 4),
                Up(3, 3),
                Down(3, 2),
            ],
        ),
        // A cell twice and three times in one packet, and in others.
        (
            "a cell twice, named once more behind",
            3,
            &[Cons(0, 0), Up(1, 1)],
            &[Cons(1, 1), Down(2, 1)],
        ),
        (
            "a cell twice, read behind",
            3,
            &[Cons(0, 0), Up(1, 2)],
            &[Cons(1, 1), Car(2), Down(1, 1), Down(1, 1)],
        ),
        (
            "a cell three times, and given up",
            2,
            &[Cons(0, 0), Up(1, 3), ReplaceLeft(1, 1)],
            &[ReplaceLeft(1, 1), Down(1, 2)],
        ),
        (
            "a cell three times, twice, once",
            2,
            &[Cons(0, 0), Up(1, 6), ReplaceLeft(1, 1)],
            &[
                ReplaceLeft(1, 1),
                Car(1),
                ReplaceRight(1, 1),
                Up(1, 1),
                Down(1, 5),
            ],
        ),
        (
            "a cell once, twice, three times",
            2,
            &[Cons(0, 0), Up(1, 5), ReplaceRight(1, 1)],
            &[
                Up(1, 1),
                Cdr(1),
                ReplaceRight(1, 1),
                ReplaceRight(1, 1),
                Down(1, 4),
            ],
        ),
        (
            "three times, then taken out of itself",
            2,
            &[Cons(0, 0), Up(1, 2), ReplaceRight(1, 1)],
            &[ReplaceRight(1, 1), ReplaceRight(1, 0), Down(1, 1)],
        ),
        // Alive only because a waiting packet names them.
        (
            "detached",
            4,
            &[Cons(0, 0), Cons(1, 0)],
            &[Up(2, 1), ReplaceLeft(2, 0), Up(2, 1), Up(2, 1)],
        ),
        (
            "detached with what hangs on it",
            6,
            &[Cons(0, 0), Cons(1, 0), Cons(2, 0), Cons(3, 0)],
            &[ReplaceLeft(4, 0), Up(4, 1), Up(4, 1)],
        ),
        (
            "a ring, given up and read before",
            4,
            &[
                Cons(0, 0),
                Up(1, 1),
                Cons(1, ATOM),
                Up(2, 1),
                ReplaceLeft(1, 2),
            ],
            &[Down(1, 1), Cdr(2), Cons(0, 0), Down(3, 1)],
        ),
        (
            "new and given up at once",
            3,
            &[Cons(0, 0)],
            &[Cons(1, 0), Down(2, 1), Cons(0, 0), Down(3, 1)],
        ),
        (
            "read, and given up behind",
            3,
            &[Cons(0, 0), Cons(1, 0)],
            &[Car(2), Down(1, 1)],
        ),
        (
            "put in, and taken out behind",
            3,
            &[Cons(0, 0), Cons(0, 0)],
            &[ReplaceRight(1, 2), ReplaceRight(1, 0), Up(1, 1)],
        ),
        (
            "put in and out and in again by others",
            3,
            &[Cons(0, 0), Cons(0, 0), Up(2, 1)],
            &[
                ReplaceLeft(1, 2),
                ReplaceLeft(1, ATOM),
                ReplaceLeft(1, 2),
                ReplaceLeft(1, 0),
                Down(1, 1),
            ],
        ),
    ];
    for &(title, cells, before, calls) in lives {
        let mut follower = Follower::fresh(cells);
        for &call in before {
            follower.perform(call);
        }
        follower.drain();
        list.title(&format!("named: {title}"))?;
        list.store(&follower.store)?;
        for &call in calls {
            list.call(call)?;
        }
        list.brief(Audit)?;
        for _ in 0..=calls.len() {
            list.call(Step)?;
            list.brief(Audit)?;
        }
    }
    k1(list)?;
    most(list)
}

/// Document 01's first case, whose table ends with a 0 in each cell's sixth word.
fn k1(list: &mut List) -> io::Result<()> {
    list.title("K1 with the sixth words")?;
    list.store(&Follower::fresh(3).store)?;
    for call in [
        Fresh(3),
        Cons(0, ATOM + 7),
        Cons(1, 0),
        Up(2, 1),
        ReplaceRight(2, 2),
        Down(2, 1),
    ] {
        list.call(call)?;
    }
    for _ in 0..6 {
        list.call(Step)?;
        list.brief(Audit)?;
    }
    Ok(())
}

/// As often as a cell can be named: 64 packets, three times each. It is given up by
/// all but one of them, or by all, and stays until the last is taken.
fn most(list: &mut List) -> io::Result<()> {
    for (cells, keep) in [(1, 1), (3, 0), (64, 1)] {
        let slots = Queue::SLOTS as u16;
        let mut follower = Follower::fresh(cells);
        follower.perform(Cons(0, 0));
        follower.perform(Up(1, slots + keep));
        follower.perform(ReplaceLeft(1, 1));
        follower.drain();
        list.title(&format!("named by 64 packets, {cells} cells"))?;
        list.store(&follower.store)?;
        for _ in 0..slots - 1 {
            list.brief(ReplaceLeft(1, 1))?;
        }
        // With no hold kept the last one is a down instead.
        list.call(if keep == 1 {
            ReplaceLeft(1, 1)
        } else {
            Down(1, 1)
        })?;
        list.call(Audit)?;
        list.brief(Up(1, 1))?;
        for i in 0..slots {
            if i % 21 == 0 {
                list.call(Step)?;
            } else {
                list.brief(Step)?;
            }
        }
        list.call(Step)?;
        list.call(Audit)?;
    }
    Ok(())
}
