//! The cases K1 to K11 of document 01 as a list, and reads of nil.

use std::io;

use super::list::List;
use crate::call::Call;
use crate::queue::Queue;
use crate::store::Store;
use crate::table::*;

pub fn known(list: &mut List) -> io::Result<()> {
    use Call::*;
    let cases: &[(&str, &[Call])] = &[
        (
            "K1",
            &[
                Cons(1, 0),
                Up(2, 1),
                ReplaceRight(2, 2),
                Down(2, 1),
                Step,
                Step,
                Step,
                Step,
                Step,
                Step,
            ],
        ),
        ("K2, K3", &[Up(1, 4_094), Up(1, 1)]),
        ("K4", &[Up(1, 0)]),
        ("K5", &[ReplaceRight(1, 1)]),
        ("K6", &[Cons(1, 1)]),
        ("K7", &[Cons(3, 0)]),
        ("K8", &[Cons(4, 0)]),
        ("K9", &[Car(32_775)]),
        ("K10", &[Cdr(1), Step, Step]),
        ("K11", &[Car(0)]),
    ];
    for (title, calls) in cases {
        list.title(title)?;
        used_store(list, 3)?;
        list.call(Fresh(3))?;
        list.call(Cons(0, 32_775))?;
        for &call in *calls {
            list.call(call)?;
        }
        list.call(Audit)?;
    }
    list.title("64 packets waiting and no cell free")?;
    used_store(list, 1)?;
    list.call(Fresh(1))?;
    list.call(Cons(0, 32_775))?;
    for _ in 1..Queue::SLOTS {
        list.brief(Up(1, 1))?;
    }
    list.call(Cons(0, 0))?;
    list.call(Car(0))?;
    list.call(Cdr(0))?;
    list.call(Audit)?;
    nil_reads(list)
}

/// Reads of nil before a fresh, with no cell in use, and past a list's end.
fn nil_reads(list: &mut List) -> io::Result<()> {
    use Call::*;
    let cases: &[(&str, &[Call])] = &[
        ("nil read before a fresh", &[Car(0), Cdr(0)]),
        ("nil read with no cell in use", &[Fresh(3), Car(0), Cdr(0)]),
        (
            "list of three walked past its end",
            &[
                Fresh(3),
                Cons(32_769, 0),
                Cons(32_770, 1),
                Cons(32_771, 2),
                Cdr(3),
                Cdr(2),
                Cdr(1),
                Cdr(0),
                Car(0),
                Step,
                Step,
                Step,
                Step,
                Step,
                Step,
                Cdr(0),
            ],
        ),
    ];
    for (title, calls) in cases {
        list.title(title)?;
        used_store(list, 3)?;
        for &call in *calls {
            list.call(call)?;
        }
        list.call(Audit)?;
    }
    Ok(())
}

/// A zero table for so many cells and a scratch one word longer than needed
/// that isn't zero.
fn used_store(list: &mut List, cells: u16) -> io::Result<()> {
    let mut store = Store::zeroed(length(cells), cells as usize + 1);
    store.scratch.fill(77);
    list.store(&store)
}
