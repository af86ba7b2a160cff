//! Sound stores with rings and shared cells, whose words are written into
//! buffers of every length.

use std::io;

use super::{any_fill, Case};
use crate::call::Call;
use crate::generate::follower::Follower;
use crate::generate::list::List;
use crate::generate::rng::Rng;
use crate::generate::sound::clipped_store;
use crate::table::*;

const ATOM: u16 = FIRST_ATOM;

pub fn shapes(rng: &mut Rng, list: &mut List, cases: usize) -> io::Result<()> {
    known(rng, list)?;
    doubled(rng, list)?;
    for _ in 0..cases {
        random(rng, list)?;
    }
    Ok(())
}

/// Title and calls on a fresh store of six cells; cell 1 is the word written.
type Shape<'a> = (&'a str, &'a [Call]);

fn known(rng: &mut Rng, list: &mut List) -> io::Result<()> {
    use Call::*;
    let shapes: &[Shape] = &[
        // Each further bracket is the cell itself: 13 up to 31 bytes, then 12.
        ("its own left", &[Cons(0, 0), Up(1, 1), ReplaceLeft(1, 1)]),
        // Without end to the right: always 13.
        (
            "its own right",
            &[Cons(ATOM, 0), Up(1, 1), ReplaceRight(1, 1)],
        ),
        (
            "its own right, nil left",
            &[Cons(0, 0), Up(1, 1), ReplaceRight(1, 1)],
        ),
        (
            "its own left and right",
            &[Cons(0, 0), Up(1, 2), ReplaceLeft(1, 1), ReplaceRight(1, 1)],
        ),
        (
            "left ring with an atom last",
            &[Cons(0, ATOM + 12), Up(1, 1), ReplaceLeft(1, 1)],
        ),
        // (10 (10 (10 ...: the 33rd bracket comes after 4 times 32 bytes.
        (
            "ring of two, right then left",
            &[Cons(ATOM + 10, 0), Up(1, 1), Cons(1, 0), ReplaceRight(1, 2)],
        ),
        (
            "ring of two, left then right",
            &[
                Cons(0, ATOM),
                Up(1, 1),
                Cons(ATOM + 3, 1),
                ReplaceLeft(1, 2),
            ],
        ),
        // Brackets are closed again before the ring comes round: always 13.
        (
            "ring to the right with lists in it",
            &[Cons(ATOM, 0), Cons(1, 0), Up(2, 1), ReplaceRight(2, 2)],
        ),
        (
            "ring of three to the left",
            &[
                Cons(0, 0),
                Up(1, 1),
                Cons(1, 0),
                Cons(2, 0),
                ReplaceLeft(1, 3),
            ],
        ),
        (
            "shared twice",
            &[
                Cons(ATOM + 1, 0),
                Up(1, 1),
                Cons(1, 1),
                Cons(2, 0),
                Cons(0, 3),
            ],
        ),
        (
            "shared last part",
            &[Cons(ATOM + 1, ATOM + 2), Up(1, 2), Cons(1, 1), Cons(1, 2)],
        ),
        (
            "atoms of all lengths",
            &[
                Cons(ATOM + 4_094, ATOM),
                Cons(ATOM + 1_000, 1),
                Cons(ATOM + 100, 2),
                Cons(ATOM + 10, 3),
            ],
        ),
    ];
    for &(title, calls) in shapes {
        let mut follower = Follower::fresh(6);
        for &call in calls {
            follower.perform(call);
        }
        if rng.one_in(2) {
            follower.drain();
        }
        let mut case = Case::start(list, title, follower)?;
        case.call(Audit)?;
        for word in 1..=5 {
            if case.follower.holds(word) > 0 {
                every_length(rng, &mut case, word, 150)?;
            }
        }
    }
    Ok(())
}

/// Buffers of every length from 0 to enough, or to `most` and some longer ones
/// where none is enough.
fn every_length(rng: &mut Rng, case: &mut Case, word: u16, most: usize) -> io::Result<()> {
    let fill = any_fill(rng);
    match case.peek(word, most) {
        Some(text) => {
            for length in 0..=text.len() + 1 {
                case.write(word, length, fill)?;
            }
        }
        None => {
            for length in (0..=most).chain([255, 256, 257, 4_095, 4_096, 4_097]) {
                case.write(word, length, fill)?;
            }
        }
    }
    Ok(())
}

/// Each cell holds the one before twice: the text doubles.
fn doubled(rng: &mut Rng, list: &mut List) -> io::Result<()> {
    for right in [false, true] {
        let mut follower = Follower::fresh(40);
        follower.perform(Call::Cons(ATOM, NIL));
        for x in 1..36 {
            follower.perform(Call::Up(x, 2));
            follower.perform(if right {
                Call::Cons(x, x)
            } else {
                Call::Cons(x, NIL)
            });
            follower.drain();
        }
        let title = if right { "doubled" } else { "in brackets" };
        let mut case = Case::start(list, title, follower)?;
        for word in [1, 2, 3, 6, 7, 30, 31, 32, 33, 34, 36] {
            let fill = any_fill(rng);
            match case.peek(word, 700) {
                Some(text) => {
                    let all = text.len();
                    for length in [0, 1, all / 2, all - 1, all, all + 1] {
                        case.write(word, length, fill)?;
                    }
                }
                None => {
                    for length in [0, 1, 30, 31, 32, 33, 34, 100, 4_096, 20_000] {
                        case.write(word, length, fill)?;
                    }
                }
            }
        }
    }
    Ok(())
}

fn random(rng: &mut Rng, list: &mut List) -> io::Result<()> {
    let cells = rng.within(2, 7);
    let calls = 30 + rng.below(120);
    let mut follower = clipped_store(rng, cells, calls);
    if rng.one_in(2) {
        follower.drain();
    }
    let Some(word) = follower.held_cell(rng) else {
        return Ok(());
    };
    let title = format!("{cells} cells after {calls} calls");
    let mut case = Case::start(list, &title, follower)?;
    every_length(rng, &mut case, word, 50)?;
    for x in 1..=cells {
        case.write(x, 40, any_fill(rng))?;
    }
    Ok(())
}
