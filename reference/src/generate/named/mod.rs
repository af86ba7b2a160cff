//! Who is named (A6): the sixth word right and wrong, packets that name a cell in
//! several places, and stores that no list of calls makes.

mod lives;
mod sound;
mod wrong;

use std::io;

use super::atoms::FIRST_CLIPPED;
use super::follower::Follower;
use super::list::List;
use super::rng::Rng;
use crate::call::Call;
use crate::store::Store;
use crate::table::*;
use crate::text_call::TextCall;

pub fn named(rng: &mut Rng, list: &mut List, cases: usize) -> io::Result<()> {
    wrong::wrong(list)?;
    wrong::lengths(rng, list)?;
    wrong::freshes(rng, list)?;
    lives::lives(list)?;
    sound::accepted(rng, list)?;
    sound::random(rng, list, cases)
}

/// The queue of a base store.
#[derive(Clone, Copy, PartialEq, Eq)]
enum Waiting {
    None,
    Some,
    Full,
}

impl Waiting {
    fn title(self) -> &'static str {
        match self {
            Waiting::None => "no packet waiting",
            Waiting::Some => "some packets waiting",
            Waiting::Full => "queue full",
        }
    }
}

/// Cell 1 is in use and held often, and so is cell 2 once where there are three
/// cells; the others are free. Packets name cell 1 only: in one place, in two and
/// in three, beside nil and atoms.
fn base(cells: u16, waiting: Waiting) -> Store {
    let mut follower = Follower::fresh(cells);
    follower.perform(Call::Cons(NIL, FIRST_ATOM + 7));
    if cells > 2 {
        follower.perform(Call::Cons(NIL, NIL));
    }
    follower.perform(Call::Up(1, 200));
    follower.drain();
    if waiting != Waiting::None {
        for call in [
            Call::ReplaceLeft(1, 1),
            Call::ReplaceLeft(1, 1),
            Call::Up(1, 2),
            Call::Car(1),
            Call::ReplaceRight(1, FIRST_ATOM),
            Call::Cdr(1),
            Call::Down(1, 2),
        ] {
            follower.perform(call);
        }
    }
    while waiting == Waiting::Full && !follower.queue_full() {
        follower.perform(Call::Up(1, 1));
    }
    follower.store
}

fn read(text: &[u8]) -> TextCall {
    TextCall::Read(text.to_vec())
}

fn write(word: u16, length: usize) -> TextCall {
    let fill = 35;
    TextCall::Write { word, length, fill }
}

/// What is answered as written on any store: the read of nil, and a refusal by each
/// question that goes by the operands.
fn answered(list: &mut List) -> io::Result<()> {
    for call in [
        Call::Car(NIL),
        Call::Down(1, 4_096),
        Call::Cons(NIL, 32_767),
        Call::ReplaceLeft(NIL, 1),
        Call::Cons(FIRST_CLIPPED, NIL),
    ] {
        list.brief(call)?;
    }
    list.text(&read(b")"), true)?;
    list.text(&read(b"4095"), true)?;
    list.text(&write(32_767, 1), true)
}

/// All calls, beginning with one of the first ten: on a damaged store the first is
/// undecided, and so are the others then.
fn all_calls(list: &mut List, first: usize) -> io::Result<()> {
    let calls = [
        Call::Step,
        Call::Car(1),
        Call::Up(1, 1),
        Call::Cons(1, 1),
        Call::ReplaceLeft(1, 1),
        Call::Cdr(1),
        Call::ReplaceRight(1, NIL),
        Call::Down(1, 1),
    ];
    for i in 0..10 {
        match (first + i) % 10 {
            8 => list.text(&read(b"(1)"), true)?,
            9 => list.text(&write(1, 20), true)?,
            call => list.brief(calls[call])?,
        }
    }
    list.brief(Call::Step)?;
    list.brief(Call::Fresh(1))?;
    list.brief(Call::Audit)
}
