//! Random sessions in the session program's input format.

use std::io::{self, Write};

use super::atoms::{FIRST_CLIPPED, LAST_STORED};
use super::follower::{Follower, Mix, QUESTIONS};
use super::rng::Rng;
use crate::call::{Call, Reply};
use crate::session::write_call;
use crate::store::Store;
use crate::table::*;

const CELL_NUMBERS: [u16; 7] = [1, 2, 3, 63, 64, 65, 4_096];

/// What a session is mostly made of.
struct Style {
    mix: Mix,
    /// One line in so many is a call to be refused, a bad line, a fresh, one that
    /// names a cell several times; 0 for none.
    refused: usize,
    bad: usize,
    fresh: usize,
    naming: usize,
}

const BALANCED: Mix = Mix {
    nil_read: 3,
    read: 20,
    cons: 40,
    replace: 20,
    up: 10,
    down: 15,
    step: 90,
};

fn style(name: &str) -> Option<Style> {
    let lively = Style {
        mix: BALANCED,
        refused: 12,
        bad: 0,
        fresh: 0,
        naming: 0,
    };
    Some(match name {
        "lively" | "ceiling" => lively,
        "full" => Style {
            mix: Mix {
                nil_read: 6,
                step: 12,
                ..BALANCED
            },
            ..lively
        },
        "rings" => Style {
            mix: Mix {
                replace: 60,
                read: 5,
                up: 30,
                down: 50,
                step: 150,
                ..BALANCED
            },
            ..lively
        },
        "refusals" => Style {
            refused: 2,
            ..lively
        },
        "freshes" => Style {
            fresh: 30,
            ..lively
        },
        "bad" => Style { bad: 3, ..lively },
        "named" => Style {
            naming: 2,
            ..lively
        },
        "mixed" => Style {
            bad: 25,
            fresh: 400,
            ..lively
        },
        _ => return None,
    })
}

pub const STYLES: [&str; 9] = [
    "lively", "full", "rings", "refusals", "freshes", "bad", "mixed", "named", "ceiling",
];

/// A session of `lines` lines in a store of `cells` cells. `ceiling` begins
/// with the lines that it takes to reach the ceilings, which come on top.
pub fn write(
    rng: &mut Rng,
    name: &str,
    cells: u16,
    lines: usize,
    output: &mut impl Write,
) -> io::Result<()> {
    let style = style(name).ok_or_else(|| super::usage("no such style of session"))?;
    let mut session = Session {
        follower: Follower::new(Store::for_any_fresh()),
        output,
    };
    if name != "ceiling" {
        session.before_fresh(rng)?;
    }
    session.call(Call::Fresh(cells))?;
    if name == "ceiling" {
        session.reach_ceilings(rng)?;
    }
    for _ in 0..lines {
        session.random_line(rng, &style)?;
    }
    // The last line lacks its line feed.
    session.output.write_all(b"step")
}

struct Session<'a, W> {
    follower: Follower,
    output: &'a mut W,
}

impl<W: Write> Session<'_, W> {
    fn call(&mut self, call: Call) -> io::Result<Reply> {
        write_call(self.output, call)?;
        Ok(self.follower.perform(call))
    }

    /// The only calls of a session that question 1 refuses; reads of nil are
    /// always among them.
    fn before_fresh(&mut self, rng: &mut Rng) -> io::Result<()> {
        self.call(Call::Car(NIL))?;
        self.call(Call::Cdr(NIL))?;
        let calls = [
            Call::Car(1),
            Call::Cons(0, 0),
            Call::Up(1, 0),
            Call::ReplaceLeft(40_000, 32_767),
            Call::Cons(0, FIRST_CLIPPED),
            Call::Step,
            Call::Fresh(0),
            Call::Fresh(4_097),
        ];
        for _ in 0..rng.below(4) {
            self.call(rng.pick(&calls))?;
        }
        Ok(())
    }

    fn random_line(&mut self, rng: &mut Rng, style: &Style) -> io::Result<()> {
        let now = |rng: &mut Rng, rate: usize| rate > 0 && rng.one_in(rate);
        if now(rng, style.bad) {
            return write_bad_line(rng, self.output);
        }
        let call = if now(rng, style.fresh) {
            Call::Fresh(rng.pick(&CELL_NUMBERS))
        } else if now(rng, style.naming) {
            self.follower.naming_call(rng)
        } else if now(rng, style.refused) {
            let question = rng.pick(&QUESTIONS);
            match self.follower.refused_call(rng, question) {
                Some(call) => call,
                None => self.follower.lively_call(rng, style.mix),
            }
        } else {
            self.follower.lively_call(rng, style.mix)
        };
        self.call(call).map(|_| ())
    }

    /// Cell 1 gets 4,095 holds and, where the cells suffice, 4,095 pointers;
    /// then the calls around both ceilings.
    fn reach_ceilings(&mut self, rng: &mut Rng) -> io::Result<()> {
        self.call(Call::Cons(NIL, FIRST_ATOM))?;
        self.call(Call::Up(1, MAX_COUNT - 1))?;
        let spare = 40;
        let pairs = (MAX_COUNT / 2).min(self.follower.cells().saturating_sub(spare));
        for _ in 0..pairs {
            self.room_for_a_packet(rng)?;
            self.call(Call::Cons(1, 1))?;
            if self.follower.holds(1) < 10 {
                self.room_for_a_packet(rng)?;
                self.call(Call::Up(1, MAX_COUNT - self.follower.holds(1)))?;
            }
        }
        for call in ceiling_calls() {
            self.room_for_a_packet(rng)?;
            self.call(call)?;
        }
        Ok(())
    }

    /// Steps where the queue is full, and now and then where it isn't.
    fn room_for_a_packet(&mut self, rng: &mut Rng) -> io::Result<()> {
        while self.follower.queue_full() || rng.one_in(4) {
            self.call(Call::Step)?;
        }
        Ok(())
    }
}

/// Cell 1 is at 4,094 pointers, all from cells that hold it twice.
pub fn ceiling_calls() -> Vec<Call> {
    use Call::*;
    vec![
        Up(1, 4_095),
        Cons(1, 1),
        Cons(NIL, 1),
        Cons(1, NIL),
        Cons(1, 1),
        // A clipped reading comes before the pointers.
        Cons(1, FIRST_CLIPPED),
        Cons(LAST_STORED, 1),
        // Put in where it stands already: the pointers stay at 4,095.
        ReplaceLeft(2, 1),
        ReplaceRight(2, 1),
        ReplaceLeft(2, NIL),
        Cons(1, 1),
        ReplaceLeft(2, 1),
        ReplaceLeft(1, 1),
        ReplaceRight(3, FIRST_ATOM),
        ReplaceRight(1, 1),
        ReplaceLeft(1, 1),
        // Up to 4,095 holds; then reads of cell 1 from elsewhere and itself.
        Up(1, 1),
        Up(1, 4_000),
        Up(1, 2_000),
        Up(1, 1_000),
        Up(1, 500),
        Up(1, 250),
        Up(1, 125),
        Up(1, 60),
        Up(1, 30),
        Up(1, 15),
        Up(1, 8),
        Up(1, 4),
        Up(1, 2),
        Up(1, 1),
        Up(1, 1),
        Car(4),
        Cdr(4),
        Cdr(1),
        Car(1),
        Up(1, 1),
        Down(1, 4_096),
        Down(1, 4_095),
        Down(1, 2_000),
        Up(1, 1_999),
        Car(5),
        Cdr(6),
        Step,
    ]
}

const BAD_LINES: [&[u8]; 48] = [
    b"",
    b" ",
    b"car",
    b"car ",
    b"car 1 ",
    b"car  1",
    b" car 1",
    b"Car 1",
    b"CAR 1",
    b"car 01",
    b"car 00",
    b"car 65536",
    b"car 99999",
    b"car 4294967297",
    b"car 18446744073709551617",
    b"car -1",
    b"car +1",
    b"car 1 2",
    b"car 1x",
    b"car x",
    b"car\t1",
    b"car1",
    b"cdr 1.0",
    b"cdr 1,000",
    b"cdr 0x1",
    b"cons",
    b"cons 1",
    b"cons 0 ",
    b"cons 0  0",
    b"cons 0 0 0",
    b"cons 0 65536",
    b"cons 65536 0",
    b"setl 1",
    b"setr 1 00",
    b"up 1",
    b"up 1 1 1",
    b"down 1 -1",
    b"down 1 1\r",
    b"step ",
    b"step 0",
    b"step\r",
    b"step\0",
    b"\0step",
    b"steps",
    b"ste",
    b"audit",
    b"fresh",
    b"fresh 03",
];

/// A line that is bad, whatever the store, or (rarely) one that only looks so.
fn write_bad_line(rng: &mut Rng, output: &mut impl Write) -> io::Result<()> {
    let mut line: Vec<u8> = match rng.below(8) {
        // Around 80 bytes, and far over.
        0 => {
            let length = rng.pick(&[79, 80, 81, 82, 255, 256, 300, 5_000]);
            let fill = rng.pick(b" 0x");
            let mut line = rng.pick(&[&b"step"[..], b"car 1", b"cons 0 "]).to_vec();
            line.resize(length, fill);
            line
        }
        1 => (0..rng.below(12)).map(|_| rng.word() as u8).collect(),
        2 => {
            let letters = b"cards etlupown0123456789 ";
            (0..rng.below(16)).map(|_| rng.pick(letters)).collect()
        }
        _ => rng.pick(&BAD_LINES).to_vec(),
    };
    line.retain(|&byte| byte != b'\n');
    line.push(b'\n');
    output.write_all(&line)
}
