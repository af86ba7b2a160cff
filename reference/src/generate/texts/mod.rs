//! Lists for rule text in and out (request A4).

mod borders;
mod clipped;
mod damaged;
mod deep;
mod mixed;
pub mod random;
mod room;
mod rules;
mod shapes;
mod short;

pub use borders::borders;
pub use clipped::clipped;
pub use damaged::damaged;
pub use deep::deep;
pub use mixed::{back, mixed};
pub use room::{free, queues};
pub use rules::rules;
pub use shapes::shapes;
pub use short::{bytes, short, texts};

use std::io;

use super::atoms;
use super::follower::Follower;
use super::list::List;
use super::rng::Rng;
use crate::call::{Call, Reply};
use crate::store::Store;
use crate::table::*;
use crate::text_call::{TextCall, TextReply};

/// A store in a list, with the holds of its caller: calls are written into the
/// list and made at once, so that the next ones can be chosen.
struct Case<'a, 'b> {
    list: &'a mut List<'b>,
    follower: Follower,
}

impl<'a, 'b> Case<'a, 'b> {
    fn start(list: &'a mut List<'b>, title: &str, follower: Follower) -> io::Result<Case<'a, 'b>> {
        list.title(title)?;
        list.store(&follower.store)?;
        Ok(Case { list, follower })
    }

    /// A store that isn't written out but for its length: zero, then a fresh.
    fn fresh(list: &'a mut List<'b>, title: &str, cells: u16) -> io::Result<Case<'a, 'b>> {
        let store = Store::zeroed(length(cells), cells as usize);
        let mut case = Case::start(list, title, Follower::new(store))?;
        case.call(Call::Fresh(cells))?;
        Ok(case)
    }

    fn call(&mut self, call: Call) -> io::Result<Reply> {
        self.list.brief(call)?;
        Ok(self.follower.perform(call))
    }

    fn whole(&mut self, call: Call) -> io::Result<Reply> {
        self.list.call(call)?;
        Ok(self.follower.perform(call))
    }

    /// The word read, or none where the text is refused.
    fn read(&mut self, text: &[u8]) -> io::Result<Option<u16>> {
        self.text(TextCall::Read(text.to_vec()), true)
    }

    fn read_whole(&mut self, text: &[u8]) -> io::Result<Option<u16>> {
        self.text(TextCall::Read(text.to_vec()), false)
    }

    fn text(&mut self, call: TextCall, brief: bool) -> io::Result<Option<u16>> {
        self.list.text(&call, brief)?;
        let reply = self.follower.perform_text(&call);
        Ok(reply.value.ok().map(|value| value as u16))
    }

    /// The length of the text, or none where the writing is refused.
    fn write(&mut self, word: u16, length: usize, fill: u8) -> io::Result<Option<usize>> {
        self.write_into(word, length, fill, true)
    }

    fn write_whole(&mut self, word: u16, length: usize, fill: u8) -> io::Result<Option<usize>> {
        self.write_into(word, length, fill, false)
    }

    fn write_into(
        &mut self,
        word: u16,
        length: usize,
        fill: u8,
        brief: bool,
    ) -> io::Result<Option<usize>> {
        let call = TextCall::Write { word, length, fill };
        self.list.text(&call, brief)?;
        Ok(self.follower.perform_text(&call).value.ok())
    }

    /// The text of a word in a buffer of so many bytes; nothing is put into the
    /// list.
    fn peek(&mut self, word: u16, length: usize) -> Option<Vec<u8>> {
        let fill = 0;
        let call = TextCall::Write { word, length, fill };
        let TextReply { value, buffer } = self.follower.perform_text(&call);
        Some(buffer?[..value.ok()?].to_vec())
    }

    fn step_until_idle(&mut self) -> io::Result<()> {
        while self.call(Call::Step)? != Reply::Idle {}
        Ok(())
    }
}

/// A byte for buffers: mostly one that no text has, now and then one that any
/// text may have.
fn any_fill(rng: &mut Rng) -> u8 {
    rng.pick(&[0, 46, 120, 170, 255, 40, 32, 35])
}

/// A settled store in which the cells 1 to C were taken and all but `kept` of
/// them given up one by one, so that the free chain is in no order. The queue's
/// place is somewhere, and some cells contain clipped readings.
fn scattered(rng: &mut Rng, cells: u16, kept: u16) -> Follower {
    let mut follower = Follower::fresh(cells);
    for _ in 0..cells {
        follower.perform(Call::Cons(NIL, atoms::storable(rng)));
        follower.drain();
    }
    let mut all: Vec<u16> = (1..=cells).collect();
    for _ in kept..cells {
        let next = rng.below(all.len());
        follower.perform(Call::Down(all.swap_remove(next), 1));
        follower.drain();
    }
    if kept > 0 {
        for _ in 0..rng.below(64) {
            follower.perform(Call::Up(all[0], 1));
            follower.drain();
        }
    }
    atoms::clip_some(rng, &mut follower.store);
    follower
}

/// `n` bytes, the given ones again and again.
fn cycle(bytes: &[u8], n: usize) -> Vec<u8> {
    bytes.iter().copied().cycle().take(n).collect()
}

/// The flat list of `n` atoms, which has `n` pairs.
fn flat(rng: &mut Rng, n: usize) -> Vec<u8> {
    let values: Vec<String> = (0..n).map(|_| rng.below(10).to_string()).collect();
    format!("({})", values.join(" ")).into_bytes()
}

/// Some text of exactly `n` pairs that isn't too deep.
fn some_pairs(rng: &mut Rng, n: usize) -> Vec<u8> {
    if n == 0 {
        return rng.pick(&[&b"()"[..], b"7", b" ( ) ", b"4094"]).to_vec();
    }
    match rng.below(if n <= 30 { 6 } else { 4 }) {
        0 => flat(rng, n),
        1 => {
            // The last part after a dot.
            let mut text = flat(rng, n);
            text.pop();
            text.extend(b".8)");
            text
        }
        2 => {
            // Groups of a list in a list: each group is one pair outside.
            let mut text = vec![b'('];
            let mut left = n;
            while left > 0 {
                let inside = rng.below(left.min(6));
                text.extend(match inside {
                    0 => b"()".to_vec(),
                    _ => flat(rng, inside),
                });
                left -= inside + 1;
            }
            text.push(b')');
            text
        }
        // All but one in the part after the dot, or in the first element.
        4 => format!("{}(){}", "(1 . ".repeat(n), ")".repeat(n)).into_bytes(),
        5 => format!("{}2{}", "(".repeat(n), ".3)".repeat(n)).into_bytes(),
        _ => {
            let mut text = vec![b'('];
            text.extend(vec![&b"()"[..]; n].concat());
            text.push(b')');
            text
        }
    }
}
