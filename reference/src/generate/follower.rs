//! A store and the holds that its caller has, told from calls and replies
//! alone, from which the next call is chosen.

use super::atoms;
use super::rng::Rng;
use crate::call::{Call, Reply};
use crate::queue::Queue;
use crate::store::Store;
use crate::table::*;
use crate::text_call::{TextCall, TextReply};

pub struct Follower {
    pub store: Store,
    /// Holds of cells 1 to C, at index 1 to C.
    holds: Vec<u16>,
    /// The held cells in no order, and where each stands there.
    held: Vec<u16>,
    position: Vec<usize>,
    /// Whether lively calls fill the store just now; else they empty it.
    growing: bool,
}

/// How often each sort of call is chosen, where it can be accepted.
#[derive(Clone, Copy)]
pub struct Mix {
    pub nil_read: usize,
    pub read: usize,
    pub cons: usize,
    pub replace: usize,
    pub up: usize,
    pub down: usize,
    pub step: usize,
}

impl Mix {
    fn without_nil_reads(self) -> usize {
        self.read + self.cons + self.replace + self.up + self.down + self.step
    }
}

/// What `refused_call` has calls for.
pub const QUESTIONS: [usize; 8] = [3, 4, 5, 6, 7, 8, 9, 14];

pub fn nil_read(rng: &mut Rng) -> Call {
    rng.pick(&[Call::Car(NIL), Call::Cdr(NIL)])
}

impl Follower {
    pub fn new(store: Store) -> Follower {
        Follower {
            store,
            holds: vec![0; MAX_CELLS as usize + 1],
            held: Vec::new(),
            position: vec![0; MAX_CELLS as usize + 1],
            growing: true,
        }
    }

    /// A store of `cells` cells after fresh, with just enough table and
    /// scratch.
    pub fn fresh(cells: u16) -> Follower {
        let mut follower = Follower::new(Store::zeroed(length(cells), cells as usize));
        follower.perform(Call::Fresh(cells));
        follower
    }

    pub fn cells(&self) -> u16 {
        self.store.table[CELLS]
    }

    pub fn holds(&self, x: u16) -> u16 {
        self.holds[x as usize]
    }

    pub fn queue_full(&self) -> bool {
        self.store.queue.count as usize == Queue::SLOTS
    }

    pub fn no_free_cell(&self) -> bool {
        self.store.table[FIRST_FREE] == NIL
    }

    pub fn perform(&mut self, call: Call) -> Reply {
        let reply = call.perform(&mut self.store);
        if let Reply::Done(value) = reply {
            self.note(call, value);
        }
        reply
    }

    /// A text read gains one hold of its word; writing moves none.
    pub fn perform_text(&mut self, call: &TextCall) -> TextReply {
        let reply = call.perform(&mut self.store);
        if let (TextCall::Read(_), Ok(word)) = (call, reply.value) {
            self.gain(word as u16, 1);
        }
        reply
    }

    /// Steps until the queue is empty.
    pub fn drain(&mut self) {
        while self.perform(Call::Step) != Reply::Idle {}
    }

    fn note(&mut self, call: Call, value: u16) {
        match call {
            Call::Fresh(_) => {
                self.holds.fill(0);
                self.held.clear();
            }
            Call::Car(x) | Call::Cdr(x) => {
                self.lose(x, 1);
                self.gain(value, 1);
            }
            Call::Cons(x, y) => {
                self.lose(x, 1);
                self.lose(y, 1);
                self.gain(value, 1);
            }
            Call::ReplaceLeft(_, y) | Call::ReplaceRight(_, y) => self.lose(y, 1),
            Call::Up(x, n) => self.gain(x, n),
            Call::Down(x, n) => self.lose(x, n),
            Call::Step | Call::Audit => {}
        }
    }

    fn gain(&mut self, word: u16, n: u16) {
        if !is_cell(word, self.cells()) {
            return;
        }
        if self.holds(word) == 0 {
            self.position[word as usize] = self.held.len();
            self.held.push(word);
        }
        self.holds[word as usize] += n;
    }

    fn lose(&mut self, word: u16, n: u16) {
        if !is_cell(word, self.cells()) {
            return;
        }
        self.holds[word as usize] -= n;
        if self.holds(word) == 0 {
            let hole = self.position[word as usize];
            self.held.swap_remove(hole);
            if let Some(&moved) = self.held.get(hole) {
                self.position[moved as usize] = hole;
            }
        }
    }

    pub fn held_cell(&self, rng: &mut Rng) -> Option<u16> {
        (!self.held.is_empty()).then(|| rng.pick(&self.held))
    }

    /// Nil, an atom or a held cell.
    pub fn operand(&self, rng: &mut Rng) -> u16 {
        match rng.below(8) {
            0 | 1 => NIL,
            2 | 3 => atoms::lively(rng),
            _ => self.held_cell(rng).unwrap_or(NIL),
        }
    }

    pub fn illegal_word(&self, rng: &mut Rng) -> u16 {
        let low = self.cells() + 1;
        match rng.below(3) {
            0 => low,
            1 => FIRST_ATOM - 1,
            _ => rng.within(low, FIRST_ATOM - 1),
        }
    }

    /// A call that is accepted as a rule: only the ceilings can refuse it, a
    /// clipped reading, and a full queue where the mix has no steps.
    pub fn lively_call(&mut self, rng: &mut Rng, mix: Mix) -> Call {
        // Accepted at any time, with a full queue and with nothing held too.
        if rng.weighted(&[mix.nil_read, mix.without_nil_reads()]) == 0 {
            return nil_read(rng);
        }
        if self.no_free_cell() {
            self.growing = false;
        } else if self.held.len() <= self.cells() as usize / 8 {
            self.growing = true;
        }
        if self.queue_full() && mix.step > 0 {
            return Call::Step;
        }
        let Some(x) = self.held_cell(rng) else {
            return if self.no_free_cell() {
                Call::Step
            } else {
                Call::Cons(NIL, atoms::lively(rng))
            };
        };
        let (cons, down) = match (self.growing, self.no_free_cell()) {
            (true, _) => (2 * mix.cons, mix.down / 4),
            (false, true) => (0, 3 * mix.down),
            (false, false) => (mix.cons / 4, 3 * mix.down),
        };
        match rng.weighted(&[mix.read, cons, mix.replace, mix.up, down, mix.step]) {
            0 => rng.pick(&[Call::Car(x), Call::Cdr(x)]),
            1 => {
                let (p, q) = (self.operand(rng), self.operand(rng));
                if p == q && is_cell(p, self.cells()) && self.holds(p) < 2 {
                    Call::Cons(p, NIL)
                } else {
                    Call::Cons(p, q)
                }
            }
            2 => {
                let y = match self.operand(rng) {
                    y if y == x && self.holds(x) < 2 => NIL,
                    y => y,
                };
                rng.pick(&[Call::ReplaceLeft(x, y), Call::ReplaceRight(x, y)])
            }
            3 => {
                let room = MAX_COUNT - self.holds(x);
                let n = match rng.below(40) {
                    0 => room,
                    1 => rng.within(1, MAX_COUNT),
                    _ => rng.within(1, 3),
                };
                Call::Up(x, n.clamp(1, room.max(1)))
            }
            4 => {
                let all = self.holds(x);
                Call::Down(
                    x,
                    if rng.one_in(2) {
                        all
                    } else {
                        rng.within(1, all)
                    },
                )
            }
            _ => Call::Step,
        }
    }

    /// A call whose packet names a cell as often as can be, as a rule accepted: up
    /// where there are too few holds for more, now and then a down of all of them,
    /// after which only packets may keep the cell.
    pub fn naming_call(&mut self, rng: &mut Rng) -> Call {
        let Some(x) = self.held_cell(rng) else {
            return if self.no_free_cell() {
                Call::Step
            } else {
                Call::Cons(NIL, NIL)
            };
        };
        let holds = self.holds(x);
        match rng.below(9) {
            0 if holds < 200 => Call::Up(x, rng.within(1, 4)),
            1 => Call::Down(x, holds),
            2 => rng.pick(&[Call::Car(x), Call::Cdr(x)]),
            _ if holds < 2 => Call::Up(x, rng.within(1, 4)),
            3 if !self.no_free_cell() => Call::Cons(x, x),
            4 => rng.pick(&[Call::ReplaceLeft(x, NIL), Call::ReplaceRight(x, NIL)]),
            _ => rng.pick(&[Call::ReplaceLeft(x, x), Call::ReplaceRight(x, x)]),
        }
    }

    /// A call that this question refuses, if the store as it is allows one to
    /// be found easily.
    pub fn refused_call(&self, rng: &mut Rng, question: usize) -> Option<Call> {
        let held = self.held_cell(rng);
        let x = held.unwrap_or(1);
        match question {
            3 => {
                let n = rng.pick(&[0, 4_096, 4_097, u16::MAX]);
                let cells = rng.pick(&[0, 4_097, FIRST_ATOM, u16::MAX]);
                Some(rng.pick(&[Call::Up(x, n), Call::Down(x, n), Call::Fresh(cells)]))
            }
            4 => {
                let bad = self.illegal_word(rng);
                let y = self.operand(rng);
                Some(rng.pick(&[
                    Call::Car(bad),
                    Call::Cdr(bad),
                    Call::Cons(bad, y),
                    Call::Cons(y, bad),
                    Call::ReplaceLeft(x, bad),
                    Call::ReplaceRight(bad, y),
                    Call::ReplaceLeft(NIL, bad),
                    Call::Up(bad, 1),
                    Call::Down(bad, 1),
                ]))
            }
            5 => {
                let no_cell = rng.pick(&[NIL, FIRST_ATOM, u16::MAX]);
                // Of the words that are no cell, a read refuses atoms only.
                let atom = rng.pick(&[FIRST_ATOM, u16::MAX]);
                let y = self.operand(rng);
                Some(rng.pick(&[
                    Call::Car(atom),
                    Call::Cdr(atom),
                    Call::ReplaceLeft(no_cell, y),
                    Call::ReplaceRight(no_cell, y),
                    Call::Up(no_cell, 1),
                    Call::Down(no_cell, 4_095),
                ]))
            }
            6 => {
                let holds = held.map_or(0, |x| self.holds(x));
                let other = rng.within(1, self.cells());
                let mut calls = vec![Call::Down(x, holds + 1)];
                if holds == 1 {
                    calls.extend([
                        Call::Cons(x, x),
                        Call::ReplaceLeft(x, x),
                        Call::ReplaceRight(x, x),
                    ]);
                }
                if self.holds(other) == 0 {
                    calls.extend([
                        Call::Car(other),
                        Call::Cdr(other),
                        Call::Cons(other, x),
                        Call::Cons(x, other),
                        Call::ReplaceLeft(x, other),
                        Call::ReplaceRight(other, NIL),
                        Call::Up(other, 1),
                    ]);
                }
                Some(rng.pick(&calls)).filter(|&call| !matches!(call, Call::Down(_, 4_096)))
            }
            7 if self.queue_full() => Some(match held {
                Some(x) => rng.pick(&[
                    Call::Car(x),
                    Call::Cons(x, NIL),
                    Call::ReplaceLeft(x, NIL),
                    Call::Up(x, 4_095),
                    Call::Down(x, 1),
                ]),
                None => Call::Cons(NIL, NIL),
            }),
            8 if self.no_free_cell() && !self.queue_full() => {
                Some(Call::Cons(held.unwrap_or(NIL), NIL))
            }
            // Whatever else would refuse the call from question 6 on.
            14 => {
                let y = atoms::clipped(rng);
                let word = self.operand(rng);
                let cell = rng.within(1, self.cells());
                Some(rng.pick(&[
                    Call::Cons(y, word),
                    Call::Cons(word, y),
                    Call::Cons(y, cell),
                    Call::Cons(cell, y),
                    Call::ReplaceLeft(x, y),
                    Call::ReplaceRight(x, y),
                    Call::ReplaceLeft(cell, y),
                    Call::ReplaceRight(cell, y),
                ]))
            }
            9 if !self.queue_full() => {
                let x = held?;
                Some(Call::Up(
                    x,
                    rng.within(MAX_COUNT + 1 - self.holds(x), MAX_COUNT),
                ))
            }
            _ => None,
        }
    }
}
