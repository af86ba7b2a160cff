//! A roster made of cells by the row calls, to see that a store can be what the
//! runner says of it: every seat has a cell of seat and rest and one of reading and
//! next seat. It is one of many that A7 allows. Calls that the papers don't decide
//! are not made.

use super::{scratch_line, words};

use reference::call::{Call, Reply};
use reference::question::Refusal;
use reference::queue::{Packet, Queue};
use reference::store::Store;
use reference::table::*;

struct Cells {
    store: Store,
    word: u16,
}

/// Where a walk has found a seat: the second of its two cells, which is held for it,
/// and the one of the seat before, if any, which is held too.
struct Found {
    second: u16,
    before: Option<u16>,
}

impl Cells {
    /// A row call, which nothing refuses but a lack of cells; the queue is made empty
    /// where it fills up.
    fn try_row(&mut self, call: Call) -> Option<u16> {
        if self.store.queue.count >= 60 {
            self.drain();
        }
        match call.perform(&mut self.store) {
            Reply::Done(word) => Some(word),
            Reply::Refused(Refusal::NoFreeCell) => None,
            reply => panic!("{call:?}: {reply:?}"),
        }
    }

    fn row(&mut self, call: Call) -> u16 {
        self.try_row(call).unwrap()
    }

    fn drain(&mut self) {
        while Call::Step.perform(&mut self.store) != Reply::Idle {}
    }

    fn release(&mut self, word: u16) {
        if word != NIL {
            self.row(Call::Down(word, 1));
        }
    }

    fn find(&mut self, seat: u16) -> Option<Found> {
        let mut first = self.word;
        let mut before = None;
        if first != NIL {
            self.row(Call::Up(first, 1));
        }
        while first != NIL {
            self.row(Call::Up(first, 1));
            let found = self.row(Call::Car(first));
            let second = self.row(Call::Cdr(first));
            if found == FIRST_ATOM + seat {
                return Some(Found { second, before });
            }
            self.row(Call::Up(second, 1));
            first = self.row(Call::Cdr(second));
            self.release(before.replace(second).unwrap_or(NIL));
        }
        self.release(before.unwrap_or(NIL));
        None
    }

    fn set(&mut self, seat: u16, reading: u16) -> String {
        let atom = FIRST_ATOM + reading;
        if let Some(found) = self.find(seat) {
            self.row(Call::ReplaceLeft(found.second, atom));
            self.release(found.second);
            self.release(found.before.unwrap_or(NIL));
            return "OK 0".to_string();
        }
        let Some(second) = self.try_row(Call::Cons(atom, self.word)) else {
            return "NO 8".to_string();
        };
        match self.try_row(Call::Cons(FIRST_ATOM + seat, second)) {
            Some(first) => {
                self.word = first;
                "OK 0".to_string()
            }
            // The roster's hold went into the cell that there was room for.
            None => {
                self.word = self.row(Call::Cdr(second));
                "NO 8".to_string()
            }
        }
    }

    fn look_up(&mut self, seat: u16) -> String {
        let Some(found) = self.find(seat) else {
            return "ABSENT".to_string();
        };
        let reading = self.row(Call::Car(found.second)) - FIRST_ATOM;
        self.release(found.before.unwrap_or(NIL));
        format!("OK {reading}")
    }

    fn remove(&mut self, seat: u16) -> String {
        let Some(found) = self.find(seat) else {
            return "ABSENT".to_string();
        };
        let next = self.row(Call::Cdr(found.second));
        match found.before {
            Some(before) => {
                self.row(Call::ReplaceRight(before, next));
                self.release(before);
            }
            None => {
                self.release(self.word);
                self.word = next;
            }
        }
        "OK 0".to_string()
    }

    fn count(&mut self, threshold: u16) -> String {
        let mut count = 0;
        let mut first = self.word;
        if first != NIL {
            self.row(Call::Up(first, 1));
        }
        while first != NIL {
            let second = self.row(Call::Cdr(first));
            self.row(Call::Up(second, 1));
            let reading = self.row(Call::Car(second)) - FIRST_ATOM;
            count += usize::from(reading >= threshold);
            first = self.row(Call::Cdr(second));
        }
        format!("OK {count}")
    }

    /// The reply, or the number of the question that comes before all cells.
    fn perform(&mut self, code: u16, p: u16, q: u16) -> Result<String, u8> {
        if code == 0 {
            return match Call::Fresh(p).perform(&mut self.store) {
                Reply::Refused(refusal) => Err(refusal as u8),
                _ => {
                    self.word = NIL;
                    Ok("OK 0".to_string())
                }
            };
        }
        if code < 4 && !(1..=600).contains(&p) {
            return Err(15);
        }
        let first = Call::Step.first_questions(&self.store);
        first.map_err(|refusal| refusal as u8)?;
        if code == 1 && q > 32_767 {
            return Err(4);
        }
        if code == 1 && q > 4_094 {
            return Err(14);
        }
        let reply = match code {
            1 => self.set(p, q),
            2 => self.look_up(p),
            3 => self.remove(p),
            _ => self.count(p),
        };
        self.drain();
        Call::Audit.perform(&mut self.store);
        Ok(reply)
    }

    /// The line A, found in the store.
    fn after(&self) -> String {
        let mut copy = self.store.clone();
        copy.scratch = vec![3; MAX_CELLS as usize];
        let broken = match Call::Audit.perform(&mut copy) {
            Reply::Sound => 0,
            Reply::Broken(rule) => rule as u8,
            reply => panic!("{reply:?}"),
        };
        let cells = cells_of(&self.store.table, self.store.table[CELLS]);
        let holds: u32 = cells.iter().map(|cell| u32::from(cell[ROOT_COUNT])).sum();
        let in_use = cells.iter().filter(|cell| cell[STATE] == IN_USE).count();
        let (held, is_cell) = match self.word {
            NIL => (0, 0),
            word => (cells[usize::from(word) - 1][ROOT_COUNT], 1),
        };
        let waiting = self.store.queue.count;
        format!("A {broken} {waiting} {holds} {held} {is_cell} {in_use}")
    }
}

/// What is written for a list in which no line is an error.
pub fn output(list: &str) -> String {
    let mut output = String::new();
    let mut cells = Cells {
        store: Store::zeroed(0, 0),
        word: NIL,
    };
    for line in list.lines() {
        if line.starts_with('#') {
            continue;
        }
        let (letter, rest) = line.split_once(' ').unwrap();
        let numbers: Vec<u16> = rest.split(' ').map(|text| text.parse().unwrap()).collect();
        let Cells { store, word } = &mut cells;
        match letter {
            "T" => {
                *store = Store::zeroed(0, 0);
                store.table = words(&numbers);
                *word = NIL;
            }
            "Q" => {
                store.queue = Queue::empty();
                (store.queue.place, store.queue.count) = (numbers[0], numbers[1]);
                for slot in numbers[3..].chunks(5) {
                    let packet = Packet {
                        kind: slot[1],
                        a: slot[2],
                        b: slot[3],
                        c: slot[4],
                    };
                    store.queue.set_slot(slot[0].into(), packet);
                }
            }
            "S" => store.scratch = words(&numbers),
            "W" => store.table[usize::from(numbers[0])] = numbers[1],
            "V" => *word = numbers[0],
            "U" => output += &format!("{line} UNDECIDED\n"),
            "R" => {
                let before = (cells.store.clone(), cells.word);
                output += &match cells.perform(numbers[0], numbers[1], numbers[2]) {
                    Ok(reply) => {
                        let scratch = scratch_line(&cells.store.scratch);
                        format!("{line} {reply}\n{}\n{scratch}\n", cells.after())
                    }
                    Err(number) => {
                        assert!(before == (cells.store.clone(), cells.word), "{line}");
                        format!("{line} NO {number}\nSAME\n")
                    }
                };
            }
            _ => panic!("{line}"),
        }
    }
    output
}
