//! A second reader of roster lists, slow and by other means: it keeps no list of
//! seats but all that was ever done since the last fresh, and goes through that
//! backwards for each seat.

use super::{scratch_line, words};

/// What was done to a seat: it got a reading, or was taken out.
type Event = (u16, Option<u16>);

/// What a word of the table may be.
#[derive(Clone, Copy)]
enum Known {
    Word(u16),
    /// Nothing is said of it but that it isn't above this.
    UpTo(u16),
}

impl Known {
    fn values(self) -> std::ops::RangeInclusive<u16> {
        match self {
            Known::Word(word) => word..=word,
            Known::UpTo(most) => 0..=most,
        }
    }
}

#[derive(Clone, Copy, PartialEq)]
enum Decision {
    /// The papers give this reply; it says too whether the store is as before.
    Refused(u16),
    Reached,
    /// Not decided, with the call perhaps making changes.
    Open,
    /// Not decided, but refused by question 1 or by a later one.
    OpenRefusal,
}

struct State {
    /// All words, the chain's ends only as far as they are known.
    table: Vec<Known>,
    place: u16,
    count: u16,
    scratch: Vec<u16>,
    /// None where the store is no roster.
    events: Option<Vec<Event>>,
    /// Whether a call was met that isn't decided.
    lost: bool,
}

impl State {
    fn reading(&self, seat: u16) -> Option<u16> {
        let events = self.events.as_ref().unwrap();
        let last = events.iter().rev().find(|event| event.0 == seat);
        last.and_then(|event| event.1)
    }

    fn readings(&self) -> Vec<u16> {
        (1..=600).filter_map(|seat| self.reading(seat)).collect()
    }

    fn exact(&self, index: usize) -> u16 {
        match self.table[index] {
            Known::Word(word) => word,
            Known::UpTo(_) => panic!("C is always known"),
        }
    }

    /// Question 1: whether it passes, if that is known.
    fn question_1(&self) -> Option<bool> {
        if self.table.len() < 3 || self.place > 63 || self.count > 64 {
            return Some(false);
        }
        let cells = self.exact(0);
        let needed = 3 + 6 * usize::from(cells);
        if cells == 0 || cells > 4_096 || self.table.len() < needed {
            return Some(false);
        }
        let ends = [self.table[1], self.table[2]];
        if ends.iter().all(|end| end.values().all(|end| end <= cells)) {
            return Some(true);
        }
        if ends.iter().any(|end| end.values().all(|end| end > cells)) {
            return Some(false);
        }
        None
    }

    /// The questions in A7's order.
    fn decide(&self, code: u16, p: u16, q: u16) -> Decision {
        if code == 0 {
            let words = 3 + 6 * usize::from(p);
            return match p {
                0 | 4_097.. => Decision::Refused(3),
                _ if self.table.len() < words => Decision::Refused(1),
                _ => Decision::Reached,
            };
        }
        if code != 4 && (p == 0 || p > 600) {
            return Decision::Refused(15);
        }
        let passes = self.question_1();
        if passes == Some(false) {
            return Decision::Refused(1);
        }
        match (passes, self.decide_later(code, q)) {
            (None, Decision::Refused(_)) => Decision::OpenRefusal,
            (None, _) => Decision::Open,
            (_, later) => later,
        }
    }

    /// The questions after 1.
    fn decide_later(&self, code: u16, q: u16) -> Decision {
        if self.scratch.len() < usize::from(self.exact(0)) {
            return Decision::Refused(2);
        }
        match (code, q) {
            (1, 32_768..) => Decision::Refused(4),
            (1, 4_095..) => Decision::Refused(14),
            _ => Decision::Reached,
        }
    }

    /// The reply and the lines after it.
    fn answer(&mut self, code: u16, p: u16, q: u16) -> String {
        if code == 0 {
            let mut chain = vec![Known::Word(p), Known::Word(1), Known::Word(p)];
            chain.resize(3 + 6 * usize::from(p), Known::Word(0));
            self.table.splice(..chain.len(), chain);
            (self.place, self.count) = (0, 0);
            self.events = Some(Vec::new());
            return format!("OK 0\nA 0 0 0 0 0 0\n{}\n", scratch_line(&self.scratch));
        }
        let cells = self.exact(0);
        let before = self.readings();
        let was = (code != 4).then(|| self.reading(p)).flatten();
        let mut event = None;
        let reply = match (code, was) {
            (1, None) if i32::from(cells) - 2 * (before.len() as i32) < 2 => "NO 8".to_string(),
            (1, _) => {
                event = Some((p, Some(q)));
                "OK 0".to_string()
            }
            (2 | 3, None) => "ABSENT".to_string(),
            (2, Some(reading)) => format!("OK {reading}"),
            (3, Some(_)) => {
                event = Some((p, None));
                "OK 0".to_string()
            }
            _ => {
                let count = before.iter().filter(|&&reading| reading >= p).count();
                format!("OK {count}")
            }
        };
        self.events.as_mut().unwrap().extend(event);
        for word in &mut self.scratch[..usize::from(cells)] {
            *word = 0;
        }
        self.table[1] = Known::UpTo(cells);
        self.table[2] = Known::UpTo(cells);
        let seats = self.readings().len();
        let one = usize::from(seats != 0);
        let after = format!("A 0 0 {one} {one} {one} {}", seats + seats);
        format!("{reply}\n{after}\n{}\n", scratch_line(&self.scratch))
    }
}

/// What is written for a list, and whether it ends at a line that is an error: an R
/// that isn't decided or a U that is.
pub fn output(list: &str) -> (String, bool) {
    let mut output = String::new();
    let mut state = State {
        table: Vec::new(),
        place: 0,
        count: 0,
        scratch: Vec::new(),
        events: None,
        lost: false,
    };
    for line in list.lines() {
        if line.starts_with('#') {
            continue;
        }
        let (letter, rest) = line.split_once(' ').unwrap();
        let numbers: Vec<u16> = rest.split(' ').map(|text| text.parse().unwrap()).collect();
        match letter {
            "T" => {
                state = State {
                    table: words(&numbers).into_iter().map(Known::Word).collect(),
                    place: 0,
                    count: 0,
                    scratch: Vec::new(),
                    events: None,
                    lost: false,
                };
            }
            "Q" => {
                (state.place, state.count) = (numbers[0], numbers[1]);
                state.events = None;
            }
            "S" => state.scratch = words(&numbers),
            "W" => {
                state.table[usize::from(numbers[0])] = Known::Word(numbers[1]);
                state.events = None;
            }
            "V" => state.events = None,
            "R" | "U" => {
                let [code, p, q] = numbers[..] else {
                    panic!("{line}");
                };
                let decision = match state.decide(code, p, q) {
                    _ if state.lost => Decision::Open,
                    Decision::Reached if code != 0 && state.events.is_none() => Decision::Open,
                    decision => decision,
                };
                let open = matches!(decision, Decision::Open | Decision::OpenRefusal);
                if (letter == "R") == open {
                    return (output, true);
                }
                output += &match decision {
                    Decision::Open => {
                        state.lost = true;
                        format!("{line} UNDECIDED\n")
                    }
                    Decision::OpenRefusal => format!("{line} UNDECIDED\n"),
                    Decision::Refused(number) => format!("{line} NO {number}\nSAME\n"),
                    Decision::Reached => format!("{line} {}", state.answer(code, p, q)),
                };
            }
            _ => panic!("{line}"),
        }
    }
    (output, false)
}
