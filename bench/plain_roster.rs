//! The seat roster's calls on a plain array: bench/run.sh sets the roster on the cell store beside it, for scale.
//! It reads the calls of a list in the format of `reference roster` and makes them; of the other lines only `T` means
//! something here, a roster of no seats. After an `R` it writes the reply, after a `U` that it is undecided.

use std::hint::black_box;
use std::io::{self, BufWriter, Read, Write};

const SEATS: usize = 600;
const FIRST_ATOM: u16 = 32_768;
const CLIP: u16 = 4_095;

#[derive(Clone, Copy, Default)]
struct Entry {
    seat: u16,
    reading: u16,
}

enum Reply {
    Done(u16),
    Absent,
    Refused(u8),
}

/// The entries stand at the end of the array, the seat that was set last as a new one first, as in the store's list.
struct Roster {
    entries: [Entry; SEATS],
    first: usize,
    cells: usize,
}

impl Roster {
    fn fresh(cells: u16) -> Roster {
        Roster {
            entries: [Entry::default(); SEATS],
            first: SEATS,
            cells: cells.into(),
        }
    }

    fn present(&self) -> &[Entry] {
        &self.entries[self.first..]
    }

    /// The place of a seat in the array, searched from the front.
    fn place(&self, seat: u16) -> Option<usize> {
        let found = self.present().iter().position(|e| e.seat == seat);
        found.map(|i| self.first + i)
    }

    fn set(&mut self, seat: u16, reading: u16) -> Reply {
        if reading >= FIRST_ATOM {
            return Reply::Refused(4);
        }
        if reading >= CLIP {
            return Reply::Refused(14);
        }
        if let Some(i) = self.place(seat) {
            self.entries[i].reading = reading;
            return Reply::Done(0);
        }
        if self.cells < 2 * self.present().len() + 2 {
            return Reply::Refused(8);
        }
        self.first -= 1;
        self.entries[self.first] = Entry { seat, reading };
        Reply::Done(0)
    }

    fn look_up(&self, seat: u16) -> Reply {
        let found = self.place(seat);
        found.map_or(Reply::Absent, |i| Reply::Done(self.entries[i].reading))
    }

    fn remove(&mut self, seat: u16) -> Reply {
        let Some(i) = self.place(seat) else {
            return Reply::Absent;
        };
        self.entries.copy_within(self.first..i, self.first + 1);
        self.first += 1;
        Reply::Done(0)
    }

    fn count(&self, threshold: u16) -> Reply {
        let reached = self.present().iter().filter(|e| e.reading >= threshold);
        Reply::Done(reached.count() as u16)
    }

    fn call(&mut self, code: u16, p: u16, q: u16) -> Reply {
        if (1..=3).contains(&code) && !(1..=SEATS as u16).contains(&p) {
            return Reply::Refused(15);
        }
        match code {
            0 => {
                *self = Roster::fresh(p);
                Reply::Done(0)
            }
            1 => self.set(p, q),
            2 => self.look_up(p),
            3 => self.remove(p),
            _ => self.count(p),
        }
    }
}

/// The first three numbers of a line, 0 where it has fewer.
fn numbers(line: &[u8]) -> [u16; 3] {
    let mut found = [0; 3];
    let words = line.split(|&b| b == b' ').skip(1);
    for (number, word) in found.iter_mut().zip(words) {
        let digits = word.iter().map(|b| u16::from(b % 16));
        *number = digits.fold(0, |n: u16, d| n.wrapping_mul(10).wrapping_add(d));
    }
    found
}

fn write_reply(output: &mut impl Write, reply: Reply) -> io::Result<()> {
    match reply {
        Reply::Done(value) => writeln!(output, " OK {value}"),
        Reply::Absent => writeln!(output, " ABSENT"),
        Reply::Refused(number) => writeln!(output, " NO {number}"),
    }
}

fn main() -> io::Result<()> {
    let mut list = Vec::new();
    io::stdin().read_to_end(&mut list)?;
    let mut output = BufWriter::new(io::stdout().lock());
    let mut roster = Roster::fresh(0);
    for line in list.split(|&b| b == b'\n') {
        match line.first() {
            Some(b'T') => roster = Roster::fresh(0),
            Some(letter @ (b'R' | b'U')) => {
                let [code, p, q] = numbers(line);
                let reply = black_box(roster.call(code, p, q));
                output.write_all(line)?;
                if *letter == b'R' {
                    write_reply(&mut output, reply)?;
                } else {
                    writeln!(output, " UNDECIDED")?;
                }
            }
            _ => {}
        }
    }
    output.flush()
}
