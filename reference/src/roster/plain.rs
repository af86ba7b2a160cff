//! A plain list of seat and reading.

#[derive(Clone, Copy, Debug, PartialEq, Eq)]
struct Entry {
    seat: u16,
    reading: u16,
}

/// Seats with a reading each, every seat at most once, in the order they came.
#[derive(Clone, Debug, Default, PartialEq, Eq)]
pub struct Roster {
    list: Vec<Entry>,
}

impl Roster {
    pub fn empty() -> Roster {
        Roster::default()
    }

    pub fn is_empty(&self) -> bool {
        self.list.is_empty()
    }

    /// How many seats are present.
    pub fn present(&self) -> u16 {
        self.list.len() as u16
    }

    /// The seats present, in the order they came.
    pub fn seats(&self) -> impl Iterator<Item = u16> + '_ {
        self.list.iter().map(|entry| entry.seat)
    }

    pub fn look_up(&self, seat: u16) -> Option<u16> {
        let found = self.list.iter().find(|entry| entry.seat == seat);
        found.map(|entry| entry.reading)
    }

    /// Gives a seat its reading, in the stead of the one it had.
    pub fn set(&mut self, seat: u16, reading: u16) {
        match self.list.iter_mut().find(|entry| entry.seat == seat) {
            Some(entry) => entry.reading = reading,
            None => self.list.push(Entry { seat, reading }),
        }
    }

    /// Whether the seat was there.
    pub fn remove(&mut self, seat: u16) -> bool {
        let before = self.list.len();
        self.list.retain(|entry| entry.seat != seat);
        self.list.len() < before
    }

    /// How many seats have a reading at or above the threshold.
    pub fn count(&self, threshold: u16) -> u16 {
        let at_or_above = |entry: &&Entry| entry.reading >= threshold;
        self.list.iter().filter(at_or_above).count() as u16
    }
}
