//! The queue of count packets.

pub const READ: u16 = 1;
pub const CONS: u16 = 2;
pub const REPLACE_LEFT: u16 = 3;
pub const UP: u16 = 4;
pub const DOWN: u16 = 5;
pub const REPLACE_RIGHT: u16 = 6;

#[derive(Clone, Copy, Debug, Default, PartialEq, Eq)]
pub struct Packet {
    pub kind: u16,
    pub a: u16,
    pub b: u16,
    pub c: u16,
}

impl Packet {
    pub const ZERO: Packet = Packet {
        kind: 0,
        a: 0,
        b: 0,
        c: 0,
    };

    /// The words among which the cells that this packet names are found; b of
    /// an up or down is a number, even where it looks like a cell.
    #[inline]
    pub fn named(self) -> [u16; 3] {
        match self.kind {
            UP | DOWN => [self.a, 0, 0],
            _ => [self.a, self.b, self.c],
        }
    }

    /// What taking this packet adds to the root count of cell `x`.
    #[inline]
    pub fn root_change(self, x: u16) -> i32 {
        let a = i32::from(self.a == x);
        let b = i32::from(self.b == x);
        match self.kind {
            READ => b - a,
            CONS => -a - b,
            REPLACE_LEFT | REPLACE_RIGHT => -a,
            UP => a * i32::from(self.b),
            DOWN => -a * i32::from(self.b),
            _ => 0,
        }
    }

    /// What taking this packet adds to the cell count of cell `x`.
    #[inline]
    pub fn cell_change(self, x: u16) -> i32 {
        let a = i32::from(self.a == x);
        let b = i32::from(self.b == x);
        match self.kind {
            CONS => a + b,
            REPLACE_LEFT | REPLACE_RIGHT => a - b,
            _ => 0,
        }
    }
}

/// Slots as parallel arrays, so that any words at all can be put into one.
#[derive(Clone, Debug, PartialEq, Eq)]
pub struct Queue {
    pub kinds: [u16; Queue::SLOTS],
    pub a: [u16; Queue::SLOTS],
    pub b: [u16; Queue::SLOTS],
    pub c: [u16; Queue::SLOTS],
    pub place: u16,
    pub count: u16,
}

impl Queue {
    pub const SLOTS: usize = 64;

    pub const fn empty() -> Queue {
        Queue {
            kinds: [0; Queue::SLOTS],
            a: [0; Queue::SLOTS],
            b: [0; Queue::SLOTS],
            c: [0; Queue::SLOTS],
            place: 0,
            count: 0,
        }
    }

    pub fn slot(&self, i: usize) -> Packet {
        Packet {
            kind: self.kinds[i],
            a: self.a[i],
            b: self.b[i],
            c: self.c[i],
        }
    }

    pub fn set_slot(&mut self, i: usize, packet: Packet) {
        self.kinds[i] = packet.kind;
        self.a[i] = packet.a;
        self.b[i] = packet.b;
        self.c[i] = packet.c;
    }

    /// The slot that lies `n` places after the first, 63 followed by 0.
    #[inline]
    fn slot_after(&self, n: usize) -> usize {
        (self.place as usize + n) % Queue::SLOTS
    }

    /// The waiting packets, oldest first.
    #[inline]
    pub fn waiting(&self) -> impl DoubleEndedIterator<Item = Packet> + '_ {
        (0..self.count as usize).map(|n| self.slot(self.slot_after(n)))
    }

    /// The slots that are not waiting.
    pub fn vacant(&self) -> impl Iterator<Item = Packet> + '_ {
        (self.count as usize..Queue::SLOTS).map(|n| self.slot(self.slot_after(n)))
    }

    pub fn is_full(&self) -> bool {
        self.count as usize >= Queue::SLOTS
    }

    /// Adds a packet; the queue must not be full.
    pub fn push(&mut self, packet: Packet) {
        self.set_slot(self.slot_after(self.count as usize), packet);
        self.count += 1;
    }

    /// Takes the oldest packet and leaves its slot zero.
    pub fn take(&mut self) -> Option<Packet> {
        if self.count == 0 {
            return None;
        }
        let first = self.slot_after(0);
        let packet = self.slot(first);
        self.set_slot(first, Packet::ZERO);
        self.place = self.slot_after(1) as u16;
        self.count -= 1;
        Some(packet)
    }
}
