//! A second machine and the checkers of demand 3, written for plainness only:
//! every question and rule is answered by looking at everything it speaks of.
//! Nothing here uses the fast code but its types.
#![allow(dead_code)]

pub mod text;

use std::collections::{BTreeMap, BTreeSet};

use reference::audit::Rule;
use reference::call::{Call, Reply};
use reference::question::Refusal;
use reference::queue::Queue;
use reference::store::Store;

#[derive(Clone, Copy, Debug, Default, PartialEq, Eq)]
pub struct Cell {
    pub left: u16,
    pub right: u16,
    pub root: u16,
    pub count: u16,
    pub state: u16,
    pub named: u16,
}

/// Kind, a, b, c.
pub type Packet = [u16; 4];

/// The cells by number and the waiting packets, oldest first.
#[derive(Clone, Debug)]
pub struct Model {
    pub cells: BTreeMap<u16, Cell>,
    pub packets: Vec<Packet>,
}

pub fn model(store: &Store) -> Model {
    let mut cells = BTreeMap::new();
    for x in 1..=store.table[0] {
        let base = 3 + 6 * (x as usize - 1);
        let words = &store.table[base..base + 6];
        let cell = Cell {
            left: words[0],
            right: words[1],
            root: words[2],
            count: words[3],
            state: words[4],
            named: words[5],
        };
        cells.insert(x, cell);
    }
    let mut packets = Vec::new();
    let mut slot = store.queue.place as usize;
    for _ in 0..store.queue.count {
        packets.push(slot_words(&store.queue, slot));
        slot = if slot == 63 { 0 } else { slot + 1 };
    }
    Model { cells, packets }
}

fn slot_words(queue: &Queue, slot: usize) -> Packet {
    [
        queue.kinds[slot],
        queue.a[slot],
        queue.b[slot],
        queue.c[slot],
    ]
}

fn put_cells(store: &mut Store, model: &Model) {
    for (&x, cell) in &model.cells {
        let base = 3 + 6 * (x as usize - 1);
        store.table[base] = cell.left;
        store.table[base + 1] = cell.right;
        store.table[base + 2] = cell.root;
        store.table[base + 3] = cell.count;
        store.table[base + 4] = cell.state;
        store.table[base + 5] = cell.named;
    }
}

#[derive(Clone, Copy, PartialEq, Eq)]
pub enum Sort {
    Root,
    Cell,
}

/// The last column of the packet table, from left to right. Figure 8's order
/// (A3), which the fast machine has, is another for cons: where the two agree,
/// the order doesn't show.
pub fn changes(packet: Packet) -> Vec<(Sort, u16, i64)> {
    let [kind, a, b, _] = packet;
    match kind {
        1 => vec![(Sort::Root, a, -1), (Sort::Root, b, 1)],
        2 => vec![
            (Sort::Root, a, -1),
            (Sort::Root, b, -1),
            (Sort::Cell, a, 1),
            (Sort::Cell, b, 1),
        ],
        3 | 6 => vec![(Sort::Root, a, -1), (Sort::Cell, a, 1), (Sort::Cell, b, -1)],
        4 => vec![(Sort::Root, a, i64::from(b))],
        5 => vec![(Sort::Root, a, -i64::from(b))],
        _ => panic!("no such kind: {kind}"),
    }
}

impl Model {
    /// One count of each cell plus the waiting changes to it.
    fn settled(&self, sort: Sort) -> BTreeMap<u16, i64> {
        let mut counts: BTreeMap<u16, i64> = BTreeMap::new();
        for (&x, cell) in &self.cells {
            let count = match sort {
                Sort::Root => cell.root,
                Sort::Cell => cell.count,
            };
            counts.insert(x, i64::from(count));
        }
        for &packet in &self.packets {
            for (change_sort, word, amount) in changes(packet) {
                if change_sort == sort {
                    if let Some(count) = counts.get_mut(&word) {
                        *count += amount;
                    }
                }
            }
        }
        counts
    }

    pub fn held_counts(&self) -> BTreeMap<u16, i64> {
        self.settled(Sort::Root)
    }

    /// The fields in cells in use that contain each cell.
    pub fn pointers(&self) -> BTreeMap<u16, usize> {
        let mut found: BTreeMap<u16, usize> = self.cells.keys().map(|&x| (x, 0)).collect();
        for cell in self.cells.values().filter(|cell| cell.state == 1) {
            for word in [cell.left, cell.right] {
                if let Some(number) = found.get_mut(&word) {
                    *number += 1;
                }
            }
        }
        found
    }

    /// The cells that waiting packets name, each as often as they do: once for
    /// each place. Kinds 4 and 5 name a only.
    pub fn places(&self) -> Vec<u16> {
        let mut places = Vec::new();
        for &[kind, a, b, c] in &self.packets {
            places.push(a);
            if kind != 4 && kind != 5 {
                places.push(b);
                places.push(c);
            }
        }
        places.retain(|word| self.cells.contains_key(word));
        places
    }

    /// What the sixth words (A6) are to be, from the packets alone.
    pub fn times_named(&self) -> BTreeMap<u16, u16> {
        let mut times: BTreeMap<u16, u16> = self.cells.keys().map(|&x| (x, 0)).collect();
        for x in self.places() {
            *times.get_mut(&x).unwrap() += 1;
        }
        times
    }

    fn recount(&mut self) {
        for (x, times) in self.times_named() {
            self.cells.get_mut(&x).unwrap().named = times;
        }
    }

    /// Everything reached from these cells, by passes over all cells until a
    /// pass finds nothing more.
    fn reached_from(&self, start: BTreeSet<u16>) -> BTreeSet<u16> {
        let mut reached = start;
        loop {
            let before = reached.len();
            // Up and down again, so that long chains take few rounds.
            for (x, cell) in self.cells.iter().chain(self.cells.iter().rev()) {
                if reached.contains(x) {
                    for word in [cell.left, cell.right] {
                        if self.cells.contains_key(&word) {
                            reached.insert(word);
                        }
                    }
                }
            }
            if reached.len() == before {
                return reached;
            }
        }
    }

    fn reached(&self) -> BTreeSet<u16> {
        // By the queue, as before A6; the fast machine goes by the sixth words.
        let mut roots: BTreeSet<u16> = self.places().into_iter().collect();
        for (&x, cell) in &self.cells {
            if cell.root > 0 {
                roots.insert(x);
            }
        }
        self.reached_from(roots)
    }

    fn in_use(&self, word: u16) -> bool {
        self.cells.get(&word).is_some_and(|cell| cell.state == 1)
    }
}

// The questions.

fn question_1(store: &Store) -> bool {
    let table = &store.table;
    if table.len() < 3 {
        return false;
    }
    let c = table[0];
    (1..=4096).contains(&c)
        && table[1] <= c
        && table[2] <= c
        && store.queue.place < 64
        && store.queue.count <= 64
        && table.len() >= 3 + 6 * c as usize
}

fn legal(word: u16, c: u16) -> bool {
    word == 0 || (1..=c).contains(&word) || word >= 32768
}

/// The words that a call stores in a cell.
fn stored_by(call: Call) -> Vec<u16> {
    match call {
        Call::Cons(x, y) => vec![x, y],
        Call::ReplaceLeft(_, y) | Call::ReplaceRight(_, y) => vec![y],
        _ => vec![],
    }
}

/// A5: the atoms of values 4,095 to 32,767.
pub fn clipped(word: u16) -> bool {
    (32768 + 4095..=32768 + 32767).contains(&word)
}

/// Questions 1 to 5 and 14; the number of the first "no".
pub fn first_questions(store: &Store, call: Call) -> Result<(), u8> {
    let numbers: &[u16] = match &call {
        Call::Up(_, n) | Call::Down(_, n) => &[*n],
        _ => &[],
    };
    let (words, x): (Vec<u16>, Option<u16>) = match call {
        Call::Fresh(c) => {
            if !(1..=4096).contains(&c) {
                return Err(3);
            }
            if store.table.len() < 3 + 6 * c as usize {
                return Err(1);
            }
            return Ok(());
        }
        // A1: a read of nil is asked questions 1 and 4 only.
        Call::Car(0) | Call::Cdr(0) => (vec![0], None),
        Call::Car(x) | Call::Cdr(x) | Call::Up(x, _) | Call::Down(x, _) => (vec![x], Some(x)),
        Call::Cons(x, y) => (vec![x, y], None),
        Call::ReplaceLeft(x, y) | Call::ReplaceRight(x, y) => (vec![x, y], Some(x)),
        Call::Step | Call::Audit => (vec![], None),
    };
    if !question_1(store) {
        return Err(1);
    }
    let c = store.table[0];
    if matches!(call, Call::Step | Call::Audit) && store.scratch.len() < c as usize {
        return Err(2);
    }
    if numbers.iter().any(|n| !(1..=4095).contains(n)) {
        return Err(3);
    }
    if words.iter().any(|&word| !legal(word, c)) {
        return Err(4);
    }
    if x.is_some_and(|x| !(1..=c).contains(&x)) {
        return Err(5);
    }
    if stored_by(call).into_iter().any(clipped) {
        return Err(14);
    }
    Ok(())
}

/// The cells that a call names, each as often as it names them.
fn names(call: Call, model: &Model) -> Vec<u16> {
    let words = match call {
        Call::Car(x) | Call::Cdr(x) | Call::Up(x, _) => vec![x],
        Call::Cons(x, y) | Call::ReplaceLeft(x, y) | Call::ReplaceRight(x, y) => vec![x, y],
        Call::Down(x, n) => vec![x; n as usize],
        Call::Fresh(_) | Call::Step | Call::Audit => vec![],
    };
    words
        .into_iter()
        .filter(|word| model.cells.contains_key(word))
        .collect()
}

/// Makes the call on a sound store (any store for fresh, audit and a read of
/// nil).
pub fn perform(store: &mut Store, call: Call) -> Reply {
    match attempt(store, call) {
        Ok((after, reply)) => {
            *store = after;
            reply
        }
        Err(number) => Reply::Refused(refusal(number)),
    }
}

pub fn refusal(number: u8) -> Refusal {
    [
        Refusal::Store,
        Refusal::Scratch,
        Refusal::Number,
        Refusal::Word,
        Refusal::NotCell,
        Refusal::NotHeld,
        Refusal::QueueFull,
        Refusal::NoFreeCell,
        Refusal::HeldCount,
        Refusal::Pointers,
        Refusal::Outside,
        Refusal::Deep,
        Refusal::Buffer,
        Refusal::Clipped,
    ][number as usize - 1]
}

/// The store after the call and the reply, or the number of the refusal.
fn attempt(store: &Store, call: Call) -> Result<(Store, Reply), u8> {
    first_questions(store, call)?;
    match call {
        Call::Fresh(c) => return Ok((fresh(store, c), Reply::Done(0))),
        Call::Audit => {
            let mut after = store.clone();
            for i in 0..store.table[0] as usize {
                after.scratch[i] = 0;
            }
            let reply = match audit(store) {
                None => Reply::Sound,
                Some(rule) => Reply::Broken(rule),
            };
            return Ok((after, reply));
        }
        Call::Step => return Ok(step(store)),
        // A1: it replies nil and leaves the store as it is.
        Call::Car(0) | Call::Cdr(0) => return Ok((store.clone(), Reply::Done(0))),
        _ => {}
    }
    let before = model(store);
    let named = names(call, &before);
    let held = before.held_counts();
    for x in named.iter().collect::<BTreeSet<_>>() {
        let times = named.iter().filter(|&y| y == x).count();
        if held[x] < times as i64 {
            return Err(6);
        }
    }
    if before.packets.len() >= 64 {
        return Err(7);
    }
    if matches!(call, Call::Cons(..)) && !before.cells.values().any(|cell| cell.state == 0) {
        return Err(8);
    }
    let (after, value) = row_call(store, &before, call);
    let then = model(&after);
    if then.held_counts().values().any(|&count| count > 4095) {
        return Err(9);
    }
    if then.pointers().values().any(|&number| number > 4095) {
        return Err(10);
    }
    Ok((after, Reply::Done(value)))
}

fn fresh(store: &Store, c: u16) -> Store {
    let mut after = store.clone();
    after.table[0] = c;
    after.table[1] = 1;
    after.table[2] = c;
    for x in 1..=c as usize {
        let next = if x == c as usize { 0 } else { x as u16 + 1 };
        for (i, word) in [next, 0, 0, 0, 0, 0].into_iter().enumerate() {
            after.table[3 + 6 * (x - 1) + i] = word;
        }
    }
    after.queue = Queue {
        kinds: [0; 64],
        a: [0; 64],
        b: [0; 64],
        c: [0; 64],
        place: 0,
        count: 0,
    };
    after
}

/// The store after a row call that nothing refuses, and its value.
fn row_call(store: &Store, before: &Model, call: Call) -> (Store, u16) {
    let mut after = store.clone();
    let mut then = before.clone();
    let (packet, value): (Packet, u16) = match call {
        Call::Car(x) => {
            let word = before.cells[&x].left;
            ([1, x, word, 0], word)
        }
        Call::Cdr(x) => {
            let word = before.cells[&x].right;
            ([1, x, word, 0], word)
        }
        Call::Cons(x, y) => {
            let new = store.table[1];
            let next = before.cells[&new].left;
            after.table[1] = next;
            if next == 0 {
                after.table[2] = 0;
            }
            let cell = Cell {
                left: x,
                right: y,
                root: 1,
                count: 0,
                state: 1,
                named: 0,
            };
            then.cells.insert(new, cell);
            ([2, x, y, new], new)
        }
        Call::ReplaceLeft(x, y) => {
            let detached = before.cells[&x].left;
            then.cells.get_mut(&x).unwrap().left = y;
            ([3, y, detached, x], detached)
        }
        Call::ReplaceRight(x, y) => {
            let detached = before.cells[&x].right;
            then.cells.get_mut(&x).unwrap().right = y;
            ([6, y, detached, x], detached)
        }
        Call::Up(x, n) => ([4, x, n, 0], 0),
        Call::Down(x, n) => ([5, x, n, 0], 0),
        Call::Fresh(_) | Call::Step | Call::Audit => unreachable!(),
    };
    then.packets.push(packet);
    then.recount();
    put_cells(&mut after, &then);
    let mut slot = store.queue.place as usize;
    for _ in 0..store.queue.count {
        slot = if slot == 63 { 0 } else { slot + 1 };
    }
    after.queue.kinds[slot] = packet[0];
    after.queue.a[slot] = packet[1];
    after.queue.b[slot] = packet[2];
    after.queue.c[slot] = packet[3];
    after.queue.count += 1;
    (after, value)
}

fn step(store: &Store) -> (Store, Reply) {
    let mut after = store.clone();
    let mut then = model(store);
    if then.packets.is_empty() {
        return (after, Reply::Idle);
    }
    // Apply the oldest packet.
    let packet = then.packets.remove(0);
    then.recount();
    for (sort, word, amount) in changes(packet) {
        if let Some(cell) = then.cells.get_mut(&word) {
            let count = match sort {
                Sort::Root => &mut cell.root,
                Sort::Cell => &mut cell.count,
            };
            *count = u16::try_from(i64::from(*count) + amount).expect("a count below 0");
        }
    }
    // It leaves the queue.
    let slot = store.queue.place as usize;
    after.queue.kinds[slot] = 0;
    after.queue.a[slot] = 0;
    after.queue.b[slot] = 0;
    after.queue.c[slot] = 0;
    after.queue.place = if slot == 63 { 0 } else { slot as u16 + 1 };
    after.queue.count -= 1;
    // Free what is not reached.
    let reached = then.reached();
    let dead: Vec<u16> = then
        .cells
        .iter()
        .filter(|(x, cell)| cell.state == 1 && !reached.contains(x))
        .map(|(&x, _)| x)
        .collect();
    for x in &dead {
        let Cell { left, right, .. } = then.cells[x];
        for word in [left, right] {
            if let Some(cell) = then.cells.get_mut(&word) {
                cell.count = cell.count.checked_sub(1).expect("a count below 0");
            }
        }
    }
    // A8: they stand before the cells that were free, the lowest number first. The
    // whole chain is laid out anew.
    let mut chain = dead.clone();
    chain.extend(free_chain(store));
    for &x in &dead {
        let cell = then.cells.get_mut(&x).unwrap();
        let counts = (cell.root, cell.count, cell.named);
        assert_eq!(counts, (0, 0, 0), "freed with counts");
        *cell = Cell::default();
    }
    after.table[1] = chain.first().copied().unwrap_or(0);
    after.table[2] = chain.last().copied().unwrap_or(0);
    for (i, x) in chain.iter().enumerate() {
        let next = chain.get(i + 1).copied().unwrap_or(0);
        then.cells.get_mut(x).unwrap().left = next;
    }
    put_cells(&mut after, &then);
    for i in 0..store.table[0] as usize {
        after.scratch[i] = 0;
    }
    let reply = Reply::Taken {
        kind: packet[0],
        freed: dead.len() as u16,
    };
    (after, reply)
}

/// The free cells of a sound store, in the chain's order.
pub fn free_chain(store: &Store) -> Vec<u16> {
    let cells = model(store).cells;
    let mut chain = Vec::new();
    let mut next = store.table[1];
    while next != 0 {
        chain.push(next);
        next = cells[&next].left;
    }
    chain
}

/// Whether a field of a cell in use is a clipped reading.
pub fn contains_clipped(store: &Store) -> bool {
    let model = model(store);
    let mut in_use = model.cells.values().filter(|cell| cell.state == 1);
    in_use.any(|cell| clipped(cell.left) || clipped(cell.right))
}

// The audit, for a store that passes question 1.

pub fn audit(store: &Store) -> Option<Rule> {
    let model = model(store);
    if !s1(&model) {
        return Some(Rule::Cells);
    }
    if !s2(store, &model) {
        return Some(Rule::FreeChain);
    }
    if !s3(store, &model) {
        return Some(Rule::Packets);
    }
    if !s4(&model) {
        return Some(Rule::Pointers);
    }
    if !s5(&model) {
        return Some(Rule::Reached);
    }
    None
}

fn s1(model: &Model) -> bool {
    for cell in model.cells.values() {
        if cell.state > 1 || cell.root > 4095 || cell.count > 4095 {
            return false;
        }
        if cell.state == 1 {
            for word in [cell.left, cell.right] {
                if !(word == 0 || word >= 32768 || model.in_use(word)) {
                    return false;
                }
            }
        }
    }
    true
}

fn s2(store: &Store, model: &Model) -> bool {
    // The chain, as far as it goes without meeting a cell again.
    let mut chain: Vec<u16> = Vec::new();
    let mut next = store.table[1];
    while next != 0 {
        if chain.contains(&next) || !model.cells.contains_key(&next) {
            return false;
        }
        chain.push(next);
        next = model.cells[&next].left;
    }
    let mut met = chain.clone();
    met.sort();
    let free: Vec<u16> = model
        .cells
        .iter()
        .filter(|(_, cell)| cell.state == 0)
        .map(|(&x, _)| x)
        .collect();
    let ends_at_last = chain.last().copied().unwrap_or(0) == store.table[2];
    let laid_out = free.iter().all(|x| {
        let cell = model.cells[x];
        cell.right == 0 && cell.root == 0 && cell.count == 0 && cell.named == 0
    });
    met == free && ends_at_last && laid_out
}

fn s3(store: &Store, model: &Model) -> bool {
    for slot in 0..64u16 {
        let after_first = (slot + 64 - store.queue.place) % 64;
        let waiting = after_first < store.queue.count;
        if !waiting && slot_words(&store.queue, slot as usize) != [0; 4] {
            return false;
        }
    }
    let c = model.cells.len() as u16;
    let usable = |word: u16| legal(word, c) && (word == 0 || word >= 32768 || model.in_use(word));
    let mut held: BTreeMap<u16, i64> = model
        .cells
        .iter()
        .map(|(&x, cell)| (x, i64::from(cell.root)))
        .collect();
    for &packet in &model.packets {
        let [kind, a, b, c] = packet;
        // Form, and the words that the call named.
        let (well_formed, call_names) = match kind {
            1 => (model.in_use(a) && usable(b) && c == 0, vec![a]),
            2 => (usable(a) && usable(b) && model.in_use(c), vec![a, b]),
            3 | 6 => (usable(a) && usable(b) && model.in_use(c), vec![c, a]),
            4 => (
                model.in_use(a) && (1..=4095).contains(&b) && c == 0,
                vec![a],
            ),
            5 => (
                model.in_use(a) && (1..=4095).contains(&b) && c == 0,
                vec![a; b as usize],
            ),
            _ => (false, vec![]),
        };
        if !well_formed {
            return false;
        }
        let cells_named: BTreeSet<u16> = call_names
            .iter()
            .copied()
            .filter(|x| held.contains_key(x))
            .collect();
        for x in &cells_named {
            let times = call_names.iter().filter(|y| *y == x).count();
            if held[x] < times as i64 {
                return false;
            }
        }
        for (sort, word, amount) in changes(packet) {
            if sort == Sort::Root {
                if let Some(count) = held.get_mut(&word) {
                    *count += amount;
                }
            }
        }
        if held.values().any(|&count| count > 4095) {
            return false;
        }
    }
    // A6: the sixth word is how often waiting packets name the cell.
    let times = model.times_named();
    model.cells.iter().all(|(x, cell)| cell.named == times[x])
}

fn s4(model: &Model) -> bool {
    let too_many = |model: &Model| model.pointers().values().any(|&number| number > 4095);
    let mut undone = model.clone();
    if too_many(&undone) {
        return false;
    }
    for &[kind, a, b, c] in model.packets.iter().rev() {
        if kind == 2 {
            let cell = undone.cells.get_mut(&c).unwrap();
            if cell.left != a || cell.right != b {
                return false;
            }
            cell.left = 0;
            cell.right = 0;
        }
        if kind == 3 || kind == 6 {
            let cell = undone.cells.get_mut(&c).unwrap();
            let field = if kind == 3 {
                &mut cell.left
            } else {
                &mut cell.right
            };
            if *field != a {
                return false;
            }
            *field = b;
        }
        if too_many(&undone) {
            return false;
        }
    }
    let pointers = undone.pointers();
    model
        .cells
        .iter()
        .all(|(x, cell)| usize::from(cell.count) == pointers[x])
}

fn s5(model: &Model) -> bool {
    let reached = model.reached();
    model
        .cells
        .iter()
        .all(|(x, cell)| cell.state != 1 || reached.contains(x))
}

// Demand 3.

/// Holds, told from calls and replies alone.
#[derive(Default)]
pub struct Holds {
    cells: u16,
    holds: BTreeMap<u16, i64>,
}

impl Holds {
    pub fn of(&self, x: u16) -> i64 {
        self.holds.get(&x).copied().unwrap_or(0)
    }

    fn change(&mut self, word: u16, amount: i64) {
        if (1..=self.cells).contains(&word) {
            *self.holds.entry(word).or_insert(0) += amount;
        }
    }

    /// A text read gains one hold of the word it replies (A4).
    pub fn note_read(&mut self, word: u16) {
        self.change(word, 1);
    }

    pub fn note(&mut self, call: Call, reply: Reply) {
        let Reply::Done(value) = reply else {
            return;
        };
        match call {
            Call::Fresh(c) => {
                self.cells = c;
                self.holds.clear();
            }
            Call::Car(x) | Call::Cdr(x) => {
                self.change(x, -1);
                self.change(value, 1);
            }
            Call::Cons(x, y) => {
                self.change(x, -1);
                self.change(y, -1);
                self.change(value, 1);
            }
            Call::ReplaceLeft(_, y) | Call::ReplaceRight(_, y) => self.change(y, -1),
            Call::Up(x, n) => self.change(x, i64::from(n)),
            Call::Down(x, n) => self.change(x, -i64::from(n)),
            Call::Step | Call::Audit => {}
        }
    }
}

/// The facts of demand 3 about one store; says which one is broken.
pub fn check_facts(store: &Store, holds: &Holds) -> Result<(), String> {
    let model = model(store);
    let pointers = model.pointers();
    for (x, count) in model.held_counts() {
        if count != holds.of(x) {
            return Err(format!("held count of {x} isn't its holds"));
        }
    }
    for (x, count) in model.settled(Sort::Cell) {
        if count != pointers[&x] as i64 {
            return Err(format!(
                "cell count of {x} with its changes isn't its pointers"
            ));
        }
    }
    let held: BTreeSet<u16> = model
        .cells
        .keys()
        .copied()
        .filter(|&x| holds.of(x) > 0)
        .collect();
    for x in model.reached_from(held.clone()) {
        if model.cells[&x].state == 0 {
            return Err(format!("{x} is reached from a held cell and free"));
        }
    }
    let held_or_named = held.into_iter().chain(model.places()).collect();
    let kept = model.reached_from(held_or_named);
    for (x, cell) in &model.cells {
        if cell.state == 1 && !kept.contains(x) {
            return Err(format!(
                "{x} is in use, and neither held nor named reach it"
            ));
        }
    }
    for (x, times) in model.times_named() {
        if model.cells[&x].named != times {
            return Err(format!("{x} isn't named as often as its sixth word says"));
        }
    }
    if let Some(rule) = audit(store) {
        return Err(format!("the store breaks {rule:?}"));
    }
    Ok(())
}
