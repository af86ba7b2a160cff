//! The sixth words and the audit a third time, from the words of documents 01 and
//! 02 and over the plain table: nothing here uses the fast code but the types of a
//! store, and nothing the slow machine.
#![allow(dead_code)]

use reference::store::Store;

/// Word `i` (1 to 6) of cell `x`.
pub fn word(store: &Store, x: u16, i: usize) -> u16 {
    store.table[3 + 6 * usize::from(x - 1) + i - 1]
}

fn is_cell(store: &Store, word: u16) -> bool {
    1 <= word && word <= store.table[0]
}

fn in_use(store: &Store, word: u16) -> bool {
    is_cell(store, word) && self::word(store, word, 5) == 1
}

/// Nil, an atom or a cell in use.
fn usable(store: &Store, word: u16) -> bool {
    word == 0 || word >= 32_768 || in_use(store, word)
}

/// Kind, a, b, c of the waiting packets, oldest first.
pub fn packets(store: &Store) -> Vec<[u16; 4]> {
    let queue = &store.queue;
    (0..queue.count)
        .map(|i| usize::from((queue.place + i) % 64))
        .map(|i| [queue.kinds[i], queue.a[i], queue.b[i], queue.c[i]])
        .collect()
}

/// "Kinds 4 and 5 name a only; the others name each cell among a, b, c", "a packet
/// counting once for each place".
pub fn times_named(store: &Store, x: u16) -> usize {
    let mut times = 0;
    for [kind, a, b, c] in packets(store) {
        times += usize::from(a == x);
        if ![4, 5].contains(&kind) {
            times += usize::from(b == x) + usize::from(c == x);
        }
    }
    times
}

/// The first cell whose sixth word isn't the number of times that it is named.
pub fn misnamed(store: &Store) -> Option<u16> {
    (1..=store.table[0]).find(|&x| usize::from(word(store, x, 6)) != times_named(store, x))
}

/// The roots by the queue, and those told from the cell alone.
pub fn roots(store: &Store) -> [Vec<u16>; 2] {
    let all = 1..=store.table[0];
    let by_queue = |x: &u16| word(store, *x, 3) > 0 || times_named(store, *x) > 0;
    let by_cell = |x: &u16| word(store, *x, 3) > 0 || word(store, *x, 6) > 0;
    [
        all.clone().filter(by_queue).collect(),
        all.filter(by_cell).collect(),
    ]
}

/// The number of the lowest rule broken, or 0, for a store that passes question 1.
pub fn audit(store: &Store) -> u8 {
    let rules = [s1, s2, s3, s4, s5];
    let broken = rules.iter().position(|rule| !rule(store));
    broken.map_or(0, |i| i as u8 + 1)
}

/// "States are 0 or 1, counts at most 4,095; fields of cells in use are nil, atoms or
/// cells in use."
fn s1(store: &Store) -> bool {
    (1..=store.table[0]).all(|x| {
        let state = word(store, x, 5);
        let fields = usable(store, word(store, x, 1)) && usable(store, word(store, x, 2));
        state <= 1
            && word(store, x, 3) <= 4_095
            && word(store, x, 4) <= 4_095
            && (state == 0 || fields)
    })
}

/// "The free chain meets each free cell once, from first to last, and free cells are as
/// laid out above": "its other words are 0".
fn s2(store: &Store) -> bool {
    let c = store.table[0];
    let mut met = vec![0; usize::from(c) + 1];
    let (mut x, mut last) = (store.table[1], 0);
    while x != 0 {
        if !is_cell(store, x) || met[usize::from(x)] > 0 {
            return false;
        }
        met[usize::from(x)] += 1;
        last = x;
        x = word(store, x, 1);
    }
    last == store.table[2]
        && (1..=c).all(|x| {
            let free = word(store, x, 5) == 0;
            let others_0 = [2, 3, 4, 6].iter().all(|&i| word(store, x, i) == 0);
            met[usize::from(x)] == usize::from(free) && (!free || others_0)
        })
}

/// "Slots not waiting are zero. Waiting packets have legal kinds and words and name
/// cells in use. Replayed oldest first on the root counts, questions 6 and 9 hold each
/// time." And the sixth word.
fn s3(store: &Store) -> bool {
    let queue = &store.queue;
    for i in queue.count..64 {
        let slot = usize::from((queue.place + i) % 64);
        if (
            queue.kinds[slot],
            queue.a[slot],
            queue.b[slot],
            queue.c[slot],
        ) != (0, 0, 0, 0)
        {
            return false;
        }
    }
    let c = usize::from(store.table[0]);
    // One more than the cells: what is no cell has its changes at 0.
    let mut held = vec![0i64; c + 1];
    for x in 1..=store.table[0] {
        held[usize::from(x)] = i64::from(word(store, x, 3));
    }
    let place = |word: u16| {
        if is_cell(store, word) {
            usize::from(word)
        } else {
            0
        }
    };
    for [kind, a, b, new] in packets(store) {
        let number = (1..=4_095).contains(&b);
        let (formed, names, root): (bool, &[u16], Vec<(u16, i64)>) = match kind {
            1 => {
                let formed = in_use(store, a) && usable(store, b) && new == 0;
                (formed, &[a], vec![(a, -1), (b, 1)])
            }
            2 => {
                let formed = usable(store, a) && usable(store, b) && in_use(store, new);
                (formed, &[a, b], vec![(a, -1), (b, -1)])
            }
            3 | 6 => {
                let formed = usable(store, a) && usable(store, b) && in_use(store, new);
                (formed, &[a, new], vec![(a, -1)])
            }
            4 => {
                let formed = in_use(store, a) && number && new == 0;
                (formed, &[a], vec![(a, i64::from(b))])
            }
            5 => {
                let formed = in_use(store, a) && number && new == 0;
                (formed, &[a], vec![(a, -i64::from(b))])
            }
            _ => return false,
        };
        if !formed {
            return false;
        }
        for &x in names.iter().filter(|&&x| is_cell(store, x)) {
            let times = match kind {
                5 => i64::from(b),
                _ => names.iter().filter(|&&y| y == x).count() as i64,
            };
            if held[place(x)] < times {
                return false;
            }
        }
        for (word, by) in root {
            held[place(word)] += by;
        }
        held[0] = 0;
        if held.iter().any(|&count| count > 4_095) {
            return false;
        }
    }
    misnamed(store).is_none()
}

/// "Undo the packets newest first. A replaced field must hold a, and gets b; a new cell
/// must hold a and b, and gets nil twice. At no stage do more than 4,095 pointers meet
/// one cell; at the end the cell counts are the pointers found."
fn s4(store: &Store) -> bool {
    let c = store.table[0];
    let mut undone = store.clone();
    let pointers = |store: &Store| {
        let mut found = vec![0u32; usize::from(c) + 1];
        for x in (1..=c).filter(|&x| in_use(store, x)) {
            for field in [word(store, x, 1), word(store, x, 2)] {
                if is_cell(store, field) {
                    found[usize::from(field)] += 1;
                }
            }
        }
        found
    };
    let mut found = pointers(&undone);
    for [kind, a, b, x] in packets(store).into_iter().rev() {
        if found.iter().any(|&number| number > 4_095) {
            return false;
        }
        let fields: &[(usize, u16, u16)] = match kind {
            2 => &[(0, a, 0), (1, b, 0)],
            3 => &[(0, a, b)],
            6 => &[(1, a, b)],
            _ => continue,
        };
        for &(side, holds, gets) in fields {
            let field = &mut undone.table[3 + 6 * usize::from(x - 1) + side];
            if *field != holds {
                return false;
            }
            *field = gets;
        }
        found = pointers(&undone);
    }
    found.iter().all(|&number| number <= 4_095)
        && (1..=c).all(|x| u32::from(word(store, x, 4)) == found[usize::from(x)])
}

/// "Every cell in use is reached", the roots being told by the queue.
fn s5(store: &Store) -> bool {
    let mut reached = roots(store)[0].clone();
    let mut next = 0;
    while next < reached.len() {
        let x = reached[next];
        for field in [word(store, x, 1), word(store, x, 2)] {
            if is_cell(store, field) && !reached.contains(&field) {
                reached.push(field);
            }
        }
        next += 1;
    }
    let mut all = 1..=store.table[0];
    all.all(|x| !in_use(store, x) || reached.contains(&x))
}
