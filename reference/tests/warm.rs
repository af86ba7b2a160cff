//! Use warm cells (A8): freed cells join the chain at its front, the lowest number
//! of a step's cells first of all. Sessions worked out by hand with the chain after
//! each call, the chain before and after every call of random lists, and other orders
//! beside this one: what the programs are given tells them apart.

mod slow;

use std::fs;
use std::path::Path;

use reference::call::{Call, Reply};
use reference::format::{Line, Reader};
use reference::generate::follower::Follower;
use reference::generate::rng::Rng;
use reference::generate::session::{write as write_session, STYLES};
use reference::generate::sound::{any_call, random_mix};
use reference::generate::texts::random;
use reference::generate::woven::woven;
use reference::generate::{write_list, LISTS};
use reference::queue::{self, Packet};
use reference::states::Runner;
use reference::store::Store;
use reference::table::*;
use reference::text_call::TextCall;
use reference::{load, session};

/// The free chain of a store that passes rule S2: first, next and so on to the last.
fn chain(store: &Store) -> Vec<u16> {
    let mut chain = Vec::new();
    let mut next = store.table[FIRST_FREE];
    while next != NIL {
        chain.push(next);
        assert!(chain.len() <= store.table[CELLS] as usize, "a circle");
        next = store.table[at(next) + LEFT];
    }
    let last = chain.last().copied().unwrap_or(NIL);
    assert_eq!(store.table[LAST_FREE], last);
    chain
}

fn lay_out(store: &mut Store, chain: &[u16]) {
    store.table[FIRST_FREE] = chain.first().copied().unwrap_or(NIL);
    store.table[LAST_FREE] = chain.last().copied().unwrap_or(NIL);
    for (i, &x) in chain.iter().enumerate() {
        store.table[at(x) + LEFT] = chain.get(i + 1).copied().unwrap_or(NIL);
    }
}

fn in_use(store: &Store) -> Vec<u16> {
    let cells = 1..=store.table[CELLS];
    cells
        .filter(|&x| store.table[at(x) + STATE] == IN_USE)
        .collect()
}

/// The cells that a call freed, in ascending order.
fn freed(before: &Store, after: &Store) -> Vec<u16> {
    let mut freed = in_use(before);
    freed.retain(|&x| after.table[at(x) + STATE] == FREE);
    freed
}

fn shown(reply: Reply) -> String {
    match reply {
        Reply::Done(value) | Reply::Taken { freed: value, .. } => format!("OK {value}"),
        Reply::Refused(refusal) => format!("NO {}", refusal as u8),
        Reply::Idle => "IDLE".to_string(),
        other => panic!("{other:?}"),
    }
}

// Worked out by hand.

/// A call, its reply, the free chain after it.
type Worked<'a> = (&'a str, &'a str, &'a [u16]);

fn follow(cells: u16, lines: &[Worked]) -> Store {
    let mut store = Store::zeroed(length(cells), cells as usize);
    for (i, (line, reply, expected)) in lines.iter().enumerate() {
        let call = session::parse(line.as_bytes()).unwrap();
        let mut plain = store.clone();
        let found = call.perform(&mut store);
        assert_eq!(shown(found), *reply, "{i}: {line}");
        assert_eq!(chain(&store), *expected, "{i}: {line}");
        assert_eq!(found, slow::perform(&mut plain, call), "{i}: {line}");
        assert_eq!(store, plain, "{i}: {line}");
        assert_eq!(slow::audit(&store), None, "{i}: {line}");
    }
    store
}

/// "K1's table ends with the chain 1, 2, 3."
#[test]
fn k1() {
    let store = follow(
        3,
        &[
            ("fresh 3", "OK 0", &[1, 2, 3]),
            ("cons 0 32775", "OK 1", &[2, 3]),
            ("cons 1 0", "OK 2", &[3]),
            ("up 2 1", "OK 0", &[3]),
            ("setr 2 2", "OK 0", &[3]),
            ("down 2 1", "OK 0", &[3]),
            ("step", "OK 0", &[3]),
            ("step", "OK 0", &[3]),
            ("step", "OK 0", &[3]),
            ("step", "OK 0", &[3]),
            ("step", "OK 2", &[1, 2, 3]),
            ("step", "IDLE", &[1, 2, 3]),
        ],
    );
    let expected = [
        3, 1, 3, //
        2, 0, 0, 0, 0, 0, //
        3, 0, 0, 0, 0, 0, //
        0, 0, 0, 0, 0, 0,
    ];
    assert_eq!(store.table, expected);
}

/// Freed by one step each: the cell freed last is the first to be taken.
#[test]
fn one_cell_a_step() {
    follow(
        5,
        &[
            ("fresh 5", "OK 0", &[1, 2, 3, 4, 5]),
            ("cons 0 0", "OK 1", &[2, 3, 4, 5]),
            ("cons 0 0", "OK 2", &[3, 4, 5]),
            ("cons 0 0", "OK 3", &[4, 5]),
            ("cons 0 0", "OK 4", &[5]),
            ("down 2 1", "OK 0", &[5]),
            ("down 4 1", "OK 0", &[5]),
            ("down 1 1", "OK 0", &[5]),
            ("step", "OK 0", &[5]),
            ("step", "OK 0", &[5]),
            ("step", "OK 0", &[5]),
            ("step", "OK 0", &[5]),
            ("step", "OK 1", &[2, 5]),
            ("step", "OK 1", &[4, 2, 5]),
            ("step", "OK 1", &[1, 4, 2, 5]),
            ("step", "IDLE", &[1, 4, 2, 5]),
            ("cons 0 0", "OK 1", &[4, 2, 5]),
            ("cons 0 0", "OK 4", &[2, 5]),
            ("down 1 1", "OK 0", &[2, 5]),
            ("step", "OK 0", &[2, 5]),
            ("step", "OK 0", &[2, 5]),
            // Just given up, and the next one taken.
            ("step", "OK 1", &[1, 2, 5]),
            ("cons 3 4", "OK 1", &[2, 5]),
            ("cons 0 1", "OK 2", &[5]),
            ("cons 0 0", "OK 5", &[]),
            ("cons 0 0", "NO 8", &[]),
        ],
    );
}

/// Several freed by one step, with gaps between them, before cells that are free
/// already, lower and higher ones. A step that frees nothing leaves the chain.
#[test]
fn many_cells_a_step() {
    let mut store = follow(
        9,
        &[
            ("fresh 9", "OK 0", &[1, 2, 3, 4, 5, 6, 7, 8, 9]),
            ("cons 0 0", "OK 1", &[2, 3, 4, 5, 6, 7, 8, 9]),
            ("cons 0 0", "OK 2", &[3, 4, 5, 6, 7, 8, 9]),
            ("cons 0 0", "OK 3", &[4, 5, 6, 7, 8, 9]),
            ("cons 0 0", "OK 4", &[5, 6, 7, 8, 9]),
            ("cons 2 0", "OK 5", &[6, 7, 8, 9]),
            ("cons 0 0", "OK 6", &[7, 8, 9]),
            ("cons 5 0", "OK 7", &[8, 9]),
            ("step", "OK 0", &[8, 9]),
            ("step", "OK 0", &[8, 9]),
            ("step", "OK 0", &[8, 9]),
            ("step", "OK 0", &[8, 9]),
            ("step", "OK 0", &[8, 9]),
            ("step", "OK 0", &[8, 9]),
            ("step", "OK 0", &[8, 9]),
            // 7 contains 5, and 5 contains 2.
            ("down 7 1", "OK 0", &[8, 9]),
            ("step", "OK 3", &[2, 5, 7, 8, 9]),
            ("down 3 1", "OK 0", &[2, 5, 7, 8, 9]),
            ("down 6 1", "OK 0", &[2, 5, 7, 8, 9]),
            ("step", "OK 1", &[3, 2, 5, 7, 8, 9]),
            ("step", "OK 1", &[6, 3, 2, 5, 7, 8, 9]),
            ("cons 1 4", "OK 6", &[3, 2, 5, 7, 8, 9]),
            ("down 6 1", "OK 0", &[3, 2, 5, 7, 8, 9]),
            ("step", "OK 0", &[3, 2, 5, 7, 8, 9]),
            ("step", "OK 3", &[1, 4, 6, 3, 2, 5, 7, 8, 9]),
            ("step", "IDLE", &[1, 4, 6, 3, 2, 5, 7, 8, 9]),
        ],
    );
    // Reading text takes them too: (1) first, then the list's pairs, last to first.
    let read = TextCall::Read(b"((1) 2)".to_vec()).perform(&mut store);
    assert_eq!(read.value, Ok(6));
    assert_eq!(chain(&store), [3, 2, 5, 7, 8, 9]);
    let fields = [1, 4, 6].map(|x| (store.table[at(x)], store.table[at(x) + RIGHT]));
    assert_eq!(fields, [(32_769, 0), (32_770, 0), (1, 4)]);
}

/// With no cell free before, the highest number freed is the last free cell; with
/// one, the last stays.
#[test]
fn no_cell_free_before() {
    let store = follow(
        4,
        &[
            ("fresh 4", "OK 0", &[1, 2, 3, 4]),
            ("cons 0 0", "OK 1", &[2, 3, 4]),
            ("cons 1 0", "OK 2", &[3, 4]),
            ("cons 2 0", "OK 3", &[4]),
            ("cons 0 32769", "OK 4", &[]),
            ("step", "OK 0", &[]),
            ("step", "OK 0", &[]),
            ("step", "OK 0", &[]),
            ("step", "OK 0", &[]),
            ("down 3 1", "OK 0", &[]),
            ("step", "OK 3", &[1, 2, 3]),
        ],
    );
    let expected = [
        4, 1, 3, //
        2, 0, 0, 0, 0, 0, //
        3, 0, 0, 0, 0, 0, //
        0, 0, 0, 0, 0, 0, //
        0, 32_769, 1, 0, 1, 0,
    ];
    assert_eq!(store.table, expected);
    follow(
        2,
        &[
            ("fresh 2", "OK 0", &[1, 2]),
            ("cons 0 0", "OK 1", &[2]),
            ("cons 0 0", "OK 2", &[]),
            ("down 2 1", "OK 0", &[]),
            ("down 1 1", "OK 0", &[]),
            ("step", "OK 0", &[]),
            ("step", "OK 0", &[]),
            ("step", "OK 1", &[2]),
            ("step", "OK 1", &[1, 2]),
        ],
    );
    follow(
        1,
        &[
            ("fresh 1", "OK 0", &[1]),
            ("cons 0 0", "OK 1", &[]),
            ("down 1 1", "OK 0", &[]),
            ("step", "OK 0", &[]),
            ("step", "OK 1", &[1]),
            ("cons 0 0", "OK 1", &[]),
        ],
    );
}

/// The whole table where a cell stays between those freed.
#[test]
fn a_cell_stays_between() {
    let store = follow(
        4,
        &[
            ("fresh 4", "OK 0", &[1, 2, 3, 4]),
            ("cons 0 0", "OK 1", &[2, 3, 4]),
            ("cons 0 0", "OK 2", &[3, 4]),
            ("cons 1 2", "OK 3", &[4]),
            ("step", "OK 0", &[4]),
            ("step", "OK 0", &[4]),
            ("step", "OK 0", &[4]),
            ("up 3 1", "OK 0", &[4]),
            ("cdr 3", "OK 2", &[4]),
            ("down 3 1", "OK 0", &[4]),
            ("step", "OK 0", &[4]),
            ("step", "OK 0", &[4]),
            ("step", "OK 2", &[1, 3, 4]),
        ],
    );
    let expected = [
        4, 1, 4, //
        3, 0, 0, 0, 0, 0, //
        0, 0, 1, 0, 1, 0, //
        4, 0, 0, 0, 0, 0, //
        0, 0, 0, 0, 0, 0,
    ];
    assert_eq!(store.table, expected);
}

/// Reads and replaces free cells too: a list walked to its end, a part taken out.
#[test]
fn by_packets_of_other_kinds() {
    follow(
        3,
        &[
            ("fresh 3", "OK 0", &[1, 2, 3]),
            ("cons 32769 0", "OK 1", &[2, 3]),
            ("cons 32770 1", "OK 2", &[3]),
            ("cons 32771 2", "OK 3", &[]),
            ("cdr 3", "OK 2", &[]),
            ("cdr 2", "OK 1", &[]),
            ("cdr 1", "OK 0", &[]),
            ("step", "OK 0", &[]),
            ("step", "OK 0", &[]),
            ("step", "OK 0", &[]),
            ("step", "OK 1", &[3]),
            ("step", "OK 1", &[2, 3]),
            ("step", "OK 1", &[1, 2, 3]),
        ],
    );
    follow(
        5,
        &[
            ("fresh 5", "OK 0", &[1, 2, 3, 4, 5]),
            ("cons 0 0", "OK 1", &[2, 3, 4, 5]),
            ("cons 0 0", "OK 2", &[3, 4, 5]),
            ("cons 2 32769", "OK 3", &[4, 5]),
            ("setl 1 3", "OK 0", &[4, 5]),
            ("setl 1 0", "OK 3", &[4, 5]),
            ("step", "OK 0", &[4, 5]),
            ("step", "OK 0", &[4, 5]),
            ("step", "OK 0", &[4, 5]),
            ("step", "OK 0", &[4, 5]),
            ("step", "OK 2", &[2, 3, 4, 5]),
        ],
    );
}

/// Fresh lays out the chain 1 to C, whatever the order was.
#[test]
fn fresh_begins_anew() {
    follow(
        4,
        &[
            ("fresh 4", "OK 0", &[1, 2, 3, 4]),
            ("cons 0 0", "OK 1", &[2, 3, 4]),
            ("cons 0 0", "OK 2", &[3, 4]),
            ("down 1 1", "OK 0", &[3, 4]),
            ("down 2 1", "OK 0", &[3, 4]),
            ("step", "OK 0", &[3, 4]),
            ("step", "OK 0", &[3, 4]),
            ("step", "OK 1", &[1, 3, 4]),
            ("step", "OK 1", &[2, 1, 3, 4]),
            ("fresh 3", "OK 0", &[1, 2, 3]),
            ("cons 0 0", "OK 1", &[2, 3]),
            ("fresh 4", "OK 0", &[1, 2, 3, 4]),
        ],
    );
}

/// 2,048 cells at once, in a store of 4,096: the odd ones are a ring, the even ones
/// are free, the highest first.
#[test]
fn half_of_4096_cells() {
    let mut store = Store::for_any_fresh();
    store.table[CELLS] = MAX_CELLS;
    let odd: Vec<u16> = (1..=MAX_CELLS).step_by(2).collect();
    let even: Vec<u16> = (1..=MAX_CELLS / 2).rev().map(|half| 2 * half).collect();
    for (i, &x) in odd.iter().enumerate() {
        let next = odd[(i + 1) % odd.len()];
        store.table[at(x)..at(x) + CELL_WORDS].copy_from_slice(&[next, 0, 0, 1, IN_USE, 0]);
    }
    let held = 2_049;
    store.table[at(held) + ROOT_COUNT] = 1;
    store.table[at(held) + NAMED] = 1;
    store.queue.push(Packet {
        kind: queue::DOWN,
        a: held,
        b: 1,
        c: 0,
    });
    lay_out(&mut store, &even);
    assert_eq!(Call::Audit.perform(&mut store), Reply::Sound);
    let taken = Reply::Taken {
        kind: queue::DOWN,
        freed: 2_048,
    };
    assert_eq!(Call::Step.perform(&mut store), taken);
    assert_eq!(chain(&store), [odd, even].concat());
    assert_eq!(Call::Audit.perform(&mut store), Reply::Sound);
    for x in [1, 3, 5] {
        assert_eq!(Call::Cons(NIL, NIL).perform(&mut store), Reply::Done(x));
    }
}

// Before and after every call.

/// Steps that freed cells, by what was free before and how many were freed.
#[derive(Debug, Default)]
struct Steps {
    one: usize,
    two: usize,
    more: usize,
    /// Those of them that found no free cell.
    from_none: usize,
}

impl Steps {
    /// What a call may do to the chain of a sound store.
    fn check(&mut self, before: &Store, call: Call, reply: Reply, after: &Store) {
        let (old, new) = (chain(before), chain(after));
        match (call, reply) {
            (Call::Cons(..), Reply::Done(x)) => assert_eq!(old, [&[x], &new[..]].concat()),
            (Call::Fresh(cells), Reply::Done(_)) => assert!(new.into_iter().eq(1..=cells)),
            (Call::Step, Reply::Taken { freed: number, .. }) => {
                let freed = freed(before, after);
                assert_eq!(freed.len(), usize::from(number));
                assert_eq!(new, [&freed[..], &old].concat(), "{before:?}");
                match number {
                    0 => return,
                    1 => self.one += 1,
                    2 => self.two += 1,
                    _ => self.more += 1,
                }
                self.from_none += usize::from(old.is_empty());
            }
            _ => assert_eq!(old, new, "{call:?}"),
        }
    }

    /// A text read takes a cell from the front for each of its packets.
    fn check_read(before: &Store, after: &Store) {
        let (old, new) = (chain(before), chain(after));
        let known = before.queue.count as usize;
        let taken: Vec<u16> = after.queue.waiting().skip(known).map(|p| p.c).collect();
        assert_eq!(old, [taken, new].concat());
    }
}

#[test]
fn chains_of_random_lists() {
    let mut rng = Rng::new(1);
    let mut steps = Steps::default();
    for i in 0..300 {
        let cells = match i % 10 {
            9 => rng.pick(&[63, 64, 65]),
            _ => rng.within(1, 16),
        };
        let mut follower = Follower::fresh(cells);
        let mix = random_mix(&mut rng);
        for _ in 0..200 {
            let before = follower.store.clone();
            match rng.below(8) {
                0 => {
                    let text = random::text(&mut rng, 2);
                    follower.perform_text(&TextCall::Read(text));
                    Steps::check_read(&before, &follower.store);
                    continue;
                }
                1 => {
                    let call = any_call(&mut rng, follower.cells());
                    let reply = follower.perform(call);
                    steps.check(&before, call, reply, &follower.store);
                }
                _ => {
                    let call = follower.lively_call(&mut rng, mix);
                    let reply = follower.perform(call);
                    steps.check(&before, call, reply, &follower.store);
                }
            }
        }
    }
    let least = steps.one.min(steps.two).min(steps.more);
    assert!(least.min(steps.from_none) > 100, "{steps:?}");
}

/// Sound stores with chains in any order, most of which no list of calls makes.
#[test]
fn chains_of_woven_stores() {
    let mut rng = Rng::new(2);
    let mut steps = Steps::default();
    for _ in 0..1_500 {
        let cells = rng.within(1, 20);
        let waiting = rng.below(65);
        let mut store = woven(&mut rng, cells, waiting);
        loop {
            let before = store.clone();
            let reply = Call::Step.perform(&mut store);
            steps.check(&before, Call::Step, reply, &store);
            if reply == Reply::Idle {
                break;
            }
            if rng.one_in(3) {
                let before = store.clone();
                let reply = Call::Cons(NIL, NIL).perform(&mut store);
                steps.check(&before, Call::Cons(NIL, NIL), reply, &store);
            }
        }
    }
    let least = steps.one.min(steps.from_none);
    assert!(least > 500 && steps.two > 20, "{steps:?}");
}

// Other orders.

/// Makes the chain of the cells freed, ascending, and of the chain before.
type Order = fn(&[u16], &[u16]) -> Vec<u16>;

/// What A8 may be taken for, and what was before it.
const OTHERS: [(&str, Order); 6] = [
    ("at the end", |freed, old| [old, freed].concat()),
    ("highest first", |freed, old| {
        let freed: Vec<u16> = freed.iter().rev().copied().collect();
        [&freed, old].concat()
    }),
    ("lowest first, then the highest", |freed, old| {
        let rest: Vec<u16> = freed[1..].iter().rev().copied().collect();
        [&freed[..1], &rest, old].concat()
    }),
    ("only the lowest at the front", |freed, old| {
        [&freed[..1], old, &freed[1..]].concat()
    }),
    ("at the end, highest first", |freed, old| {
        let freed: Vec<u16> = freed.iter().rev().copied().collect();
        [old, &freed].concat()
    }),
    ("all that is free ascending", |freed, old| {
        let mut all = [freed, old].concat();
        all.sort();
        all
    }),
];

/// Makes a call with freed cells in another order.
fn perform_in(order: Order, store: &mut Store, call: Call) -> Reply {
    let before = store.clone();
    let reply = call.perform(store);
    if let Reply::Taken { freed: 1.., .. } = reply {
        let chain = order(&freed(&before, store), &chain(&before));
        lay_out(store, &chain);
    }
    reply
}

/// Whether the replies to these calls, made in a session's store, tell the order.
fn replies_tell(order: Order, calls: &[Call]) -> bool {
    let mut right = Store::for_any_fresh();
    let mut other = right.clone();
    let mut calls = calls.iter();
    calls.any(|&call| call.perform(&mut right) != perform_in(order, &mut other, call))
}

#[test]
fn sessions_tell_the_orders_apart() {
    for style in STYLES {
        let mut text = Vec::new();
        write_session(&mut Rng::new(3), style, 65, 2_000, &mut text).unwrap();
        let lines = text.split(|&byte| byte == b'\n');
        let calls: Vec<Call> = lines.filter_map(session::parse).collect();
        for (name, order) in OTHERS {
            assert!(replies_tell(order, &calls), "{style}: {name}");
        }
    }
}

/// The calls of a load; none where its input is bad.
fn calls_of_load(input: &str) -> Vec<Call> {
    let mut output = Vec::new();
    load::run(input.as_bytes(), &mut output).unwrap();
    let output = String::from_utf8(output).unwrap();
    let lines = output.lines().step_by(2);
    lines
        .filter_map(|line| session::parse(line.as_bytes()))
        .collect()
}

/// Of the stored inputs, whose line feed is written as `\n`.
#[test]
fn loads_tell_the_orders_apart() {
    let path = Path::new(env!("CARGO_MANIFEST_DIR")).join("cases/load.inputs");
    let inputs = fs::read_to_string(path).unwrap();
    let loads: Vec<Vec<Call>> = inputs
        .lines()
        .map(|line| calls_of_load(line.trim_end_matches("\\n")))
        .collect();
    for (name, order) in OTHERS {
        let telling = loads.iter().filter(|calls| replies_tell(order, calls));
        let telling = telling.count();
        println!("{name}: {telling} loads");
        assert!(telling > 0, "{name}");
    }
}

/// In a list's output every table shows. Three lists tell all the orders apart; `rings`,
/// where no other cell is free, only those in which the cells freed stand otherwise.
#[test]
fn lists_tell_the_orders_apart() {
    let mut telling = [0; OTHERS.len()];
    for name in LISTS {
        let mut text = Vec::new();
        write_list(&mut Rng::new(4), name, 50, &mut text).unwrap();
        let mut in_list = [0; OTHERS.len()];
        let mut reader = Reader::new(&text);
        let mut runner = Runner::new();
        while let Some(line) = reader.line().unwrap() {
            match line {
                Line::Title => {}
                Line::Lent(lent) => runner.lend(lent).unwrap(),
                Line::Text(call, sort) => {
                    runner.text(&call, sort).unwrap();
                }
                Line::Call(call, sort) => {
                    let before = runner.store().clone();
                    let reply = runner.call(call, sort).unwrap();
                    let Some(Reply::Taken { freed: 1.., .. }) = reply else {
                        continue;
                    };
                    let (freed, old) = (freed(&before, runner.store()), chain(&before));
                    let right = [&freed[..], &old].concat();
                    assert_eq!(chain(runner.store()), right, "{name}");
                    for (times, (_, order)) in in_list.iter_mut().zip(OTHERS) {
                        *times += usize::from(order(&freed, &old) != right);
                    }
                }
            }
        }
        if matches!(name, "runs" | "named" | "text-mixed") {
            assert!(in_list.iter().all(|&times| times > 0), "{name} {in_list:?}");
        }
        for (all, times) in telling.iter_mut().zip(in_list) {
            *all += times;
        }
    }
    assert!(telling.iter().all(|&times| times > 30), "{telling:?}");
}

/// A list of calls made twice, here and with the freed cells in another order: cells
/// have other numbers there, and all else is the same.
#[test]
fn only_the_numbers_depend_on_the_order() {
    let mut rng = Rng::new(5);
    for (name, order) in OTHERS {
        let mut renamed = 0;
        for _ in 0..25 {
            let cells = rng.within(2, 20);
            let mut here = Follower::fresh(cells);
            let mut there = here.store.clone();
            let mix = random_mix(&mut rng);
            // The number there of each cell in use, nil for the others.
            let mut names = vec![NIL; cells as usize + 1];
            for _ in 0..250 {
                let call = here.lively_call(&mut rng, mix);
                let reply = here.perform(call);
                let other = renamed_call(call, &names);
                let found = perform_in(order, &mut there, other);
                if let (Call::Cons(..), Reply::Done(x), Reply::Done(y)) = (call, reply, found) {
                    names[x as usize] = y;
                    renamed += usize::from(x != y);
                }
                let expected = match reply {
                    Reply::Done(word) => Reply::Done(renamed_word(word, &names)),
                    other => other,
                };
                assert_eq!(found, expected, "{name}: {call:?}");
                for x in 1..=cells {
                    let words = &here.store.table[at(x)..at(x) + CELL_WORDS];
                    if words[STATE] == FREE {
                        names[x as usize] = NIL;
                        continue;
                    }
                    let y = names[x as usize];
                    let mut expected = words.to_vec();
                    expected[LEFT] = renamed_word(words[LEFT], &names);
                    expected[RIGHT] = renamed_word(words[RIGHT], &names);
                    assert_eq!(there.table[at(y)..at(y) + CELL_WORDS], expected);
                }
                assert_eq!(here.store.queue.count, there.queue.count);
                assert_eq!(chain(&here.store).len(), chain(&there).len());
                assert_eq!(slow::audit(&there), None);
            }
        }
        assert!(renamed > 50, "{name}: {renamed}");
    }
}

fn renamed_word(word: u16, names: &[u16]) -> u16 {
    match word {
        FIRST_ATOM.. => word,
        cell => names[cell as usize],
    }
}

fn renamed_call(call: Call, names: &[u16]) -> Call {
    let word = |word| renamed_word(word, names);
    match call {
        Call::Car(x) => Call::Car(word(x)),
        Call::Cdr(x) => Call::Cdr(word(x)),
        Call::Cons(x, y) => Call::Cons(word(x), word(y)),
        Call::ReplaceLeft(x, y) => Call::ReplaceLeft(word(x), word(y)),
        Call::ReplaceRight(x, y) => Call::ReplaceRight(word(x), word(y)),
        Call::Up(x, n) => Call::Up(word(x), n),
        Call::Down(x, n) => Call::Down(word(x), n),
        Call::Fresh(_) | Call::Step | Call::Audit => call,
    }
}
