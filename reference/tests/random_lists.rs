//! Random lists of calls from fresh: the facts of demand 3 after each call,
//! agreement with the slow machine, and refusals that change nothing.

mod slow;

use reference::audit::{self, Verdict};
use reference::call::{Call, Reply};
use reference::generate::follower::{Follower, Mix, QUESTIONS};
use reference::generate::rng::Rng;
use reference::queue::Queue;
use reference::store::Store;
use reference::table::{length, MAX_CELLS};

/// How many calls a long run makes; `CALLS` in the environment sets another.
fn calls_or(default: usize) -> usize {
    std::env::var("CALLS").map_or(default, |text| text.parse().unwrap())
}

fn random_mix(rng: &mut Rng) -> Mix {
    let mut weight = || 1 + rng.below(40);
    Mix {
        nil_read: [0, 2, 5, 40][weight() % 4],
        read: weight(),
        cons: weight(),
        replace: weight(),
        up: weight(),
        down: weight(),
        step: [0, 5, 40, 120][weight() % 4],
    }
}

/// Any word, with those at the borders and the cells more often.
fn any_word(rng: &mut Rng, cells: u16) -> u16 {
    match rng.below(8) {
        0 => 0,
        1 => rng.pick(&[cells + 1, 32_767, 32_768, 36_862, 36_863, 65_535]),
        2 => rng.word(),
        _ => rng.within(1, cells),
    }
}

fn any_number(rng: &mut Rng) -> u16 {
    match rng.below(8) {
        0 => rng.pick(&[0, 4_094, 4_095, 4_096, 65_535]),
        1 => rng.within(1, 4_095),
        _ => rng.within(1, 3),
    }
}

fn any_call(rng: &mut Rng, cells: u16) -> Call {
    let (x, y) = (any_word(rng, cells), any_word(rng, cells));
    let n = any_number(rng);
    match rng.below(14) {
        0 => Call::Car(x),
        1 => Call::Cdr(x),
        2 | 3 => Call::Cons(x, y),
        4 => Call::ReplaceLeft(x, y),
        5 => Call::ReplaceRight(x, y),
        6 => Call::Up(x, n),
        7 => Call::Down(x, n),
        8 => Call::Audit,
        _ => Call::Step,
    }
}

/// The scratch lent to the next call: sometimes too short, always garbage.
fn any_scratch(rng: &mut Rng, cells: u16) -> Vec<u16> {
    let length = match rng.below(12) {
        0 => 0,
        1 => cells as usize - 1,
        2 => cells as usize + rng.below(5),
        _ => cells as usize,
    };
    (0..length).map(|_| rng.word()).collect()
}

/// How many calls were accepted (0), refused by each question (1 to 10 and 14),
/// idle (11), and reads of nil with a slot empty (12) and with a full queue (13).
type Replies = [usize; 15];
const NIL_READ: usize = 12;
const NIL_READ_WHEN_FULL: usize = 13;

struct List {
    follower: Follower,
    holds: slow::Holds,
    mix: Mix,
    replies: Replies,
}

impl List {
    /// A list on a table with `extra` words past those of the largest store.
    fn new(rng: &mut Rng, max_cells: u16, extra: usize) -> List {
        let mut store = Store::zeroed(length(max_cells) + extra, 0);
        store.table.fill_with(|| rng.word());
        for slot in 0..Queue::SLOTS {
            store.queue.kinds[slot] = rng.word();
        }
        store.queue.place = rng.word();
        store.queue.count = rng.word();
        List {
            follower: Follower::new(store),
            holds: slow::Holds::default(),
            mix: random_mix(rng),
            replies: Replies::default(),
        }
    }

    /// Makes a call on both machines and checks all there is to check.
    fn call(&mut self, rng: &mut Rng, call: Call) {
        let cells = match call {
            Call::Fresh(_) => 1,
            _ => self.follower.cells(),
        };
        self.follower.store.scratch = any_scratch(rng, cells);
        let before = self.follower.store.clone();
        let reply = self.follower.perform(call);
        let after = &self.follower.store;

        let mut expected = before.clone();
        let expected_reply = slow::perform(&mut expected, call);
        assert_eq!(reply, expected_reply, "{call:?} on {before:?}");
        assert_eq!(*after, expected, "{call:?} on {before:?}");
        let is_nil_read = matches!(call, Call::Car(0) | Call::Cdr(0));
        if is_nil_read {
            assert_eq!(reply, Reply::Done(0), "{call:?} on {before:?}");
        }
        if is_nil_read || matches!(reply, Reply::Refused(_) | Reply::Idle) {
            assert_eq!(*after, before, "{call:?}");
        }
        self.holds.note(call, reply);
        slow::check_facts(after, &self.holds)
            .unwrap_or_else(|broken| panic!("{broken} after {call:?} on {before:?}"));
        let mut work = vec![7; after.table[0] as usize];
        let verdict = audit::audit(&after.table, &after.queue, &mut work);
        assert_eq!(verdict, Ok(Verdict::Sound));
        // A5: from fresh no clipped reading gets into a cell.
        assert!(!slow::contains_clipped(after), "{call:?}");
        self.replies[match reply {
            Reply::Refused(refusal) => refusal as usize,
            Reply::Idle => 11,
            _ if is_nil_read && before.queue.count == 64 => NIL_READ_WHEN_FULL,
            _ if is_nil_read => NIL_READ,
            _ => 0,
        }] += 1;
    }

    fn random_call(&mut self, rng: &mut Rng) {
        let cells = self.follower.cells();
        let call = match rng.below(6) {
            0 => any_call(rng, cells),
            1 => {
                let question = rng.pick(&QUESTIONS);
                match self.follower.refused_call(rng, question) {
                    Some(call) => call,
                    None => self.follower.lively_call(rng, self.mix),
                }
            }
            _ => self.follower.lively_call(rng, self.mix),
        };
        self.call(rng, call);
    }
}

/// Lists of up to `length` calls, `calls` in all, on stores of up to
/// `max_cells` cells.
fn run_lists(seed: u64, max_cells: u16, length: usize, calls: usize) -> Replies {
    let mut rng = Rng::new(seed);
    let mut replies = Replies::default();
    let mut made = 0;
    while made < calls {
        let extra = rng.below(7);
        let mut list = List::new(&mut rng, max_cells, extra);
        let cells = rng.within(1, max_cells);
        list.call(&mut rng, Call::Fresh(cells));
        for _ in 0..length {
            if rng.one_in(length) {
                let cells = rng.within(0, max_cells + 2);
                list.call(&mut rng, Call::Fresh(cells));
            }
            list.random_call(&mut rng);
        }
        made += length;
        for (total, number) in replies.iter_mut().zip(list.replies) {
            *total += number;
        }
    }
    replies
}

fn assert_nil_was_read(replies: Replies) {
    assert!(replies[NIL_READ] > 100, "{replies:?}");
    assert!(replies[NIL_READ_WHEN_FULL] > 0, "{replies:?}");
}

#[test]
fn tiny_stores() {
    // With this seed the queue fills up, which is rare with so few cells.
    assert_nil_was_read(run_lists(18, 3, 200, 20_000));
}

#[test]
fn small_stores() {
    let replies = run_lists(2, 12, 400, 40_000);
    for question in [1, 2, 3, 4, 5, 6, 7, 8, 9, 14] {
        assert!(replies[question] > 0, "no refusal {question}");
    }
    assert_nil_was_read(replies);
}

#[test]
fn middle_stores() {
    assert_nil_was_read(run_lists(3, 70, 1_500, 9_000));
}

/// What the generators take for a call to be refused is refused by the very
/// question; a read of nil isn't among those of question 5.
#[test]
fn chosen_refusals_are_refused() {
    let mut rng = Rng::new(7);
    for _ in 0..200 {
        let cells = rng.within(1, 9);
        let mut follower = Follower::fresh(cells);
        let mix = random_mix(&mut rng);
        for _ in 0..100 {
            let call = follower.lively_call(&mut rng, mix);
            follower.perform(call);
            let question = rng.pick(&QUESTIONS);
            if let Some(call) = follower.refused_call(&mut rng, question) {
                let reply = follower.perform(call);
                let by = match reply {
                    Reply::Refused(refusal) => refusal as usize,
                    _ => 0,
                };
                assert_eq!(by, question, "{call:?} on {:?}", follower.store);
            }
        }
    }
}

#[test]
#[ignore = "long: some millions of calls, CALLS sets how many"]
fn millions_of_calls() {
    let calls = calls_or(3_000_000);
    let seed = std::env::var("SEED").map_or(4, |text| text.parse().unwrap());
    let mut total = Replies::default();
    for (i, (cells, length, share)) in [(3, 300, 4), (6, 300, 4), (16, 1_000, 6), (66, 2_000, 10)]
        .into_iter()
        .enumerate()
    {
        let replies = run_lists(seed + i as u64, cells, length, calls / share);
        println!(
            "up to {cells} cells: accepted, refused 1 to 10, idle, nil read, nil read \
             with a full queue, refused 14: {replies:?}"
        );
        for (sum, number) in total.iter_mut().zip(replies) {
            *sum += number;
        }
    }
    println!("calls in all: {}", total.iter().sum::<usize>());
}

/// The slow facts of a store of 4,096 cells take a while, so they are looked
/// at now and then; the fast audit is made after each call.
fn large_store(seed: u64, calls: usize, every: usize) {
    let mut rng = Rng::new(seed);
    let mut list = List::new(&mut rng, MAX_CELLS, 1);
    list.call(&mut rng, Call::Fresh(MAX_CELLS));
    for i in 1..=calls {
        let call = list.follower.lively_call(&mut rng, list.mix);
        if i % every == 0 {
            list.call(&mut rng, call);
            continue;
        }
        list.follower.store.scratch.resize(MAX_CELLS as usize, 1);
        let reply = list.follower.perform(call);
        list.holds.note(call, reply);
        assert_eq!(list.follower.perform(Call::Audit), Reply::Sound);
    }
}

#[test]
fn store_of_4096_cells() {
    large_store(5, 6_000, 300);
}

/// A call made on the fast machine alone, which must be accepted.
fn quick(list: &mut List, call: Call) {
    let cells = list.follower.cells() as usize;
    list.follower.store.scratch.resize(cells, 1);
    let reply = list.follower.perform(call);
    assert!(!matches!(reply, Reply::Refused(_)), "{call:?}: {reply:?}");
    list.holds.note(call, reply);
}

/// Reaches 4,095 pointers to one cell, and compares every reply around it with
/// counting pointers, with packets waiting and without.
#[test]
fn pointer_ceiling() {
    let mut rng = Rng::new(6);
    let mut list = List::new(&mut rng, 2_100, 0);
    list.call(&mut rng, Call::Fresh(2_100));
    quick(&mut list, Call::Cons(0, 0));
    quick(&mut list, Call::Up(1, 4_094));
    for _ in 0..2_047 {
        while list.follower.store.queue.count > 30 {
            quick(&mut list, Call::Step);
        }
        if list.follower.holds(1) < 100 {
            quick(&mut list, Call::Up(1, 3_900));
        }
        quick(&mut list, Call::Cons(1, 1));
    }
    let around = [
        Call::Cons(1, 1),
        Call::Cons(0, 1),
        Call::Cons(1, 0),
        Call::Cons(1, 1),
        Call::ReplaceLeft(5, 1),
        Call::ReplaceRight(1, 1),
        Call::ReplaceLeft(5, 0),
        Call::Cons(1, 1),
        Call::ReplaceRight(1, 1),
        Call::ReplaceRight(1, 1),
        Call::ReplaceLeft(1, 1),
        Call::Cdr(1),
        Call::Audit,
    ];
    for _ in 0..2 {
        list.replies = Replies::default();
        for call in around {
            list.call(&mut rng, call);
        }
        assert!(list.replies[10] >= 3, "{:?}", list.replies);
        while list.follower.store.queue.count > 0 {
            quick(&mut list, Call::Step);
        }
    }
}
