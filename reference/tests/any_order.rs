//! The steps of random stores, sessions and lists, change by change (A3): what
//! the counts keep to on the way, and that with a packet's changes in any other
//! order the step gives the same reply and leaves the same store.

mod changes;
mod slow;

use std::fs;
use std::path::Path;

use reference::call::{Call, Reply};
use reference::collector::Change;
use reference::format::{Line, Reader};
use reference::generate::rng::Rng;
use reference::generate::session::{write, STYLES};
use reference::generate::sound::random_store;
use reference::generate::{write_list, LISTS};
use reference::queue::{self, Packet};
use reference::session;
use reference::states::Runner;
use reference::store::Store;
use reference::table::*;

fn is_replace(packet: Packet) -> bool {
    matches!(packet.kind, queue::REPLACE_LEFT | queue::REPLACE_RIGHT)
}

/// Makes the oldest packet's changes one by one and tells whether a cell count
/// stood at 4,096 in passing. No other count leaves its range, and in figure 8's
/// order no more than one reference is missing from the counts at any time.
fn passes_4096(store: &Store) -> bool {
    let packet = changes::oldest(store);
    let mut table = store.table.clone();
    let (mut sum, mut passed) = (0, false);
    for change in changes::of(packet) {
        let Some(value) = changes::make(&mut table, change) else {
            continue;
        };
        sum += change.by;
        assert!(sum >= -1 || packet.kind == queue::DOWN, "{packet:?}");
        if value > MAX_COUNT {
            assert_eq!((change.count, value), (CELL_COUNT, 4_096), "{packet:?}");
            passed = true;
        }
    }
    passed
}

/// The step with the changes in this order: they are made beforehand, and the
/// packet taken, of the same kind, makes none and names nothing, so that its names
/// are taken off beforehand too (A6).
fn step_in_order(before: &Store, order: &[Change]) -> (Reply, Store) {
    let mut store = before.clone();
    for &change in order {
        changes::make(&mut store.table, change);
    }
    let oldest = changes::oldest(before);
    for word in oldest.named() {
        if is_cell(word, store.table[CELLS]) {
            store.table[at(word) + NAMED] -= 1;
        }
    }
    let kind = oldest.kind;
    let blank = Packet {
        kind,
        ..Packet::ZERO
    };
    store.queue.set_slot(before.queue.place as usize, blank);
    (Call::Step.perform(&mut store), store)
}

/// Every order of a list, the list's own among them.
fn orders(list: &[Change]) -> Vec<Vec<Change>> {
    let [first, rest @ ..] = list else {
        return vec![vec![]];
    };
    let mut all = Vec::new();
    for order in orders(rest) {
        for place in 0..=order.len() {
            let mut longer = order.clone();
            longer.insert(place, *first);
            all.push(longer);
        }
    }
    all
}

/// The steps looked at.
#[derive(Debug, Default)]
struct Steps {
    by_kind: [usize; 7],
    /// Cons of one cell twice, replaces of a cell by itself, reads of a cell out
    /// of itself.
    cons_twice: usize,
    replaced_by_itself: usize,
    read_from_itself: usize,
    passed_4096: usize,
}

impl Steps {
    /// Looks at the step that a sound store made.
    fn check(&mut self, before: &Store, reply: Reply, after: &Store) {
        let packet = changes::oldest(before);
        let one_cell = packet.a == packet.b && is_cell(packet.a, before.table[CELLS]);
        let at_ceiling = one_cell && before.table[at(packet.a) + CELL_COUNT] == MAX_COUNT;
        let passed = passes_4096(before);
        assert_eq!(passed, is_replace(packet) && at_ceiling, "{packet:?}");
        for order in orders(&changes::of(packet)) {
            let (other_reply, other) = step_in_order(before, &order);
            assert_eq!(other_reply, reply, "{order:?}");
            assert!(other == *after, "{order:?}");
        }
        self.by_kind[packet.kind as usize] += 1;
        self.cons_twice += usize::from(packet.kind == queue::CONS && one_cell);
        self.replaced_by_itself += usize::from(is_replace(packet) && one_cell);
        self.read_from_itself += usize::from(packet.kind == queue::READ && one_cell);
        self.passed_4096 += usize::from(passed);
    }

    fn session(&mut self, input: &[u8]) {
        let mut store = Store::for_any_fresh();
        for call in input
            .split(|&byte| byte == b'\n')
            .filter_map(session::parse)
        {
            let before = (call == Call::Step).then(|| store.clone());
            let reply = call.perform(&mut store);
            if let (Some(before), Reply::Taken { .. }) = (before, reply) {
                self.check(&before, reply, &store);
            }
        }
    }

    fn list(&mut self, text: &[u8]) {
        let mut reader = Reader::new(text);
        let mut runner = Runner::new();
        while let Some(line) = reader.line().unwrap() {
            match line {
                Line::Title => {}
                Line::Lent(lent) => runner.lend(lent).unwrap(),
                Line::Call(call, sort) => {
                    let before = runner.store().clone();
                    let reply = runner.call(call, sort).unwrap();
                    if let Some(reply @ Reply::Taken { .. }) = reply {
                        self.check(&before, reply, runner.store());
                    }
                }
                Line::Text(call, sort) => {
                    runner.text(&call, sort).unwrap();
                }
            }
        }
    }

    fn assert_all_sorts(&self, least: usize) {
        let sorts = [
            self.cons_twice,
            self.replaced_by_itself,
            self.read_from_itself,
        ];
        let mut numbers = self.by_kind[1..].iter().chain(&sorts);
        assert!(numbers.all(|&number| number >= least), "{self:?}");
    }
}

/// The queues of random stores, taken to their ends. The slow machine makes the
/// changes in the order of document 01's table, as before A3.
#[test]
fn random_stores() {
    let mut rng = Rng::new(1);
    let mut steps = Steps::default();
    for _ in 0..400 {
        let cells = rng.within(1, 12);
        let calls = rng.below(250);
        let mut store = random_store(&mut rng, cells, calls).store;
        while store.queue.count > 0 {
            let before = store.clone();
            let reply = Call::Step.perform(&mut store);
            steps.check(&before, reply, &store);
            let mut plain = before;
            assert_eq!(slow::perform(&mut plain, Call::Step), reply);
            assert_eq!(plain, store);
        }
    }
    steps.assert_all_sorts(20);
}

fn session(style: &str, cells: u16, lines: usize) -> Vec<u8> {
    let mut text = Vec::new();
    write(&mut Rng::new(5), style, cells, lines, &mut text).unwrap();
    text
}

#[test]
fn sessions() {
    let mut steps = Steps::default();
    for style in STYLES {
        for cells in [1, 2, 3, 63] {
            steps.session(&session(style, cells, 300));
        }
    }
    steps.assert_all_sorts(10);
}

/// 4,096 is met where a cell at 4,095 pointers is put in for itself.
#[test]
fn sessions_at_the_ceilings() {
    let mut steps = Steps::default();
    steps.session(&session("ceiling", 4_096, 500));
    assert!(steps.passed_4096 >= 2, "{steps:?}");
}

#[test]
fn lists() {
    let mut steps = Steps::default();
    for name in LISTS {
        let mut text = Vec::new();
        write_list(&mut Rng::new(6), name, 40, &mut text).unwrap();
        steps.list(&text);
    }
    steps.assert_all_sorts(2);
    assert!(steps.passed_4096 >= 2, "{steps:?}");
}

/// The session program's matched input meets all of it too.
#[test]
fn stored_session() {
    let root = Path::new(env!("CARGO_MANIFEST_DIR")).parent().unwrap();
    let mut steps = Steps::default();
    steps.session(&fs::read(root.join("crates/session/stdin")).unwrap());
    steps.assert_all_sorts(10);
    assert!(steps.passed_4096 >= 2, "{steps:?}");
}
