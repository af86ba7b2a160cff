//! The order of a packet's count changes (A3): it is figure 8's, and small cases
//! worked out by hand have the values that the counts pass through.

mod changes;
mod slow;

use reference::call::{Call, Reply};
use reference::collector::Change;
use reference::generate::follower::Follower;
use reference::queue::{self, Packet};
use reference::session;
use reference::store::Store;
use reference::table::*;

/// Figure 8's case for a kind as it is in print, without its collect and with
/// document 01's correction: the last change of P3 is printed as rrc_down(y).
fn figure_8(kind: u16) -> &'static str {
    match kind {
        1 => "rrc_down(x); rrc_up(y)",
        2 => "rrc_down(x); crc_up(x); rrc_down(y); crc_up(y)",
        3 | 6 => "rrc_down(x); crc_up(x); crc_down(y)",
        4 => "for i:=1 to y do rrc_up(x)",
        5 => "for i:=1 to y do rrc_down(x)",
        _ => panic!("no such kind: {kind}"),
    }
}

/// What the figure's case does with a packet's a for x and b for y.
fn figure_changes(packet: Packet) -> Vec<Change> {
    let change = |statement: &str| {
        let (times, call) = match statement.strip_prefix("for i:=1 to y do ") {
            Some(call) => (i32::from(packet.b), call),
            None => (1, statement),
        };
        let (procedure, operand) = call.split_once('(').unwrap();
        let (count, by) = match procedure {
            "rrc_up" => (ROOT_COUNT, times),
            "rrc_down" => (ROOT_COUNT, -times),
            "crc_up" => (CELL_COUNT, times),
            "crc_down" => (CELL_COUNT, -times),
            _ => panic!("no such procedure: {procedure}"),
        };
        let word = match operand {
            "x)" => packet.a,
            "y)" => packet.b,
            _ => panic!("no such operand: {operand}"),
        };
        Change { word, count, by }
    };
    figure_8(packet.kind).split("; ").map(change).collect()
}

/// Packets of every kind with nil, atoms and cells, one cell twice among them.
fn all_packets() -> Vec<Packet> {
    let words = [0, 1, 2, 4_095, 4_096, 32_768, 65_535];
    let mut packets = Vec::new();
    for kind in 1..=6 {
        for a in words {
            packets.extend(words.map(|b| Packet { kind, a, b, c: 3 }));
        }
    }
    packets
}

#[test]
fn changes_are_in_figure_8s_order() {
    for packet in all_packets() {
        assert_eq!(changes::of(packet), figure_changes(packet), "{packet:?}");
    }
}

/// In document 01's table cons has another order, but each change is listed as
/// often; so the waiting changes, which the questions go by, are the same.
#[test]
fn changes_are_those_of_the_packet_table() {
    for packet in all_packets() {
        let Packet { kind, a, b, c } = packet;
        let mut listed = changes::of(packet);
        let mut table: Vec<Change> = slow::changes([kind, a, b, c])
            .into_iter()
            .map(|(sort, word, by)| Change {
                word,
                count: match sort {
                    slow::Sort::Root => ROOT_COUNT,
                    slow::Sort::Cell => CELL_COUNT,
                },
                by: by as i32,
            })
            .collect();
        assert_eq!(listed == table, kind != queue::CONS, "{packet:?}");
        listed.sort();
        table.sort();
        assert_eq!(listed, table, "{packet:?}");
        for x in [1, 2, 3, 4_095, 4_096] {
            let sum = |count| -> i32 {
                let of_x = listed.iter().filter(|c| (c.word, c.count) == (x, count));
                of_x.map(|change| change.by).sum()
            };
            assert_eq!(packet.root_change(x), sum(ROOT_COUNT), "{packet:?} {x}");
            assert_eq!(packet.cell_change(x), sum(CELL_COUNT), "{packet:?} {x}");
        }
    }
}

/// Root count and cell count of a cell.
type Counts = (u16, u16);

/// The counts of all cells, at first and after each change of the oldest packet.
fn way(store: &Store) -> Vec<Vec<Counts>> {
    let counts = |table: &[u16]| {
        let cells = cells_of(table, table[CELLS]).iter();
        cells
            .map(|cell| (cell[ROOT_COUNT], cell[CELL_COUNT]))
            .collect()
    };
    let mut table = store.table.clone();
    let mut way = vec![counts(&table)];
    for change in changes::of(changes::oldest(store)) {
        changes::make(&mut table, change);
        way.push(counts(&table));
    }
    way
}

/// Makes a step, which the slow machine must make alike, and gives how many
/// cells it freed.
fn freed_by_step(store: &mut Store) -> u16 {
    let mut plain = store.clone();
    let reply = Call::Step.perform(store);
    assert_eq!(reply, slow::perform(&mut plain, Call::Step));
    assert_eq!(*store, plain);
    match reply {
        Reply::Taken { freed, .. } => freed,
        _ => panic!("{reply:?}"),
    }
}

/// A session whose last call's packet alone waits, the counts on its way, and
/// how many cells its step frees. All worked out by hand.
type Worked<'a> = (&'a str, &'a [&'a [Counts]], u16);

fn check_worked(cases: &[Worked]) {
    for &(session, expected, freed) in cases {
        let mut store = Store::for_any_fresh();
        for line in session.split(", ") {
            let reply = session::parse(line.as_bytes()).unwrap().perform(&mut store);
            assert!(
                matches!(reply, Reply::Done(_) | Reply::Taken { .. }),
                "{line} of {session}: {reply:?}"
            );
        }
        assert_eq!(store.queue.count, 1, "{session}");
        assert_eq!(way(&store), expected, "{session}");
        assert_eq!(freed_by_step(&mut store), freed, "{session}");
    }
}

#[test]
fn cons_on_its_way() {
    check_worked(&[
        // In passing cells 1 and 2 have both counts 0, one after the other.
        (
            "fresh 3, cons 0 0, cons 0 0, step, step, cons 1 2",
            &[
                &[(1, 0), (1, 0), (1, 0)],
                &[(0, 0), (1, 0), (1, 0)],
                &[(0, 1), (1, 0), (1, 0)],
                &[(0, 1), (0, 0), (1, 0)],
                &[(0, 1), (0, 1), (1, 0)],
            ],
            0,
        ),
        (
            "fresh 3, cons 0 0, cons 0 0, step, step, cons 2 1",
            &[
                &[(1, 0), (1, 0), (1, 0)],
                &[(1, 0), (0, 0), (1, 0)],
                &[(1, 0), (0, 1), (1, 0)],
                &[(0, 0), (0, 1), (1, 0)],
                &[(0, 1), (0, 1), (1, 0)],
            ],
            0,
        ),
        // One cell twice never has both counts 0.
        (
            "fresh 2, cons 0 0, up 1 1, step, step, cons 1 1",
            &[
                &[(2, 0), (1, 0)],
                &[(1, 0), (1, 0)],
                &[(1, 1), (1, 0)],
                &[(0, 1), (1, 0)],
                &[(0, 2), (1, 0)],
            ],
            0,
        ),
        // The changes of an atom and of nil have their places.
        (
            "fresh 2, cons 0 0, step, cons 32768 1",
            &[
                &[(1, 0), (1, 0)],
                &[(1, 0), (1, 0)],
                &[(1, 0), (1, 0)],
                &[(0, 0), (1, 0)],
                &[(0, 1), (1, 0)],
            ],
            0,
        ),
        (
            "fresh 2, cons 0 0, step, cons 1 0",
            &[
                &[(1, 0), (1, 0)],
                &[(0, 0), (1, 0)],
                &[(0, 1), (1, 0)],
                &[(0, 1), (1, 0)],
                &[(0, 1), (1, 0)],
            ],
            0,
        ),
    ]);
}

#[test]
fn replaces_on_their_way() {
    check_worked(&[
        // Cell 2 comes into cell 3 for cell 1, which the step frees.
        (
            "fresh 3, cons 0 0, cons 0 0, cons 1 0, step, step, step, setl 3 2",
            &[
                &[(0, 1), (1, 0), (1, 0)],
                &[(0, 1), (0, 0), (1, 0)],
                &[(0, 1), (0, 1), (1, 0)],
                &[(0, 0), (0, 1), (1, 0)],
            ],
            1,
        ),
        (
            "fresh 3, cons 0 0, cons 0 0, cons 0 1, step, step, step, setr 3 2",
            &[
                &[(0, 1), (1, 0), (1, 0)],
                &[(0, 1), (0, 0), (1, 0)],
                &[(0, 1), (0, 1), (1, 0)],
                &[(0, 0), (0, 1), (1, 0)],
            ],
            1,
        ),
        // The word put in is the one detached: up first, then down.
        (
            "fresh 2, cons 0 0, up 1 1, cons 1 0, step, step, step, setl 2 1",
            &[
                &[(1, 1), (1, 0)],
                &[(0, 1), (1, 0)],
                &[(0, 2), (1, 0)],
                &[(0, 1), (1, 0)],
            ],
            0,
        ),
        // Nil comes in for cell 1, and cell 1 into itself for nil.
        (
            "fresh 2, cons 0 0, cons 0 1, step, step, setr 2 0",
            &[
                &[(0, 1), (1, 0)],
                &[(0, 1), (1, 0)],
                &[(0, 1), (1, 0)],
                &[(0, 0), (1, 0)],
            ],
            1,
        ),
        (
            "fresh 1, cons 0 0, up 1 1, step, step, setr 1 1",
            &[&[(2, 0)], &[(1, 0)], &[(1, 1)], &[(1, 1)]],
            0,
        ),
    ]);
}

#[test]
fn other_packets_on_their_way() {
    check_worked(&[
        // Freed in between, cell 1 would be lost with cell 2.
        (
            "fresh 2, cons 0 0, cons 0 1, step, step, cdr 2",
            &[&[(0, 1), (1, 0)], &[(0, 1), (0, 0)], &[(1, 1), (0, 0)]],
            1,
        ),
        // A cell read out of itself: down first, then up.
        (
            "fresh 1, cons 0 0, up 1 1, setl 1 1, step, step, step, car 1",
            &[&[(1, 1)], &[(0, 1)], &[(1, 1)]],
            0,
        ),
        (
            "fresh 1, cons 0 32775, step, cdr 1",
            &[&[(1, 0)], &[(0, 0)], &[(0, 0)]],
            1,
        ),
        (
            "fresh 1, cons 0 0, step, up 1 4094",
            &[&[(1, 0)], &[(4_095, 0)]],
            0,
        ),
        (
            "fresh 1, cons 0 0, up 1 3, step, step, down 1 2",
            &[&[(4, 0)], &[(2, 0)]],
            0,
        ),
    ]);
}

/// Cell 1 in 4,095 fields, all settled: both fields of cells 2 to 2,048 and the
/// left of 2,049. It is held twice, the other cells once.
fn crowd() -> Store {
    let mut follower = Follower::fresh(2_049);
    follower.perform(Call::Cons(NIL, NIL));
    for _ in 2..=2_048 {
        follower.perform(Call::Up(1, 2));
        follower.perform(Call::Cons(1, 1));
        follower.drain();
    }
    follower.perform(Call::Up(1, 2));
    follower.perform(Call::Cons(1, NIL));
    follower.drain();
    follower.store
}

/// Cell 1's counts on the way of a call's packet, and those of a step's end. The
/// store stays sound, so no pointer is lost or made up on the way.
fn crowd_way(store: &mut Store, call: Call) -> Vec<Counts> {
    let reply = call.perform(store);
    assert!(matches!(reply, Reply::Done(_)), "{call:?}: {reply:?}");
    let way: Vec<Counts> = way(store).iter().map(|counts| counts[0]).collect();
    assert_eq!(freed_by_step(store), 0);
    assert_eq!(Call::Audit.perform(store), Reply::Sound);
    way
}

#[test]
fn cell_count_of_4096_in_passing() {
    let crowd = crowd();
    for call in [
        Call::ReplaceLeft(2, 1),
        Call::ReplaceRight(2_048, 1),
        Call::ReplaceLeft(2_049, 1),
    ] {
        let mut store = crowd.clone();
        let way = crowd_way(&mut store, call);
        assert_eq!(way, [(2, 4_095), (1, 4_095), (1, 4_096), (1, 4_095)]);
        // But for the hold given up, the table is as it was.
        store.table[at(1) + ROOT_COUNT] += 1;
        assert_eq!(store.table, crowd.table);
    }
}

/// Where the word put in isn't the one detached, 4,095 isn't passed.
#[test]
fn cell_count_of_4095_at_most() {
    let mut store = crowd();
    let way = crowd_way(&mut store, Call::ReplaceLeft(2, NIL));
    assert_eq!(way, [(2, 4_095), (2, 4_095), (2, 4_095), (2, 4_094)]);
    let way = crowd_way(&mut store, Call::ReplaceRight(2_049, 1));
    assert_eq!(way, [(2, 4_094), (1, 4_094), (1, 4_095), (1, 4_095)]);
}
