//! Who is named (A6): stores worked out by hand, the sixth words made anew from the
//! queue after every call, and audits beside one written from the papers' words.

mod paper;
mod slow;

use std::fs;
use std::path::Path;

use reference::call::{Call, Reply};
use reference::format::{Line, Reader};
use reference::generate::damaged::{mutant, sample};
use reference::generate::edges::garbled;
use reference::generate::follower::Follower;
use reference::generate::recount::recounted;
use reference::generate::rng::Rng;
use reference::generate::session::{write as write_session, STYLES};
use reference::generate::sound::{any_call, clipped_store, random_mix};
use reference::generate::texts::random;
use reference::generate::woven::woven;
use reference::generate::write_list;
use reference::question::Refusal;
use reference::queue::{self, Packet, Queue};
use reference::session;
use reference::states::Runner;
use reference::store::Store;
use reference::table::*;
use reference::text_call::TextCall;

const UNFIT: Reply = Reply::Refused(Refusal::Store);

/// The verdict as a number, 0 for sound; the store's own scratch stays.
fn audit(store: &Store) -> u8 {
    let mut store = store.clone();
    store.scratch = vec![3; MAX_CELLS as usize];
    match Call::Audit.perform(&mut store) {
        Reply::Sound => 0,
        Reply::Broken(rule) => rule as u8,
        other => panic!("{other:?}"),
    }
}

/// All three audits.
fn verdict(store: &Store) -> u8 {
    let fast = audit(store);
    assert_eq!(fast, paper::audit(store), "{store:?}");
    let slow = slow::audit(store).map_or(0, |rule| rule as u8);
    assert_eq!(fast, slow, "{store:?}");
    fast
}

fn sixth_words(store: &Store) -> Vec<u16> {
    let cells = cells_of(&store.table, store.table[CELLS]);
    cells.iter().map(|cell| cell[5]).collect()
}

fn check_named(store: &Store) {
    assert_eq!(paper::misnamed(store), None, "{store:?}");
    let [by_queue, by_cell] = paper::roots(store);
    assert_eq!(by_queue, by_cell);
}

// Worked out by hand.

/// A call, its reply, the cells' sixth words after it.
type Worked<'a> = (&'a str, &'a str, &'a [u16]);

fn follow(cells: u16, lines: &[Worked]) -> Store {
    let mut store = Store::zeroed(length(cells), cells as usize);
    for (line, reply, named) in lines {
        let call = session::parse(line.as_bytes()).unwrap();
        let found = match call.perform(&mut store) {
            Reply::Done(value) | Reply::Taken { freed: value, .. } => format!("OK {value}"),
            Reply::Refused(refusal) => format!("NO {}", refusal as u8),
            Reply::Idle => "IDLE".to_string(),
            other => panic!("{other:?}"),
        };
        assert_eq!(found, *reply, "{line}");
        assert_eq!(sixth_words(&store), *named, "{line}");
        assert_eq!(verdict(&store), 0, "{line}");
    }
    store
}

#[test]
fn k1_call_by_call() {
    let store = follow(
        3,
        &[
            ("fresh 3", "OK 0", &[0, 0, 0]),
            // Kind 2: nil, an atom, 1.
            ("cons 0 32775", "OK 1", &[1, 0, 0]),
            // Kind 2: 1, nil, 2.
            ("cons 1 0", "OK 2", &[2, 1, 0]),
            ("up 2 1", "OK 0", &[2, 2, 0]),
            // Kind 6: 2, nil, 2.
            ("setr 2 2", "OK 0", &[2, 4, 0]),
            ("down 2 1", "OK 0", &[2, 5, 0]),
            ("step", "OK 0", &[1, 5, 0]),
            ("step", "OK 0", &[0, 4, 0]),
            ("step", "OK 0", &[0, 3, 0]),
            ("step", "OK 0", &[0, 1, 0]),
            ("step", "OK 2", &[0, 0, 0]),
            ("step", "IDLE", &[0, 0, 0]),
        ],
    );
    // The chain is 1, 2, 3 (A8).
    let expected = [
        3, 1, 3, //
        2, 0, 0, 0, 0, 0, //
        3, 0, 0, 0, 0, 0, //
        0, 0, 0, 0, 0, 0,
    ];
    assert_eq!(store.table, expected);
}

/// The whole table in the middle of K1, with five packets waiting.
#[test]
fn k1_before_its_steps() {
    let mut store = Store::zeroed(length(3) + 2, 3);
    store.table.fill(9);
    for line in "fresh 3,cons 0 32775,cons 1 0,up 2 1,setr 2 2,down 2 1".split(',') {
        session::parse(line.as_bytes()).unwrap().perform(&mut store);
    }
    let expected = [
        3, 3, 3, //
        0, 32_775, 1, 0, 1, 2, //
        1, 2, 1, 0, 1, 5, //
        0, 0, 0, 0, 0, 0, //
        9, 9,
    ];
    assert_eq!(store.table, expected);
}

#[test]
fn packets_of_each_kind() {
    follow(
        4,
        &[
            ("fresh 4", "OK 0", &[0, 0, 0, 0]),
            ("cons 0 32768", "OK 1", &[1, 0, 0, 0]),
            // The numbers of these are no cells, though cells have them.
            ("up 1 3", "OK 0", &[2, 0, 0, 0]),
            ("up 1 4", "OK 0", &[3, 0, 0, 0]),
            ("down 1 2", "OK 0", &[4, 0, 0, 0]),
            // A read of nil and refused calls name nobody.
            ("car 0", "OK 0", &[4, 0, 0, 0]),
            ("car 2", "NO 6", &[4, 0, 0, 0]),
            ("cons 1 36863", "NO 14", &[4, 0, 0, 0]),
            ("down 1 7", "NO 6", &[4, 0, 0, 0]),
            // Reads of nil and of an atom out of a cell.
            ("car 1", "OK 0", &[5, 0, 0, 0]),
            ("cdr 1", "OK 32768", &[6, 0, 0, 0]),
            // One cell twice, and the new one.
            ("cons 1 1", "OK 2", &[8, 1, 0, 0]),
            ("cons 2 32769", "OK 3", &[8, 2, 1, 0]),
            // Kind 1: 3, 2.
            ("car 3", "OK 2", &[8, 3, 2, 0]),
            // Kind 3: 2, nil, 1.
            ("setl 1 2", "OK 0", &[9, 4, 2, 0]),
            // Kind 6: nil, an atom, 1.
            ("setr 1 0", "OK 32768", &[10, 4, 2, 0]),
        ],
    );
}

/// A cell in all three places of its packets, and others behind them.
#[test]
fn three_times_in_one_packet() {
    follow(
        2,
        &[
            ("fresh 2", "OK 0", &[0, 0]),
            ("cons 0 0", "OK 1", &[1, 0]),
            ("up 1 5", "OK 0", &[2, 0]),
            // Kind 3: 1, nil, 1; then 1, 1, 1.
            ("setl 1 1", "OK 0", &[4, 0]),
            ("setl 1 1", "OK 1", &[7, 0]),
            // Kind 1: 1, 1.
            ("car 1", "OK 1", &[9, 0]),
            // Kind 6: 1, nil, 1; then 1, 1, 1; then nil, 1, 1.
            ("setr 1 1", "OK 0", &[11, 0]),
            ("setr 1 1", "OK 1", &[14, 0]),
            ("setr 1 0", "OK 1", &[16, 0]),
            ("down 1 2", "OK 0", &[17, 0]),
            ("up 1 1", "NO 6", &[17, 0]),
            ("step", "OK 0", &[16, 0]),
            ("step", "OK 0", &[15, 0]),
            ("step", "OK 0", &[13, 0]),
            ("step", "OK 0", &[10, 0]),
            ("step", "OK 0", &[8, 0]),
            ("step", "OK 0", &[6, 0]),
            ("step", "OK 0", &[3, 0]),
            ("step", "OK 0", &[1, 0]),
            // The last packet gone, nothing keeps the cell that holds itself.
            ("step", "OK 1", &[0, 0]),
        ],
    );
}

/// Cells that no root count and no field keeps, until the packet is taken.
#[test]
fn alive_by_a_packet_only() {
    follow(
        3,
        &[
            ("fresh 3", "OK 0", &[0, 0, 0]),
            ("cons 0 0", "OK 1", &[1, 0, 0]),
            ("cons 1 0", "OK 2", &[2, 1, 0]),
            ("step", "OK 0", &[1, 1, 0]),
            ("step", "OK 0", &[0, 0, 0]),
            // Kind 4: 2; kind 3: nil, 1, 2.
            ("up 2 1", "OK 0", &[0, 1, 0]),
            ("setl 2 0", "OK 1", &[1, 2, 0]),
            // Cell 1 is in no field any more.
            ("step", "OK 0", &[1, 1, 0]),
            ("step", "OK 1", &[0, 0, 0]),
            // Cell 1 again (A8), new and given up: its own cons keeps it, then the
            // down.
            ("cons 0 0", "OK 1", &[1, 0, 0]),
            ("down 1 1", "OK 0", &[2, 0, 0]),
            ("step", "OK 0", &[1, 0, 0]),
            ("step", "OK 1", &[0, 0, 0]),
        ],
    );
}

/// 64 packets that name a cell three times each.
#[test]
fn at_most_192_times() {
    let mut follower = Follower::fresh(1);
    follower.perform(Call::Cons(NIL, NIL));
    follower.perform(Call::Up(1, 65));
    follower.perform(Call::ReplaceLeft(1, 1));
    follower.drain();
    for i in 1..=64 {
        assert_eq!(follower.perform(Call::ReplaceLeft(1, 1)), Reply::Done(1));
        assert_eq!(sixth_words(&follower.store), [3 * i]);
    }
    assert_eq!(verdict(&follower.store), 0);
    for i in (0..64).rev() {
        let taken = Reply::Taken {
            kind: queue::REPLACE_LEFT,
            freed: 0,
        };
        assert_eq!(follower.perform(Call::Step), taken);
        assert_eq!(sixth_words(&follower.store), [3 * i]);
    }
}

/// `cases/named.session`, with the replies worked out by hand.
const SESSION: &[(&str, &str)] = &[
    ("fresh 4", "OK 0"),
    ("cons 0 0", "OK 1"),
    ("up 1 4", "OK 0"),
    ("setl 1 1", "OK 0"),
    ("setl 1 1", "OK 1"),
    ("car 1", "OK 1"),
    ("cons 1 1", "OK 2"),
    ("cdr 2", "OK 1"),
    ("down 1 2", "OK 0"),
    ("step", "OK 0"),
    ("step", "OK 0"),
    ("step", "OK 0"),
    ("step", "OK 0"),
    ("step", "OK 0"),
    ("step", "OK 0"),
    // The read taken, nothing names cell 2; then nothing names cell 1.
    ("step", "OK 1"),
    ("step", "OK 1"),
    ("step", "IDLE"),
    ("fresh 3", "OK 0"),
    ("cons 0 0", "OK 1"),
    ("cons 1 0", "OK 2"),
    ("step", "OK 0"),
    ("step", "OK 0"),
    ("car 1", "NO 6"),
    ("up 2 1", "OK 0"),
    ("setl 2 0", "OK 1"),
    ("cons 0 0", "OK 3"),
    ("step", "OK 0"),
    // Cell 1, which was detached.
    ("step", "OK 1"),
    ("cons 0 0", "OK 1"),
    ("cons 0 0", "NO 8"),
    ("step", "OK 0"),
    ("step", "OK 0"),
    ("cons 0 0", "NO 8"),
    ("step", "IDLE"),
    ("fresh 2", "OK 0"),
    ("cons 0 32769", "OK 1"),
    ("up 1 2", "OK 0"),
    ("setr 1 1", "OK 32769"),
    ("step", "OK 0"),
    ("step", "OK 0"),
    ("step", "OK 0"),
    ("setr 1 1", "OK 1"),
    ("setr 1 0", "OK 1"),
    ("down 1 1", "OK 0"),
    ("cons 0 0", "OK 2"),
    ("down 2 1", "OK 0"),
    ("step", "OK 0"),
    ("step", "OK 0"),
    // Cell 1 by its down; cell 2 stays for its own cons and down.
    ("step", "OK 1"),
    ("step", "OK 0"),
    ("step", "OK 1"),
    ("step", "IDLE"),
    ("fresh 4", "OK 0"),
    ("cons 0 0", "OK 1"),
    ("cons 0 0", "OK 2"),
    ("cons 0 0", "OK 3"),
    ("up 1 2", "OK 0"),
    ("down 1 3", "OK 0"),
    ("up 1 1", "NO 6"),
    ("cons 0 0", "OK 4"),
    ("down 4 1", "OK 0"),
    ("down 2 1", "OK 0"),
    ("down 3 1", "OK 0"),
    ("step", "OK 0"),
    ("step", "OK 0"),
    ("step", "OK 0"),
    ("step", "OK 0"),
    // The down by 3 names cell 1, not cell 3.
    ("step", "OK 1"),
    ("step", "OK 0"),
    ("step", "OK 1"),
    ("step", "OK 1"),
    ("step", "OK 1"),
    ("step", "IDLE"),
];

#[test]
fn session_worked_out_by_hand() {
    let path = Path::new(env!("CARGO_MANIFEST_DIR")).join("cases/named.session");
    let stored = fs::read_to_string(path).unwrap();
    assert!(stored.lines().eq(SESSION.iter().map(|line| line.0)));
    let mut output = Vec::new();
    session::run(stored.as_bytes(), &mut output).unwrap();
    let output = String::from_utf8(output).unwrap();
    for (i, (found, (line, reply))) in output.lines().zip(SESSION).enumerate() {
        assert_eq!(found, format!("{} {reply}", i + 1), "{line}");
    }
    assert_eq!(output.lines().count(), SESSION.len());
}

// The sixth words after every call.

#[test]
fn named_after_every_call_of_sessions() {
    let mut most = 0;
    for style in STYLES {
        for (cells, lines) in [(1, 300), (2, 300), (3, 600), (9, 1_500), (65, 600)] {
            let mut text = Vec::new();
            write_session(&mut Rng::new(8), style, cells, lines, &mut text).unwrap();
            let mut store = Store::for_any_fresh();
            let lines = text.split(|&byte| byte == b'\n');
            for call in lines.filter_map(session::parse) {
                call.perform(&mut store);
                if store.table[CELLS] < 100 {
                    check_named(&store);
                    let named = sixth_words(&store).into_iter().max();
                    most = most.max(named.unwrap_or(0));
                }
            }
        }
    }
    assert!(most > 40, "{most}");
}

#[test]
fn named_after_every_call_with_texts() {
    let mut rng = Rng::new(9);
    for _ in 0..60 {
        let cells = rng.within(1, 20);
        let mut follower = Follower::fresh(cells);
        let mix = random_mix(&mut rng);
        for _ in 0..150 {
            match rng.below(6) {
                0 => {
                    let text = random::text(&mut rng, 3);
                    follower.perform_text(&TextCall::Read(text));
                }
                1 => {
                    let before = follower.store.clone();
                    let word = follower.operand(&mut rng);
                    let call = TextCall::Write {
                        word,
                        length: 30,
                        fill: 0,
                    };
                    follower.perform_text(&call);
                    assert_eq!(follower.store, before);
                }
                2 => {
                    let call = follower.naming_call(&mut rng);
                    follower.perform(call);
                }
                _ => {
                    let call = follower.lively_call(&mut rng, mix);
                    follower.perform(call);
                }
            }
            check_named(&follower.store);
            assert_eq!(verdict(&follower.store), 0);
        }
    }
}

/// A store of these, with words past the cells and a used scratch.
fn any_woven(rng: &mut Rng) -> Store {
    let cells = rng.within(1, 12);
    let waiting = match rng.below(4) {
        0 => rng.below(4),
        1 => Queue::SLOTS - rng.below(2),
        _ => rng.below(Queue::SLOTS),
    };
    let mut store = woven(rng, cells, waiting);
    store.table.extend((0..rng.below(4)).map(|_| rng.word()));
    store.scratch = vec![rng.word(); cells as usize + rng.below(2)];
    store
}

/// Stores that no list of calls makes are sound, and stay so: both machines give the
/// same on them, the sixth words follow, nothing past the cells is touched.
#[test]
fn woven_stores() {
    let mut rng = Rng::new(10);
    let (mut own_operand, mut three_times, mut taken) = (0, 0, 0);
    for _ in 0..1_200 {
        let mut store = any_woven(&mut rng);
        assert_eq!(verdict(&store), 0, "{store:?}");
        check_named(&store);
        for [kind, a, b, c] in paper::packets(&store) {
            own_operand += usize::from(kind == 2 && (a == c || b == c));
            three_times += usize::from(kind != 4 && kind != 5 && a == b && b == c);
        }
        let cells = store.table[CELLS];
        let past = store.table[length(cells)..].to_vec();
        for _ in 0..40 {
            let call = match rng.below(3) {
                0 => Call::Step,
                _ => any_call(&mut rng, cells),
            };
            if let Call::Fresh(_) = call {
                continue;
            }
            let mut plain = store.clone();
            let expected = slow::perform(&mut plain, call);
            assert_eq!(call.perform(&mut store), expected, "{call:?}");
            assert_eq!(store, plain, "{call:?}");
            check_named(&store);
            assert_eq!(verdict(&store), 0, "{call:?}");
            assert_eq!(store.table[length(cells)..], past);
            taken += usize::from(matches!(expected, Reply::Taken { .. }));
        }
    }
    let least = own_operand.min(three_times).min(taken);
    assert!(least > 100, "{own_operand} {three_times} {taken}");
}

// Audits.

/// Every sixth word one too many and one too few, and at its borders: S2 in a free
/// cell, S3 in one in use. Two that cancel each other are as wrong as one.
#[test]
fn wrong_sixth_words() {
    let mut rng = Rng::new(11);
    let mut found = [0; 6];
    for _ in 0..150 {
        let store = any_woven(&mut rng);
        let cells = store.table[CELLS];
        let expected = |x| match paper::word(&store, x, 5) {
            0 => 2,
            _ => 3,
        };
        for x in 1..=cells {
            let right = paper::word(&store, x, 6);
            for value in [
                right.wrapping_sub(1),
                right + 1,
                0,
                192,
                4_095,
                4_096,
                65_535,
            ] {
                let mut wrong = store.clone();
                wrong.table[at(x) + NAMED] = value;
                let broken = verdict(&wrong);
                let rule = if value == right { 0 } else { expected(x) };
                assert_eq!(broken, rule, "{value} for {right} in cell {x}");
                found[broken as usize] += 1;
            }
            let y = rng.within(1, cells);
            if x != y {
                let mut wrong = store.clone();
                wrong.table[at(x) + NAMED] = right.wrapping_sub(1);
                wrong.table[at(y) + NAMED] += 1;
                assert_eq!(verdict(&wrong), expected(x).min(expected(y)));
            }
        }
    }
    assert!(found[0] > 100 && found[2] > 100 && found[3] > 100);
}

/// The sample with every word of its table changed, and its packets, with the sixth
/// words as they were and following the queue.
#[test]
fn single_words_changed() {
    let sample = sample();
    let mut found = [0; 6];
    let values = [
        0, 1, 2, 5, 6, 7, 8, 9, 4_094, 4_095, 4_096, 32_767, 32_768, 36_863, 65_535,
    ];
    for index in HEADER_WORDS..sample.table.len() {
        for value in values {
            let mut store = sample.clone();
            store.table[index] = value;
            found[verdict(&store) as usize] += 1;
        }
    }
    for slot in 0..Queue::SLOTS {
        for value in values {
            let Packet { kind, a, b, c } = sample.queue.slot(slot);
            for packet in [
                Packet {
                    kind: value,
                    a,
                    b,
                    c,
                },
                Packet {
                    kind,
                    a: value,
                    b,
                    c,
                },
                Packet {
                    kind,
                    a,
                    b: value,
                    c,
                },
                Packet {
                    kind,
                    a,
                    b,
                    c: value,
                },
            ] {
                let mut store = sample.clone();
                store.queue.set_slot(slot, packet);
                found[verdict(&store) as usize] += 1;
                found[verdict(&recounted(store)) as usize] += 1;
            }
        }
    }
    // One changed word leaves every cell of the sample reached, so S5 isn't met.
    assert!(found[..5].iter().all(|&number| number > 20), "{found:?}");
}

#[test]
fn damaged_stores() {
    let mut rng = Rng::new(12);
    let mut found = [0; 6];
    for i in 0..30_000 {
        let cells = rng.within(1, 9);
        let store = match i % 4 {
            0 => garbled(&mut rng, cells),
            1 => {
                let mut store = any_woven(&mut rng);
                let index = rng.below(length(store.table[CELLS]) - 1) + 1;
                store.table[index] = match rng.below(3) {
                    0 => rng.word(),
                    1 => store.table[index] ^ 1,
                    _ => rng.within(0, store.table[CELLS]),
                };
                store
            }
            _ => mutant(&mut rng, cells),
        };
        let mut fit = store.clone();
        if Call::Car(NIL).perform(&mut fit) == Reply::Done(NIL) {
            found[verdict(&store) as usize] += 1;
        }
    }
    assert!(found.iter().all(|&number| number > 20), "{found:?}");
}

/// The verdicts of the list of A6 are those of the paper's words, store by store.
#[test]
fn list_of_named() {
    let mut text = Vec::new();
    write_list(&mut Rng::new(1), "named", 60, &mut text).unwrap();
    let mut reader = Reader::new(&text);
    let mut runner = Runner::new();
    let mut found = [0; 6];
    let mut accepted = [0; 12];
    while let Some(line) = reader.line().unwrap() {
        match line {
            Line::Title => {}
            Line::Lent(lent) => {
                runner.lend(lent).unwrap();
            }
            Line::Call(call, sort) => {
                let before = runner.store().clone();
                let code = reader.numbers()[0];
                match (call, runner.call(call, sort).unwrap()) {
                    (Call::Audit, Some(reply @ (Reply::Sound | Reply::Broken(_)))) => {
                        let verdict = paper::audit(&before);
                        let expected = match reply {
                            Reply::Broken(rule) => rule as u8,
                            _ => 0,
                        };
                        assert_eq!(verdict, expected, "{before:?}");
                        found[verdict as usize] += 1;
                    }
                    (_, Some(Reply::Refused(_)) | None) => continue,
                    _ => {}
                }
                accepted[code] += 1;
            }
            Line::Text(call, sort) => {
                if let Some(reply) = runner.text(&call, sort).unwrap() {
                    accepted[call.code() as usize] += usize::from(reply.value.is_ok());
                }
            }
        }
    }
    assert!(
        found[0] > 100 && found[2] > 40 && found[3] > 60,
        "{found:?}"
    );
    assert!(accepted.iter().all(|&number| number >= 20), "{accepted:?}");
}

// The table.

/// One word short, no call but fresh gets past question 1, and neither does fresh.
#[test]
fn lengths() {
    let mut rng = Rng::new(13);
    for cells in [1, 2, 3, 7, 64, 4_095, 4_096] {
        let enough = 3 + 6 * cells as usize;
        let mut store = Store::zeroed(enough, cells as usize);
        assert_eq!(Call::Fresh(cells).perform(&mut store), Reply::Done(0));
        Call::Cons(NIL, NIL).perform(&mut store);
        let calls = [
            Call::Car(NIL),
            Call::Cdr(1),
            Call::Cons(NIL, NIL),
            Call::ReplaceLeft(1, NIL),
            Call::ReplaceRight(1, 1),
            Call::Up(1, 1),
            Call::Down(1, 1),
            Call::Step,
            Call::Audit,
            Call::Fresh(cells),
        ];
        for call in calls {
            let fit = call.perform(&mut store.clone());
            assert_ne!(fit, UNFIT, "{call:?}");
            for short in [enough - 1, 3 + 5 * cells as usize, 3, 2, 0] {
                let mut store = store.clone();
                store.table.truncate(short);
                let before = store.clone();
                assert_eq!(call.perform(&mut store), UNFIT, "{call:?} {short}");
                assert_eq!(store, before);
            }
            let mut long = store.clone();
            let past: Vec<u16> = (0..9).map(|_| rng.word()).collect();
            long.table.extend(&past);
            assert_eq!(call.perform(&mut long), fit, "{call:?}");
            assert_eq!(long.table[enough..], past, "{call:?}");
        }
    }
}

#[test]
fn fresh_over_garbage() {
    let mut rng = Rng::new(14);
    for cells in [1, 2, 3, 64, 4_096] {
        let mut store = Store::zeroed(length(cells) + 5, 0);
        store.table.fill_with(|| rng.word());
        store.queue.count = rng.word();
        store.queue.a.fill_with(|| rng.word());
        let past = store.table[length(cells)..].to_vec();
        assert_eq!(Call::Fresh(cells).perform(&mut store), Reply::Done(0));
        let mut expected = vec![cells, 1, cells];
        for x in 1..=cells {
            let next = if x == cells { 0 } else { x + 1 };
            expected.extend([next, 0, 0, 0, 0, 0]);
        }
        expected.extend(past);
        assert_eq!(store.table, expected);
        assert_eq!(store.queue, Queue::empty());
        assert_eq!(audit(&store), 0);
    }
}

/// Stores of the old width are told from those of the new one.
#[test]
fn five_words_a_cell_are_too_few() {
    let mut rng = Rng::new(15);
    for _ in 0..300 {
        let cells = rng.within(1, 9);
        let store = clipped_store(&mut rng, cells, 60).store;
        let mut old = store.clone();
        old.table.truncate(HEADER_WORDS);
        for cell in cells_of(&store.table, cells) {
            old.table.extend(&cell[..5]);
        }
        assert_eq!(Call::Audit.perform(&mut old), UNFIT);
        assert_eq!(Call::Step.perform(&mut old), UNFIT);
    }
}

/// What the gate's program and the session program are given keeps to its limits.
#[test]
fn inputs_keep_to_their_limits() {
    let root = Path::new(env!("CARGO_MANIFEST_DIR")).parent().unwrap();
    let read = |name: &str| fs::read_to_string(root.join(name)).unwrap();
    let list = read("crates/store_cases/stdin");
    assert!(list.len() < 3_600_000, "{}", list.len());
    assert!(fs::read(root.join("crates/session/stdin")).unwrap().len() < 360_000);
    for line in list.lines() {
        let mut parts = line.split(' ');
        let letter = parts.next().unwrap();
        let limit = match letter {
            "T" => 24_590,
            "S" => 4_100,
            _ => continue,
        };
        let length: usize = parts.next().unwrap().parse().unwrap();
        assert!(length <= limit, "{letter} {length}");
    }
}
