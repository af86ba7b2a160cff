//! Clipped readings (A5): the border, what comes before what, and stores that
//! contain some already. Worked out by hand from document 02's words where no
//! slow machine is named.

mod slow;

use std::fs;
use std::path::Path;

use reference::call::{Call, Reply};
use reference::generate::atoms::{atoms_of, clip_some, rename};
use reference::generate::damaged::mutant;
use reference::generate::edges::garbled;
use reference::generate::follower::Follower;
use reference::generate::rng::Rng;
use reference::generate::session::write as write_session;
use reference::generate::sound::{any_call, clipped_store, random_mix, random_store};
use reference::question::Refusal;
use reference::session;
use reference::store::Store;
use reference::table::*;
use reference::text_call::TextCall;

/// Atoms of values 4,094 to 4,096 and the last.
const A4094: u16 = 36_862;
const A4095: u16 = 36_863;
const A4096: u16 = 36_864;
const A32767: u16 = 65_535;

const CLIPPED: Reply = Reply::Refused(Refusal::Clipped);

/// The reply to a call that changes nothing if it is refused.
fn reply(store: &mut Store, call: Call) -> Reply {
    let before = store.clone();
    let reply = call.perform(store);
    if matches!(reply, Reply::Refused(_)) {
        assert_eq!(*store, before, "{call:?}");
    }
    reply
}

fn number(reply: Reply) -> u8 {
    match reply {
        Reply::Refused(refusal) => refusal as u8,
        _ => 0,
    }
}

fn audit(store: &Store) -> Reply {
    let mut store = store.clone();
    store.scratch = vec![1; MAX_CELLS as usize];
    Call::Audit.perform(&mut store)
}

/// Every word in every operand that is stored: from 36,863 on it is 14.
#[test]
fn every_word_is_stored_or_turned_down() {
    let mut follower = Follower::fresh(3);
    follower.perform(Call::Cons(NIL, NIL));
    follower.perform(Call::Up(1, 1));
    let store = follower.store;
    for word in 0..=u16::MAX {
        let expected = match word {
            0 | 1 => 0,
            2 | 3 => 6,
            4..=32_767 => 4,
            32_768..=36_862 => 0,
            36_863.. => 14,
        };
        for call in [
            Call::Cons(word, NIL),
            Call::Cons(NIL, word),
            Call::Cons(word, FIRST_ATOM),
            Call::ReplaceLeft(1, word),
            Call::ReplaceRight(1, word),
        ] {
            let mut store = store.clone();
            assert_eq!(number(reply(&mut store, call)), expected, "{call:?}");
        }
    }
}

/// Lines of `cases/clipped.session` and the replies to them.
const FIRST_LINES: &[(&str, &str)] = &[
    ("fresh 2", "OK 0"),
    ("cons 36862 0", "OK 1"),
    ("cons 36863 0", "NO 14"),
    ("cons 0 36863", "NO 14"),
    ("cons 36862 36862", "OK 2"),
    // No cell is free any more.
    ("cons 36863 0", "NO 14"),
    ("cons 0 65535", "NO 14"),
    ("cons 36862 0", "NO 8"),
    ("car 1", "OK 36862"),
    ("cdr 2", "OK 36862"),
    // Given up, both are no longer held.
    ("cons 36863 1", "NO 14"),
    ("cons 1 36862", "NO 6"),
    ("step", "OK 0"),
    ("step", "OK 0"),
    ("step", "OK 1"),
    ("step", "OK 1"),
    ("step", "IDLE"),
    ("fresh 3", "OK 0"),
    ("cons 32768 36862", "OK 1"),
    ("cons 36863 36863", "NO 14"),
    ("cons 36864 32768", "NO 14"),
    ("cons 32768 65535", "NO 14"),
    ("cons 36863 36862", "NO 14"),
    ("cons 36862 36863", "NO 14"),
    // Question 4 comes before 14.
    ("cons 65535 4", "NO 4"),
    ("cons 4 36863", "NO 4"),
    ("cons 32767 36863", "NO 4"),
    ("cons 36863 32767", "NO 4"),
    // Question 14 comes before 6.
    ("cons 36863 2", "NO 14"),
    ("cons 2 36863", "NO 14"),
    ("cons 2 36862", "NO 6"),
    ("cons 1 36863", "NO 14"),
    ("cons 36864 1", "NO 14"),
    ("setl 1 36863", "NO 14"),
    ("setl 1 36862", "OK 32768"),
    ("setl 1 36864", "NO 14"),
    ("setr 1 65535", "NO 14"),
    ("setr 1 36863", "NO 14"),
    ("setr 1 36862", "OK 36862"),
    ("setr 2 36863", "NO 14"),
    ("setl 3 36863", "NO 14"),
    ("setr 2 36862", "NO 6"),
    // Question 5 comes before 14, and 4 before both.
    ("setl 0 36863", "NO 5"),
    ("setr 0 36862", "NO 5"),
    ("setl 36863 36863", "NO 5"),
    ("setr 36862 65535", "NO 5"),
    ("setl 36863 0", "NO 5"),
    ("setr 65535 1", "NO 5"),
    ("setr 4 36863", "NO 4"),
    ("setl 32767 65535", "NO 4"),
    ("setr 36863 4", "NO 4"),
    // Nothing is stored by these, so 14 isn't asked.
    ("car 36862", "NO 5"),
    ("car 36863", "NO 5"),
    ("cdr 36864", "NO 5"),
    ("cdr 65535", "NO 5"),
    ("up 36863 1", "NO 5"),
    ("up 36863 0", "NO 3"),
    ("up 65535 4096", "NO 3"),
    ("down 36863 4095", "NO 5"),
    ("down 36862 4095", "NO 5"),
    ("down 65535 0", "NO 3"),
    // A number is no atom, and neither is a cell.
    ("up 1 4095", "NO 9"),
    ("up 1 4094", "OK 0"),
    ("down 1 4095", "OK 0"),
    ("fresh 4095", "OK 0"),
    ("cons 4095 0", "NO 6"),
    ("cons 4096 36863", "NO 4"),
    ("cons 4095 36863", "NO 14"),
    ("fresh 36863", "NO 3"),
    ("fresh 4096", "OK 0"),
    ("cons 4095 36862", "NO 6"),
    ("cons 4096 36863", "NO 14"),
    ("setl 4095 36862", "NO 6"),
    ("setr 4096 65535", "NO 14"),
    ("setr 4097 65535", "NO 4"),
];

/// After these the queue is filled by 63 lines `up 1 1`.
const BEFORE_FULL: &[(&str, &str)] = &[("fresh 2", "OK 0"), ("cons 0 36862", "OK 1")];

const WITH_FULL_QUEUE: &[(&str, &str)] = &[
    ("cons 36862 0", "NO 7"),
    ("cons 36863 0", "NO 14"),
    ("cons 0 65535", "NO 14"),
    ("cons 36863 2", "NO 14"),
    ("cons 4 36863", "NO 4"),
    ("setl 1 36862", "NO 7"),
    ("setl 1 36863", "NO 14"),
    ("setr 2 36863", "NO 14"),
    ("setr 0 36863", "NO 5"),
    ("car 1", "NO 7"),
    ("step", "OK 0"),
    ("cons 36863 0", "NO 14"),
    ("cons 36862 0", "OK 2"),
    // Neither a slot nor a cell.
    ("cons 36862 0", "NO 7"),
    ("cons 36863 0", "NO 14"),
    ("step", "OK 0"),
    ("cons 36862 0", "NO 8"),
    ("cons 0 36863", "NO 14"),
    ("setr 2 36864", "NO 14"),
    ("setr 2 36862", "OK 0"),
    // Bad lines, whatever the atom.
    ("cons 036863 0", "BAD"),
    ("cons 36863", "BAD"),
    ("cons 36863 0 0", "BAD"),
    ("setl 1 65536", "BAD"),
    ("fresh 1", "OK 0"),
];

#[test]
fn session_worked_out_by_hand() {
    let fill = [("up 1 1", "OK 0"); 63];
    let lines = [FIRST_LINES, BEFORE_FULL, &fill, WITH_FULL_QUEUE].concat();
    let path = Path::new(env!("CARGO_MANIFEST_DIR")).join("cases/clipped.session");
    let stored = fs::read_to_string(path).unwrap();
    assert!(stored.lines().eq(lines.iter().map(|line| line.0)));
    let mut output = Vec::new();
    session::run(stored.as_bytes(), &mut output).unwrap();
    let output = String::from_utf8(output).unwrap();
    for (i, (found, (line, reply))) in output.lines().zip(&lines).enumerate() {
        assert_eq!(found, format!("{} {reply}", i + 1), "{line}");
    }
    assert_eq!(output.lines().count(), lines.len());
}

/// Cell 1 in 4,095 fields: 14 comes before 10 too.
#[test]
fn before_the_pointers() {
    let mut follower = Follower::fresh(2_060);
    follower.perform(Call::Cons(NIL, NIL));
    for _ in 0..2_047 {
        follower.perform(Call::Up(1, 2));
        follower.perform(Call::Cons(1, 1));
        follower.drain();
    }
    follower.perform(Call::Up(1, 5));
    follower.perform(Call::Cons(1, NIL));
    for (x, y, expected) in [
        (1, A4094, 10),
        (1, A4095, 14),
        (A4094, 1, 10),
        (A32767, 1, 14),
    ] {
        let call = Call::Cons(x, y);
        assert_eq!(
            number(reply(&mut follower.store, call)),
            expected,
            "{call:?}"
        );
    }
}

/// Question 1 comes before 14.
#[test]
fn unfit_stores() {
    let fit = Follower::fresh(2).store;
    let mut short = fit.clone();
    short.table.pop();
    let mut far = fit.clone();
    far.queue.place = 64;
    let mut end = fit.clone();
    end.table[LAST_FREE] = 3;
    for (store, expected) in [(fit, 14), (short, 1), (far, 1), (end, 1)] {
        for call in [
            Call::Cons(A4095, NIL),
            Call::Cons(NIL, A4095),
            Call::ReplaceLeft(1, A4095),
            Call::ReplaceRight(2, A32767),
        ] {
            assert_eq!(
                number(reply(&mut store.clone(), call)),
                expected,
                "{call:?}"
            );
        }
        for text in ["4095", "(4095)", "(1 . 32767)"] {
            assert_eq!(read(&mut store.clone(), text), Err(expected), "{text}");
        }
    }
}

/// A store of four cells from before A5: cell 1 contains the atom twice, cell 2
/// contains cell 1. Cell 1 is held twice, cell 2 once.
fn stored_before(atom: u16, settled: bool) -> Store {
    let mut follower = Follower::fresh(4);
    for call in [
        Call::Cons(FIRST_ATOM, FIRST_ATOM),
        Call::Up(1, 2),
        Call::Cons(1, NIL),
    ] {
        follower.perform(call);
    }
    if settled {
        follower.drain();
    }
    rename(&mut follower.store, FIRST_ATOM, atom);
    follower.store
}

#[test]
fn cells_that_contain_one_stay_sound() {
    for atom in [A4095, A4096, A32767] {
        for settled in [false, true] {
            let mut store = stored_before(atom, settled);
            assert!(slow::contains_clipped(&store));
            assert_eq!(audit(&store), Reply::Sound);
            assert_eq!(slow::audit(&store), None);
            // Reads return it; it can't be put in again, not even where it stands.
            assert_eq!(reply(&mut store, Call::Car(1)), Reply::Done(atom));
            for call in [
                Call::Cons(atom, NIL),
                Call::Cons(1, atom),
                Call::ReplaceLeft(1, atom),
                Call::ReplaceRight(2, atom),
            ] {
                assert_eq!(reply(&mut store, call), CLIPPED);
            }
            assert_eq!(write(&store, 1, 30), Ok(text_of(atom)));
            // A replace gives it as the word detached.
            let detached = reply(&mut store, Call::ReplaceLeft(1, A4094));
            assert_eq!(detached, Reply::Done(atom));
            assert_eq!(audit(&store), Reply::Sound);
            assert_eq!(reply(&mut store, Call::Cdr(1)), Reply::Done(atom));
            assert_eq!(
                reply(&mut store, Call::Car(1)),
                Reply::Refused(Refusal::NotHeld)
            );
            assert_eq!(reply(&mut store, Call::Down(2, 1)), Reply::Done(0));
            // Steps take its packets and free the cell that still contains it.
            let mut freed = 0;
            while let Reply::Taken { freed: now, .. } = reply(&mut store, Call::Step) {
                freed += now;
                assert_eq!(audit(&store), Reply::Sound);
            }
            assert_eq!(freed, 2);
            assert!(!slow::contains_clipped(&store));
        }
    }
}

/// `(v . v)`.
fn text_of(atom: u16) -> String {
    let value = atom - FIRST_ATOM;
    format!("({value} . {value})")
}

/// One atom off what the packets wrote, the store is broken as with any atoms.
#[test]
fn clipped_readings_are_told_apart() {
    let store = stored_before(A4095, false);
    for (part, atom) in [(LEFT, A4094), (RIGHT, A4096), (LEFT, A32767)] {
        let mut store = store.clone();
        store.table[at(1) + part] = atom;
        assert_eq!(
            audit(&store),
            Reply::Broken(reference::audit::Rule::Pointers)
        );
    }
}

fn read(store: &mut Store, text: &str) -> Result<usize, u8> {
    let before = store.clone();
    let reply = TextCall::Read(text.as_bytes().to_vec()).perform(store);
    if reply.value.is_err() {
        assert_eq!(*store, before, "{text}");
    }
    reply.value.map_err(|refusal| refusal as u8)
}

fn write(store: &Store, word: u16, length: usize) -> Result<String, u8> {
    let mut store = store.clone();
    let reply = TextCall::Write {
        word,
        length,
        fill: 0,
    }
    .perform(&mut store);
    let buffer = reply.buffer.unwrap();
    let length = reply.value.map_err(|refusal| refusal as u8)?;
    Ok(String::from_utf8(buffer[..length].to_vec()).unwrap())
}

/// An atom of 4,095 or more is turned down wherever it stands in a text.
#[test]
fn texts_on_both_sides() {
    for (text, expected) in [
        ("4094", Ok(36_862)),
        ("4095", Err(14)),
        ("4096", Err(14)),
        ("32767", Err(14)),
        ("32768", Err(11)),
        ("04095", Err(11)),
        ("04094", Err(11)),
        (" 4095 ", Err(14)),
        ("(4094)", Ok(1)),
        ("(4095)", Err(14)),
        ("(4095 1 2)", Err(14)),
        ("(1 4095 2)", Err(14)),
        ("(1 2 4095)", Err(14)),
        ("(1 . 4095)", Err(14)),
        ("(4095 . 1)", Err(14)),
        ("(1 . 4094)", Ok(1)),
        ("(4094 . 4094)", Ok(1)),
        ("(4094 4095)", Err(14)),
        ("(4095 4094)", Err(14)),
        ("(4095 . 32767)", Err(14)),
        ("(1 (2 (3 (4 . 32767))))", Err(14)),
        ("(1 (2 (3 (4 . 4094))))", Ok(7)),
        ("(() (() . 4095) ())", Err(14)),
        ("(4095 32768)", Err(11)),
        ("(32768 4095)", Err(11)),
    ] {
        assert_eq!(
            read(&mut Follower::fresh(8).store, text),
            expected,
            "{text}"
        );
    }
}

/// Every value, bare and in a list.
#[test]
fn every_value_is_read_or_turned_down() {
    let store = Follower::fresh(1).store;
    for value in 0..=40_000 {
        let expected = match value {
            0..=4_094 => 0,
            4_095..=32_767 => 14,
            _ => 11,
        };
        for text in [format!("{value}"), format!("({value})")] {
            let found = read(&mut store.clone(), &text).err().unwrap_or(0);
            assert_eq!(found, expected, "{text}");
        }
    }
}

/// Reading is asked 1, 11, 12, 14, 7, 8.
#[test]
fn reading_is_refused_in_order() {
    let nested = |n: usize, inside: &str| format!("{}{inside}{}", "(".repeat(n), ")".repeat(n));
    let many = |value: &str| format!("({}{value})", "1 ".repeat(64));
    // No cell free; a full queue; both; room for all but 65 pairs.
    let with = |cells: u16, waiting: usize| {
        let mut follower = Follower::fresh(cells);
        follower.perform(Call::Cons(NIL, NIL));
        follower.drain();
        for _ in 0..waiting {
            follower.perform(Call::Up(1, 1));
        }
        follower.store
    };
    for (cells, waiting, short) in [(1, 0, 8), (80, 64, 7), (1, 64, 7), (80, 0, 0)] {
        let mut store = with(cells, waiting);
        for (text, expected) in [
            ("(4095".to_string(), 11),
            ("4095 4095".to_string(), 11),
            ("(4095 . )".to_string(), 11),
            (format!("(4095{})", " ".repeat(4_091)), 11),
            (format!("(4095{})", " ".repeat(4_090)), 14),
            (nested(33, "4095 ."), 11),
            (nested(33, "4095"), 12),
            (format!("(4095 {})", nested(32, "")), 12),
            (nested(33, "4094"), 12),
            (nested(32, "4095"), 14),
            (many("4095"), 14),
            (many("4094"), 7),
            ("(1 4095)".to_string(), 14),
            ("(1 . 4095)".to_string(), 14),
            ("((2) 3 . (4 . 4095))".to_string(), 14),
            ("((((1 . 32767))))".to_string(), 14),
            ("4095".to_string(), 14),
        ] {
            assert_eq!(read(&mut store, &text), Err(expected), "{text}");
        }
        let expected = if short == 0 { Ok(3) } else { Err(short) };
        assert_eq!(read(&mut store, "(1 4094)"), expected);
        assert_eq!(read(&mut store, "4094"), Ok(A4094 as usize));
    }
}

/// Writing stores nothing: it is asked 1, 4 and 6 as before.
#[test]
fn words_are_written_whatever_they_contain() {
    for atom in [A4094, A4095, A4096, A32767] {
        let mut store = stored_before(atom, true);
        let value = (atom - FIRST_ATOM).to_string();
        assert_eq!(write(&store, atom, value.len()), Ok(value.clone()));
        assert_eq!(write(&store, atom, value.len() - 1), Err(13));
        let text = text_of(atom);
        assert_eq!(write(&store, 1, text.len()), Ok(text.clone()));
        assert_eq!(write(&store, 1, text.len() - 1), Err(13));
        let whole = format!("({text})");
        assert_eq!(write(&store, 2, 40), Ok(whole.clone()));
        // What is written is accepted only up to 4,094.
        let expected = if atom == A4094 { Ok(3) } else { Err(14) };
        assert_eq!(read(&mut store, &text), expected);
        Call::Down(1, 2).perform(&mut store);
        assert_eq!(write(&store, 1, 0), Err(6));
        assert_eq!(write(&store, 9, 0), Err(4));
    }
}

/// On a store that passes question 1 and fails the audit, 14 is answered where the
/// questions before it are passed; what comes after it is not asked.
#[test]
fn damaged_stores() {
    let mut rng = Rng::new(1);
    let mut refused = [0; 15];
    for i in 0..20_000 {
        let cells = rng.within(1, 8);
        let store = match i % 3 {
            0 => garbled(&mut rng, cells),
            _ => mutant(&mut rng, cells),
        };
        for _ in 0..4 {
            let call = match any_call(&mut rng, cells) {
                Call::Cons(x, _) => Call::Cons(x, A4095),
                Call::ReplaceLeft(x, y) if y < A4095 => Call::ReplaceLeft(x, A32767),
                call => call,
            };
            let first = slow::first_questions(&store, call);
            let mut after = store.clone();
            if let Err(expected) = first {
                assert_eq!(number(reply(&mut after, call)), expected, "{call:?}");
                refused[expected as usize] += 1;
            }
        }
        if number(audit(&store)) == 0 {
            let mut after = store.clone();
            assert_eq!(read(&mut after, "(1 4095)"), Err(14));
            assert_eq!(reply(&mut after, Call::Cons(A4095, cells)), CLIPPED);
            assert_eq!(reply(&mut after, Call::ReplaceRight(cells, A4096)), CLIPPED);
        }
    }
    for question in [1, 3, 4, 5, 14] {
        assert!(refused[question] > 100, "{question}: {refused:?}");
    }
}

/// Clipped readings put into a random store leave it sound, and both machines give
/// the same on it, call by call.
#[test]
fn stores_that_contain_some() {
    let mut rng = Rng::new(2);
    let (mut with, mut reads, mut detached, mut refused) = (0, 0, 0, 0);
    for _ in 0..400 {
        let cells = rng.within(1, 9);
        let calls = rng.below(150);
        let mut follower = clipped_store(&mut rng, cells, calls);
        assert_eq!(audit(&follower.store), Reply::Sound);
        assert_eq!(slow::audit(&follower.store), None);
        with += usize::from(slow::contains_clipped(&follower.store));
        let mix = random_mix(&mut rng);
        for i in 0..60 {
            if i % 6 == 5 {
                clip_some(&mut rng, &mut follower.store);
            }
            let call = match rng.below(5) {
                0 => any_call(&mut rng, follower.cells()),
                _ => follower.lively_call(&mut rng, mix),
            };
            let mut plain = follower.store.clone();
            let expected = slow::perform(&mut plain, call);
            assert_eq!(follower.perform(call), expected, "{call:?}");
            assert_eq!(follower.store, plain, "{call:?}");
            assert_eq!(slow::audit(&plain), None, "{call:?}");
            match (call, expected) {
                (Call::Car(_) | Call::Cdr(_), Reply::Done(word)) => {
                    reads += usize::from(slow::clipped(word));
                }
                (Call::ReplaceLeft(..) | Call::ReplaceRight(..), Reply::Done(word)) => {
                    detached += usize::from(slow::clipped(word));
                }
                (_, CLIPPED) => refused += 1,
                _ => {}
            }
        }
    }
    let least = with.min(reads).min(detached).min(refused);
    assert!(least > 100, "{with} {reads} {detached} {refused}");
}

/// The same number of atoms stand where they stood, and nothing else changes.
#[test]
fn clipping_changes_atoms_only() {
    let mut rng = Rng::new(3);
    let mut clipped = 0;
    for _ in 0..300 {
        let cells = rng.within(1, 9);
        let before = random_store(&mut rng, cells, 80).store;
        assert!(!slow::contains_clipped(&before));
        let mut after = before.clone();
        clip_some(&mut rng, &mut after);
        for (old, new) in before.table.iter().zip(&after.table) {
            assert!(old == new || (*old >= FIRST_ATOM && slow::clipped(*new)));
        }
        clipped += atoms_of(&after)
            .into_iter()
            .filter(|&w| slow::clipped(w))
            .count();
        assert_eq!(before.queue.kinds, after.queue.kinds);
        assert_eq!(before.queue.c, after.queue.c);
    }
    assert!(clipped > 300, "{clipped}");
}

/// In lively sessions 14 is rare, in those of refusals it isn't.
#[test]
fn shares_of_sessions() {
    for (style, least, most) in [("lively", 5, 100), ("full", 5, 100), ("refusals", 100, 600)] {
        let mut input = Vec::new();
        write_session(&mut Rng::new(4), style, 20, 5_000, &mut input).unwrap();
        let mut output = Vec::new();
        session::run(&input[..], &mut output).unwrap();
        let output = String::from_utf8(output).unwrap();
        let refused = output
            .lines()
            .filter(|line| line.ends_with(" NO 14"))
            .count();
        assert!((least..most).contains(&refused), "{style}: {refused}");
    }
}
