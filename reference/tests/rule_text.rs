//! Rule text in and out (A4): cases worked out by hand from document 02's words.

mod slow;

use reference::call::{Call, Reply};
use reference::generate::follower::Follower;
use reference::generate::rng::Rng;
use reference::generate::sound::random_store;
use reference::generate::texts::random;
use reference::question::Refusal;
use reference::store::Store;
use reference::table::*;
use reference::text_call::{TextCall, TextReply};
use slow::text::Tree;

const ATOM: u16 = FIRST_ATOM;

fn fresh(cells: u16) -> Store {
    Follower::fresh(cells).store
}

fn read(store: &mut Store, text: &str) -> Result<usize, u8> {
    let before = store.clone();
    let reply = TextCall::Read(text.as_bytes().to_vec()).perform(store);
    assert_eq!(reply.buffer, None);
    let value = reply.value.map_err(|refusal| refusal as u8);
    if value.is_err() {
        assert_eq!(*store, before, "{text}");
    }
    value
}

/// The text in a buffer of so many bytes; the rest of it is untouched, and all
/// of it where the writing is refused, and the store in any case.
fn write(store: &mut Store, word: u16, length: usize) -> Result<String, u8> {
    let mut texts = Vec::new();
    for fill in [0, b'(', 255] {
        let before = store.clone();
        let TextReply { value, buffer } = TextCall::Write { word, length, fill }.perform(store);
        assert_eq!(*store, before);
        let buffer = buffer.unwrap();
        assert_eq!(buffer.len(), length);
        let used = *value.as_ref().unwrap_or(&0);
        assert!(buffer[used..].iter().all(|&byte| byte == fill));
        let text = String::from_utf8_lossy(&buffer[..used]).to_string();
        texts.push(value.map(|_| text).map_err(|refusal| refusal as u8));
    }
    assert!(texts.windows(2).all(|two| two[0] == two[1]), "{texts:?}");
    texts.remove(0)
}

/// Left and right of each cell in use, in ascending number.
fn fields(store: &Store) -> Vec<(u16, u16, u16)> {
    (1..=store.table[CELLS])
        .filter(|&x| store.table[at(x) + STATE] == IN_USE)
        .map(|x| (x, store.table[at(x) + LEFT], store.table[at(x) + RIGHT]))
        .collect()
}

/// Nil and atoms take no cell and no slot.
#[test]
fn nil_and_atoms() {
    for (text, word) in [
        ("()", 0),
        ("( )", 0),
        ("  (   )  ", 0),
        ("0", 32_768),
        ("7", 32_775),
        (" 12 ", 32_780),
        ("4094", 36_862),
    ] {
        let mut store = fresh(1);
        let before = store.clone();
        assert_eq!(read(&mut store, text), Ok(word), "{text}");
        assert_eq!(store, before);
    }
}

/// First what the elements need, left to right, then the list's own pairs, last
/// to first.
#[test]
fn cells_are_taken_in_order() {
    let cases: &[(&str, &[(u16, u16)])] = &[
        ("(7)", &[(ATOM + 7, 0)]),
        ("(1 . 2)", &[(ATOM + 1, ATOM + 2)]),
        ("(1 2)", &[(ATOM + 2, 0), (ATOM + 1, 1)]),
        ("(1 2 . 3)", &[(ATOM + 2, ATOM + 3), (ATOM + 1, 1)]),
        ("(())", &[(0, 0)]),
        ("(() . ())", &[(0, 0)]),
        // The elements first, (1) as cell 1 and (2) as cell 2.
        ("((1) (2))", &[(ATOM + 1, 0), (ATOM + 2, 0), (2, 0), (1, 3)]),
        // The part after the dot counts as the last element: cell 2.
        ("((1) . (2))", &[(ATOM + 1, 0), (ATOM + 2, 0), (1, 2)]),
        (
            "(5 (1 2) 6)",
            &[
                (ATOM + 2, 0),
                (ATOM + 1, 1),
                (ATOM + 6, 0),
                (2, 3),
                (ATOM + 5, 4),
            ],
        ),
        (
            "((1 . 2) 3 . ((4)))",
            &[
                (ATOM + 1, ATOM + 2),
                (ATOM + 4, 0),
                (2, 0),
                (ATOM + 3, 3),
                (1, 4),
            ],
        ),
        (
            "(1 . (2 . (3 . ())))",
            &[(ATOM + 3, 0), (ATOM + 2, 1), (ATOM + 1, 2)],
        ),
    ];
    for (text, cells) in cases {
        let mut store = fresh(9);
        assert_eq!(read(&mut store, text), Ok(cells.len()), "{text}");
        let expected: Vec<(u16, u16, u16)> = (1..)
            .zip(cells.iter())
            .map(|(x, &(left, right))| (x, left, right))
            .collect();
        assert_eq!(fields(&store), expected, "{text}");
        // One packet of kind 2 for each, in the order in which they were made.
        assert_eq!(store.queue.count as usize, cells.len());
        for (i, &(x, left, right)) in expected.iter().enumerate() {
            let packet = store.queue.slot(i);
            assert_eq!(
                [packet.kind, packet.a, packet.b, packet.c],
                [2, left, right, x]
            );
        }
        // Made of conses: every new cell has root count 1 and cell count 0, and
        // in the end the word alone is held.
        while Call::Step.perform(&mut store) != Reply::Idle {}
        let word = cells.len() as u16;
        for x in 1..=word {
            let root = store.table[at(x) + ROOT_COUNT];
            assert_eq!(root, u16::from(x == word), "{text} {x}");
        }
        assert_eq!(Call::Audit.perform(&mut store), Reply::Sound);
    }
}

#[test]
fn cells_come_from_the_chain() {
    let mut store = fresh(5);
    for call in [
        Call::Cons(0, 0),
        Call::Cons(0, 0),
        Call::Cons(0, 0),
        Call::Down(1, 1),
        Call::Down(2, 1),
    ] {
        assert!(matches!(call.perform(&mut store), Reply::Done(_)));
    }
    while Call::Step.perform(&mut store) != Reply::Idle {}
    // Free are 2, 1, 4, 5, in this order: the cell freed last is the first (A8).
    assert_eq!(read(&mut store, "(7 8 9)"), Ok(4));
    let expected = [
        (1, ATOM + 8, 2),
        (2, ATOM + 9, 0),
        (3, 0, 0),
        (4, ATOM + 7, 1),
    ];
    assert_eq!(fields(&store), expected);
    assert_eq!(read(&mut store, "(1 2)"), Err(8));
    assert_eq!(read(&mut store, "(1)"), Ok(5));
    assert_eq!(store.table[..3], [5, 0, 0]);
}

#[test]
fn texts_outside_the_notation() {
    for text in [
        "",
        " ",
        ".",
        ")",
        "(",
        ")(",
        "1 2",
        "()()",
        "1()",
        "(1",
        "1)",
        "(1))",
        "(.)",
        "(. 1)",
        "(1 .)",
        "(1 . 2 3)",
        "(1 . 2 . 3)",
        "(1 . . 2)",
        "(1 .. 2)",
        "1.2",
        "1 . 2",
        ". 1",
        "00",
        "01",
        "(1 02)",
        "32768",
        "65536",
        "99999999999999999999",
        "-1",
        "+1",
        "1x",
        "x",
        "nil",
        "(1\t2)",
        "1\n",
        "\r",
        "(1,2)",
        "(1 2]",
        "\0",
        "\u{a0}1",
        "((1)",
        "(1 . )",
        "( . )",
        "()(",
        "1 (",
        "(1)((",
    ] {
        for cells in [1, 9] {
            assert_eq!(read(&mut fresh(cells), text), Err(11), "{text:?}");
        }
    }
}

/// Spaces may stand beside any bracket, dot or atom and are needed only between
/// two atoms.
#[test]
fn spaces() {
    for (text, written) in [
        ("(1.2)", "(1 . 2)"),
        ("(1 .2)", "(1 . 2)"),
        ("( 1  .  2 )", "(1 . 2)"),
        ("(1(2)3)", "(1 (2) 3)"),
        ("((1)(2).(3))", "((1) (2) 3)"),
        ("(()())", "(() ())"),
        ("  (  1   2  )  ", "(1 2)"),
        ("(1 .(2))", "(1 2)"),
        ("(12)", "(12)"),
        ("(1 2)", "(1 2)"),
    ] {
        let mut store = fresh(9);
        let word = read(&mut store, text).unwrap() as u16;
        assert_eq!(
            write(&mut store, word, 40).as_deref(),
            Ok(written),
            "{text}"
        );
    }
}

/// The dot only before a last part that is neither a pair nor nil.
#[test]
fn written_text() {
    for (text, written) in [
        ("()", "()"),
        ("0", "0"),
        ("4094", "4094"),
        ("(1 . ())", "(1)"),
        ("(1 . (2 . (3 . 4)))", "(1 2 3 . 4)"),
        ("(1 . (2 . (3 . ())))", "(1 2 3)"),
        ("((1 . 2) . (3 . 4))", "((1 . 2) 3 . 4)"),
        ("(() . ())", "(())"),
        ("(() () . 0)", "(() () . 0)"),
        ("((((5))))", "((((5))))"),
    ] {
        let mut store = fresh(9);
        let word = read(&mut store, text).unwrap() as u16;
        for length in 0..written.len() {
            assert_eq!(write(&mut store, word, length), Err(13), "{text} {length}");
        }
        for more in [0, 1, 30] {
            let length = written.len() + more;
            assert_eq!(write(&mut store, word, length).as_deref(), Ok(written));
        }
    }
}

fn nested(n: usize, inside: &str) -> String {
    format!("{}{inside}{}", "(".repeat(n), ")".repeat(n))
}

/// 11 before 12, 12 before 7, 7 before 8; 1 before all. 14 is in `clipped.rs`.
#[test]
fn reading_is_refused_in_order() {
    let full = |cells: u16, waiting: usize| {
        let mut store = fresh(cells);
        Call::Cons(0, 0).perform(&mut store);
        while (store.queue.count as usize) < waiting {
            Call::Up(1, 1).perform(&mut store);
        }
        store
    };
    for n in 1..=40 {
        let expected = if n <= 32 { Ok(n - 1) } else { Err(12) };
        assert_eq!(read(&mut fresh(64), &nested(n, "")), expected);
        let expected = if n <= 32 { Ok(n) } else { Err(12) };
        assert_eq!(read(&mut fresh(64), &nested(n, "5")), expected);
        // Nil's own brackets count.
        let expected = if n <= 31 { Ok(n) } else { Err(12) };
        assert_eq!(read(&mut fresh(64), &nested(n, "()")), expected);
        // So do those after a dot, where the structure is no deeper.
        let text = format!("{}2{}", "(1 . ".repeat(n), ")".repeat(n));
        let expected = if n <= 32 { Ok(n) } else { Err(12) };
        assert_eq!(read(&mut fresh(64), &text), expected);
        assert_eq!(read(&mut fresh(64), &nested(n, ".")), Err(11));
        assert_eq!(
            read(&mut fresh(64), &format!("{}.", nested(n, ""))),
            Err(11)
        );
        assert_eq!(read(&mut fresh(64), &nested(n, "")[1..]), Err(11));
        assert_eq!(
            read(&mut fresh(1), &format!("{} 1", nested(n, ""))),
            Err(11)
        );
    }
    // Too deep and too many pairs for slots and cells.
    for (cells, waiting) in [(1, 1), (1, 64), (70, 64), (70, 40)] {
        let mut store = full(cells, waiting);
        assert_eq!(read(&mut store, &nested(33, "1")), Err(12));
        assert_eq!(read(&mut store, &nested(33, ".")), Err(11));
    }
    // As many pairs as slots and cells, and one more.
    let list = |n: usize| format!("({})", vec!["1"; n].join(" "));
    for (cells, waiting, pairs, expected) in [
        (64, 0, 64, Ok(64)),
        (64, 0, 65, Err(7)),
        (63, 0, 64, Err(8)),
        (63, 0, 63, Ok(63)),
        (63, 0, 65, Err(7)),
        (70, 10, 54, Ok(55)),
        (70, 10, 55, Err(7)),
        (54, 10, 54, Err(8)),
        (55, 10, 54, Ok(55)),
        (70, 64, 1, Err(7)),
        (1, 64, 1, Err(7)),
        (1, 63, 1, Err(8)),
        (2, 63, 1, Ok(2)),
        (2, 63, 2, Err(7)),
    ] {
        let mut store = match waiting {
            0 => fresh(cells),
            _ => full(cells, waiting),
        };
        let reply = read(&mut store, &list(pairs));
        assert_eq!(reply, expected, "{cells} {waiting} {pairs}");
    }
    // Without a pair there is always room.
    let mut store = full(1, 64);
    assert_eq!(read(&mut store, "()"), Ok(0));
    assert_eq!(read(&mut store, "5"), Ok(32_773));
    // Question 1 comes first.
    let mut unfit = fresh(2);
    unfit.table[FIRST_FREE] = 3;
    for text in ["()", "x", "(1)", &nested(33, "")] {
        assert_eq!(read(&mut unfit, text), Err(1));
    }
    assert_eq!(write(&mut unfit, 0, 2), Err(1));
    assert_eq!(write(&mut unfit, 9, 0), Err(1));
}

#[test]
fn texts_end_at_4096_bytes() {
    for length in [4_095, 4_096, 4_097, 5_000, 70_000] {
        let text = format!("(1{}2)", " ".repeat(length - 4));
        let expected = if length <= 4_096 { Ok(2) } else { Err(11) };
        assert_eq!(read(&mut fresh(2), &text), expected);
        // Over 4,096 bytes comes before too deep.
        let text = format!("{}{}", nested(40, ""), " ".repeat(length - 80));
        let expected = if length <= 4_096 { 12 } else { 11 };
        assert_eq!(read(&mut fresh(2), &text), Err(expected));
    }
}

/// Writing is asked 1, 4 and 6.
#[test]
fn words_that_can_be_written() {
    let mut store = fresh(3);
    assert_eq!(read(&mut store, "(5)"), Ok(1));
    assert_eq!(write(&mut store, 1, 3).as_deref(), Ok("(5)"));
    assert_eq!(write(&mut store, 0, 2).as_deref(), Ok("()"));
    assert_eq!(write(&mut store, 0, 1), Err(13));
    assert_eq!(write(&mut store, 0, 0), Err(13));
    assert_eq!(write(&mut store, 32_768, 1).as_deref(), Ok("0"));
    assert_eq!(write(&mut store, 32_768, 0), Err(13));
    assert_eq!(write(&mut store, 65_535, 5).as_deref(), Ok("32767"));
    assert_eq!(write(&mut store, 65_535, 4), Err(13));
    // Illegal, free, and no longer held though a packet names it.
    for length in [0, 40] {
        assert_eq!(write(&mut store, 4, length), Err(4));
        assert_eq!(write(&mut store, 32_767, length), Err(4));
        assert_eq!(write(&mut store, 2, length), Err(6));
    }
    Call::Cons(1, 0).perform(&mut store);
    assert_eq!(write(&mut store, 1, 0), Err(6));
    assert_eq!(write(&mut store, 2, 5).as_deref(), Ok("((5))"));
    Call::Down(2, 1).perform(&mut store);
    assert_eq!(write(&mut store, 2, 5), Err(6));
}

/// 12 or 13 by which is met first, 12 if both meet at one bracket.
#[test]
fn writing_is_refused_by_what_is_met_first() {
    // (((... around nil: cell k has k + 1 brackets.
    let mut store = fresh(64);
    Call::Cons(0, 0).perform(&mut store);
    for x in 1..40 {
        if x == 31 || x == 32 {
            // They stay held: 32 brackets, and 33, the last of which is nil's.
            Call::Up(x, 1).perform(&mut store);
        }
        Call::Cons(x, 0).perform(&mut store);
        while Call::Step.perform(&mut store) != Reply::Idle {}
    }
    assert_eq!(write(&mut store, 31, 64), Ok(nested(32, "")));
    assert_eq!(write(&mut store, 31, 63), Err(13));
    for length in 0..70 {
        let expected = if length < 32 { 13 } else { 12 };
        assert_eq!(write(&mut store, 40, length), Err(expected), "{length}");
        assert_eq!(write(&mut store, 32, length), Err(expected), "{length}");
    }
    // (10 (10 (10 ...: its left an atom, its right another pair with it as left.
    let mut ring = fresh(3);
    for call in [
        Call::Cons(ATOM + 10, 0),
        Call::Up(1, 1),
        Call::Cons(1, 0),
        Call::ReplaceRight(1, 2),
    ] {
        assert!(
            matches!(call.perform(&mut ring), Reply::Done(_)),
            "{call:?}"
        );
    }
    // The 33rd bracket comes after 32 times the four bytes "(10 ".
    for length in 0..140 {
        let expected = if length < 128 { 13 } else { 12 };
        assert_eq!(write(&mut ring, 1, length), Err(expected), "{length}");
    }
    // A ring to the right never ends.
    let mut ring = fresh(1);
    for call in [
        Call::Cons(ATOM, 0),
        Call::Up(1, 1),
        Call::ReplaceRight(1, 1),
    ] {
        call.perform(&mut ring);
    }
    for length in [0, 1, 2, 31, 32, 33, 4_096, 4_097, 100_000] {
        assert_eq!(write(&mut ring, 1, length), Err(13));
    }
    // A ring to the left is too deep; nil's bracket counts there as well.
    let mut ring = fresh(1);
    for call in [Call::Cons(0, ATOM), Call::Up(1, 1), Call::ReplaceLeft(1, 1)] {
        call.perform(&mut ring);
    }
    for length in 0..40 {
        let expected = if length < 32 { 13 } else { 12 };
        assert_eq!(write(&mut ring, 1, length), Err(expected));
    }
}

/// A written text may be longer than one that can be read.
#[test]
fn long_written_text() {
    let mut store = fresh(13);
    Call::Cons(0, 0).perform(&mut store);
    for x in 1..=12 {
        Call::Up(x, 1).perform(&mut store);
        Call::Cons(x, x).perform(&mut store);
    }
    // The text of (x . x) is "(", that of x, " ", and that of x without its
    // first bracket: 2 L + 1 bytes, so from 4 on 5 times a power of 2 less 1.
    let length = 5 * (1 << 12) - 1;
    let text = write(&mut store, 13, 30_000).unwrap();
    assert_eq!(text.len(), length);
    assert_eq!(write(&mut store, 13, length - 1), Err(13));
    assert_eq!(read(&mut store, &text), Err(11));
}

/// The conses of a tree one by one, each by a call of its own.
fn conses(store: &mut Store, tree: &Tree) -> u16 {
    match tree {
        Tree::Nil => NIL,
        Tree::Atom(value) => ATOM + value,
        Tree::Pair(left, right) => {
            let (x, y) = (conses(store, left), conses(store, right));
            match Call::Cons(x, y).perform(store) {
                Reply::Done(new) => new,
                other => panic!("cons {x} {y}: {other:?}"),
            }
        }
    }
}

/// The conses one by one, through the row calls of both machines, give the same
/// store.
#[test]
fn reading_is_its_conses() {
    let mut rng = Rng::new(1);
    let (mut accepted, mut refused) = (0, 0);
    for _ in 0..4_000 {
        let cells = rng.within(1, 20);
        let calls = rng.below(60);
        let mut store = random_store(&mut rng, cells, calls).store;
        let depth = rng.below(5);
        let text = random::text(&mut rng, depth);
        let (mut plain, mut by_hand) = (store.clone(), store.clone());
        let reply = TextCall::Read(text.clone()).perform(&mut store);
        let value = reply.value.map_err(|refusal| refusal as u8);
        assert_eq!(value, slow::text::read(&mut plain, &text), "{text:?}");
        assert_eq!(store, plain, "{text:?}");
        match value {
            Ok(word) => {
                let tree = slow::text::tree(&text).unwrap();
                assert_eq!(conses(&mut by_hand, &tree) as usize, word);
                assert_eq!(store, by_hand, "{text:?}");
                assert_eq!(slow::text::opened(&store, word as u16, 200), Some(tree));
                accepted += 1;
            }
            Err(_) => refused += 1,
        }
    }
    assert!(accepted > 1_000 && refused > 300, "{accepted} {refused}");
}

/// Text written, where it is read and accepted, opens out into the same tree;
/// shared cells come back as copies.
#[test]
fn text_comes_back() {
    let mut rng = Rng::new(2);
    let (mut copied, mut shared) = (0, 0);
    for _ in 0..6_000 {
        let cells = rng.within(1, 9);
        let calls = rng.below(150);
        let mut first = random_store(&mut rng, cells, calls);
        let Some(word) = first.held_cell(&mut rng) else {
            continue;
        };
        let Ok(text) = write(&mut first.store, word, 4_096) else {
            continue;
        };
        let room = rng.within(1, 70);
        let calls = rng.below(40);
        let mut second = random_store(&mut rng, room, calls).store;
        let free = second.table[3..]
            .chunks(6)
            .filter(|cell| cell[4] == 0)
            .count();
        let slots = 64 - second.queue.count as usize;
        let tree = slow::text::opened(&first.store, word, 5_000).unwrap();
        match read(&mut second, &text) {
            Ok(copy) => {
                let copy = copy as u16;
                assert_eq!(slow::text::opened(&second, copy, 5_000), Some(tree.clone()));
                assert_eq!(write(&mut second, copy, text.len()), Ok(text));
                copied += 1;
                // More pairs than there are cells: some were met twice.
                let in_use = fields(&first.store).len();
                shared += usize::from(slow::text::pairs(&tree) > in_use);
            }
            Err(7) => assert!(slow::text::pairs(&tree) > slots),
            Err(8) => assert!(slow::text::pairs(&tree) > free),
            Err(other) => panic!("{text}: {other}"),
        }
    }
    assert!(copied > 1_000 && shared > 10, "{copied} {shared}");
}

/// On any store, sound or not, both calls end, write nothing past the cells and
/// change nothing where they refuse; questions 1, 11, 12, 14 and 4 are answered.
#[test]
fn text_calls_on_any_store() {
    use reference::generate::damaged::mutant;
    use reference::generate::edges::garbled;
    let mut rng = Rng::new(3);
    let mut replies = [0; 15];
    for i in 0..20_000 {
        let cells = rng.within(1, 8);
        let mut store = if i % 3 == 0 {
            garbled(&mut rng, cells)
        } else {
            mutant(&mut rng, cells)
        };
        store.table.extend([rng.word(), rng.word()]);
        let before = store.clone();
        let text = match rng.below(4) {
            0 => nested(33, "").into_bytes(),
            1 => random::broken(&mut rng, 3),
            _ => random::text(&mut rng, 3),
        };
        let first = slow::text::first_of_read(&before, &text).map(|_| ());
        let reply = TextCall::Read(text).perform(&mut store);
        if let Err(number) = first {
            assert_eq!(reply.value, Err(slow::refusal(number)));
        }
        replies[reply.value.map_or_else(|refusal| refusal as usize, |_| 0)] += 1;
        if reply.value.is_err() {
            assert_eq!(store, before);
        }
        if before.table.len() > 3 && before.table[0] <= 8 && reply.value.is_ok() {
            let past = length(before.table[0]);
            assert_eq!(store.table[past..], before.table[past..]);
        }
        assert_eq!(store.scratch, before.scratch);
        let before = store.clone();
        let word = match rng.below(4) {
            0 => rng.word(),
            _ => rng.within(0, cells + 1),
        };
        let length = rng.pick(&[0, 1, 5, 40, 4_096]);
        let first = slow::text::first_of_write(&before, word);
        let call = TextCall::Write {
            word,
            length,
            fill: 9,
        };
        let TextReply { value, buffer } = call.perform(&mut store);
        assert_eq!(store, before);
        if let Err(number) = first {
            assert_eq!(value, Err(slow::refusal(number)));
        }
        replies[value.map_or_else(|refusal: Refusal| refusal as usize, |_| 0)] += 1;
        let used = value.unwrap_or(0);
        assert!(buffer.unwrap()[used..].iter().all(|&byte| byte == 9));
    }
    println!("{replies:?}");
    for number in [0, 1, 4, 6, 7, 8, 11, 12, 13, 14] {
        assert!(replies[number] > 20, "{number}: {replies:?}");
    }
}
