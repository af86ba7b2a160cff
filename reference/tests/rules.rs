//! The program `reference rules`.

mod slow;

use std::fs;
use std::io::{self, BufReader, Read};
use std::path::Path;

use reference::generate::rng::Rng;
use reference::generate::texts;
use reference::rules;
use reference::store::Store;

fn output(input: &[u8]) -> String {
    // Through a short buffer, so that lines go over many reads.
    let mut output = Vec::new();
    rules::run(BufReader::with_capacity(37, input), &mut output).unwrap();
    String::from_utf8(output).unwrap()
}

#[test]
fn lines_worked_out_by_hand() {
    for (input, expected) in [
        ("", ""),
        ("\n", "NO 11\n"),
        ("()", "()\n"),
        ("()\n", "()\n"),
        ("(1 . (2 . 3))\n7\n\n ( ) \n", "(1 2 . 3)\n7\nNO 11\n()\n"),
        ("(1)\r\n(2)", "NO 11\n(2)\n"),
        ("x\0\n\0", "NO 11\nNO 11\n"),
    ] {
        assert_eq!(output(input.as_bytes()), expected, "{input:?}");
    }
    assert_eq!(output(b"\xff\n(1\xff)"), "NO 11\nNO 11\n");
    let clipped = b"4094\n4095\n(4094)\n(4095)\n(1 . 32767)\n32768\n(2 4094)";
    let expected = "4094\nNO 14\n(4094)\nNO 14\nNO 14\nNO 11\n(2 4094)\n";
    assert_eq!(output(clipped), expected);
    let line = |n: usize| format!("({})\n", vec!["1"; n].join(" "));
    assert_eq!(output(line(64).as_bytes()), line(64));
    assert_eq!(output(line(65).as_bytes()), "NO 7\n");
    let deep = |n: usize| format!("{}{}\n", "(".repeat(n), ")".repeat(n));
    assert_eq!(output(deep(32).as_bytes()), deep(32));
    assert_eq!(output(deep(33).as_bytes()), "NO 12\n");
    for (length, expected) in [(4_096, "(1 2)\n"), (4_097, "NO 11\n"), (70_000, "NO 11\n")] {
        let text = format!("(1{}2)\n5\n", " ".repeat(length - 4));
        assert_eq!(output(text.as_bytes()), format!("{expected}5\n"));
        // What is over 4,096 bytes counts, though it is but spaces.
        let text = format!("7{}\n5", " ".repeat(length - 1));
        let expected = expected.replace("(1 2)", "7");
        assert_eq!(output(text.as_bytes()), format!("{expected}5\n"));
    }
}

/// The store is empty again after each line, so every line has 64 cells.
#[test]
fn every_line_finds_the_whole_store() {
    let line = format!("({})\n", vec!["(1 . 2)"; 32].join(" "));
    assert_eq!(output(line.repeat(50).as_bytes()), line.repeat(50));
    let mixed = format!("{line}(1 2 3\n{line}()\n8\n{line}");
    let expected = format!("{line}NO 11\n{line}()\n8\n{line}");
    assert_eq!(output(mixed.as_bytes()), expected);
}

/// A second, plain program: a new store for each line.
fn plain(input: &[u8]) -> String {
    let mut expected = String::new();
    let body = input.strip_suffix(b"\n").unwrap_or(input);
    for text in body.split(|&byte| byte == b'\n') {
        let mut store = Store::zeroed(3 + 6 * 64, 64);
        slow::perform(&mut store, reference::call::Call::Fresh(64));
        let mut buffer = vec![0; 4_096];
        let answer = slow::text::read(&mut store, text)
            .and_then(|word| slow::text::write(&store, word as u16, &mut buffer));
        expected += &match answer {
            Ok(length) => String::from_utf8(buffer[..length].to_vec()).unwrap(),
            Err(number) => format!("NO {number}"),
        };
        expected.push('\n');
    }
    expected
}

#[test]
fn generated_lines() {
    let mut input = Vec::new();
    texts::rules(&mut Rng::new(5), 2_600, &mut input).unwrap();
    assert_eq!(output(&input), plain(&input));
}

#[test]
fn stored_lines() {
    let root = Path::new(env!("CARGO_MANIFEST_DIR")).parent().unwrap();
    let input = fs::read(root.join("crates/rules/stdin")).unwrap();
    let stored = fs::read_to_string(root.join("crates/rules/stdout")).unwrap();
    assert!(!input.ends_with(b"\n"));
    assert!(stored.lines().count() >= 3_000);
    assert_eq!(output(&input), stored);
    assert_eq!(plain(&input), stored);
    for answer in ["NO 7", "NO 11", "NO 12", "NO 14"] {
        assert!(stored.lines().filter(|&line| line == answer).count() >= 10);
    }
    // Most lines that are within the notation are accepted.
    let refused = |number: &str| stored.lines().filter(|&line| line == number).count();
    let within = stored.lines().count() - refused("NO 11");
    assert!(10 * refused("NO 14") < 3 * within, "{}", refused("NO 14"));
    for border in ["4094", "(4094)", "(1 . 4094)"] {
        assert!(stored.lines().any(|line| line == border), "{border}");
    }
    for byte in [0, 13, 255] {
        assert!(input.contains(&byte));
    }
    let lengths: Vec<usize> = input
        .split(|&byte| byte == b'\n')
        .map(<[u8]>::len)
        .collect();
    for length in [0, 4_096, 4_097, 70_000] {
        assert!(lengths.contains(&length));
    }
}

/// Lines of any length in bounded memory: a thousand million bytes would not do
/// here, some millions show that nothing is kept.
#[test]
fn a_long_line() {
    let input = io::repeat(b'(').take(5_000_000).chain(&b"\n(1)"[..]);
    let mut output = Vec::new();
    rules::run(BufReader::new(input), &mut output).unwrap();
    assert_eq!(output, b"NO 11\n(1)\n");
}
