//! The seat roster (A7): lists worked out by hand from document 02's words, and the
//! generated lists made three times, from the plain list, from the history of the
//! calls and by a roster in cells.

mod seats;

use std::collections::{BTreeMap, BTreeSet};
use std::fs;
use std::path::Path;

use reference::generate::rng::Rng;
use reference::generate::roster::{write_list, LISTS};
use reference::roster;

fn list(name: &str, seed: u64, cases: usize) -> String {
    let mut text = Vec::new();
    write_list(&mut Rng::new(seed), name, cases, &mut text).unwrap();
    String::from_utf8(text).unwrap()
}

/// What is written for a list, and whether it ends with an error.
fn output_and_error(list: &str) -> (String, bool) {
    let mut output = Vec::new();
    let error = roster::run(list.as_bytes(), &mut output).is_err();
    (String::from_utf8(output).unwrap(), error)
}

fn output(list: &str) -> String {
    let (output, error) = output_and_error(list);
    assert!(!error, "after {output}");
    output
}

fn assert_same(name: &str, one: &str, other: &str) {
    for (i, (one, other)) in one.lines().zip(other.lines()).enumerate() {
        assert_eq!(one, other, "{name}, output line {}", i + 1);
    }
    assert_eq!(one.len(), other.len(), "{name}");
}

/// Pairs of a line and what is written for it, in short: for a call the reply, then
/// after a slash the number of cells in use, from which the line A follows, and after
/// another the scratch. A refusal that changes nothing has the reply alone.
fn by_hand(lines: &[(&str, &str)]) {
    let mut input = String::new();
    let mut expected = String::new();
    for (line, answer) in lines {
        input += &format!("{line}\n");
        let parts: Vec<&str> = answer.split(" / ").collect();
        match parts[..] {
            [""] => {}
            ["UNDECIDED"] => expected += &format!("{line} UNDECIDED\n"),
            [reply] => expected += &format!("{line} {reply}\nSAME\n"),
            [reply, in_use, scratch] => {
                let one = u8::from(in_use != "0");
                let after = format!("A 0 0 {one} {one} {one} {in_use}");
                expected += &format!("{line} {reply}\n{after}\nS {scratch}\n");
            }
            _ => panic!("{answer}"),
        }
    }
    assert_same("by hand", &output(&input), &expected);
    let (history, error) = seats::history::output(&input);
    assert!(!error);
    assert_same("by hand, history", &history, &expected);
    assert_same("by hand, cells", &seats::cells::output(&input), &expected);
}

/// The example of FORMAT.md, and that it stands there.
#[test]
fn the_example_of_the_format() {
    let input = "T 27 1 27 0\nS 5 1 5 7\nR 0 3 0\nR 1 600 4094\nR 1 1 0\nR 2 1 0\nR 4 4094 0\n\
                 R 3 601 0\nV 1\nR 1 600 4095\nU 2 600 0\n";
    let expected = "R 0 3 0 OK 0\nA 0 0 0 0 0 0\nS 5 1 5 7\n\
                    R 1 600 4094 OK 0\nA 0 0 1 1 1 2\nS 5 2 3 0 2 7\n\
                    R 1 1 0 NO 8\nA 0 0 1 1 1 2\nS 5 2 3 0 2 7\n\
                    R 2 1 0 ABSENT\nA 0 0 1 1 1 2\nS 5 2 3 0 2 7\n\
                    R 4 4094 0 OK 1\nA 0 0 1 1 1 2\nS 5 2 3 0 2 7\n\
                    R 3 601 0 NO 15\nSAME\nR 1 600 4095 NO 14\nSAME\nU 2 600 0 UNDECIDED\n";
    assert_eq!(output(input), expected);
    let format = Path::new(env!("CARGO_MANIFEST_DIR")).join("FORMAT.md");
    let format = fs::read_to_string(format).unwrap();
    for text in [input, expected] {
        let lines: String = text.lines().map(|line| format!("    {line}\n")).collect();
        assert!(format.contains(&lines), "{lines}");
    }
}

/// "Set, look up, remove and count must behave as a plain list would."
#[test]
fn a_plain_list() {
    by_hand(&[
        ("T 63 1 63 0", ""),
        ("S 10 1 10 1", ""),
        ("R 0 10 0", "OK 0 / 0 / 10 1 10 1"),
        ("R 4 0 0", "OK 0 / 0 / 10 1 10 0"),
        ("R 2 5 0", "ABSENT / 0 / 10 1 10 0"),
        ("R 3 5 0", "ABSENT / 0 / 10 1 10 0"),
        ("R 1 5 50", "OK 0 / 2 / 10 1 10 0"),
        ("R 2 5 0", "OK 50 / 2 / 10 1 10 0"),
        ("R 2 50 0", "ABSENT / 2 / 10 1 10 0"),
        ("R 1 600 0", "OK 0 / 4 / 10 1 10 0"),
        ("R 1 1 4094", "OK 0 / 6 / 10 1 10 0"),
        // A reading of 0 is a reading.
        ("R 2 600 0", "OK 0 / 6 / 10 1 10 0"),
        ("R 2 1 0", "OK 4094 / 6 / 10 1 10 0"),
        // Each seat stands once, with the reading given last.
        ("R 1 5 51", "OK 0 / 6 / 10 1 10 0"),
        ("R 2 5 0", "OK 51 / 6 / 10 1 10 0"),
        ("R 4 0 0", "OK 3 / 6 / 10 1 10 0"),
        ("R 4 1 0", "OK 2 / 6 / 10 1 10 0"),
        ("R 4 50 0", "OK 2 / 6 / 10 1 10 0"),
        ("R 4 51 0", "OK 2 / 6 / 10 1 10 0"),
        ("R 4 52 0", "OK 1 / 6 / 10 1 10 0"),
        ("R 4 4094 0", "OK 1 / 6 / 10 1 10 0"),
        ("R 4 4095 0", "OK 0 / 6 / 10 1 10 0"),
        ("R 4 32767 0", "OK 0 / 6 / 10 1 10 0"),
        ("R 4 32768 0", "OK 0 / 6 / 10 1 10 0"),
        ("R 4 32819 0", "OK 0 / 6 / 10 1 10 0"),
        ("R 4 65535 0", "OK 0 / 6 / 10 1 10 0"),
        ("R 3 600 0", "OK 0 / 4 / 10 1 10 0"),
        ("R 3 600 0", "ABSENT / 4 / 10 1 10 0"),
        ("R 2 600 0", "ABSENT / 4 / 10 1 10 0"),
        ("R 2 1 0", "OK 4094 / 4 / 10 1 10 0"),
        ("R 3 5 0", "OK 0 / 2 / 10 1 10 0"),
        ("R 3 1 0", "OK 0 / 0 / 10 1 10 0"),
        ("R 4 0 0", "OK 0 / 0 / 10 1 10 0"),
        ("R 1 5 7", "OK 0 / 2 / 10 1 10 0"),
        ("R 0 4 0", "OK 0 / 0 / 10 1 10 0"),
        ("R 2 5 0", "ABSENT / 0 / 10 1 10 0"),
    ]);
}

/// "Question 8 fails exactly where the seat is new and C less twice the seats present
/// is below two", and the scratch is then as after an audit.
#[test]
fn no_cells_for_a_new_seat() {
    by_hand(&[
        ("T 9 1 9 0", ""),
        ("S 2 2 1 5 1 6", ""),
        ("R 0 1 0", "OK 0 / 0 / 2 2 1 5 1 6"),
        ("R 1 1 1", "NO 8 / 0 / 2 2 1 0 1 6"),
        ("R 3 1 0", "ABSENT / 0 / 2 2 1 0 1 6"),
    ]);
    by_hand(&[
        ("T 33 1 33 9", ""),
        ("Q 65535 65535 1 7 8 9 10 11", ""),
        ("R 0 2 0", "OK 0 / 0 / 0 0"),
        ("S 2 1 2 5", ""),
        ("R 1 1 1", "OK 0 / 2 / 2 1 2 0"),
        ("S 3 1 3 5", ""),
        ("R 1 2 1", "NO 8 / 2 / 3 2 2 0 1 5"),
        ("R 1 1 2", "OK 0 / 2 / 3 2 2 0 1 5"),
        ("R 2 1 0", "OK 2 / 2 / 3 2 2 0 1 5"),
        ("R 3 1 0", "OK 0 / 0 / 3 2 2 0 1 5"),
        ("R 1 2 1", "OK 0 / 2 / 3 2 2 0 1 5"),
        ("R 1 1 1", "NO 8 / 2 / 3 2 2 0 1 5"),
        ("R 0 5 0", "OK 0 / 0 / 3 2 2 0 1 5"),
        ("R 1 2 1", "NO 2"),
        ("S 5 1 5 5", ""),
        ("R 1 2 1", "OK 0 / 2 / 5 1 5 0"),
        ("R 1 3 1", "OK 0 / 4 / 5 1 5 0"),
        // One cell is left.
        ("S 5 1 5 5", ""),
        ("R 1 4 1", "NO 8 / 4 / 5 1 5 0"),
        ("R 1 3 9", "OK 0 / 4 / 5 1 5 0"),
        ("R 2 2 0", "OK 1 / 4 / 5 1 5 0"),
        ("R 2 3 0", "OK 9 / 4 / 5 1 5 0"),
        ("R 2 4 0", "ABSENT / 4 / 5 1 5 0"),
    ]);
}

/// "A call is asked 15, then 1 and 2 as a step is, a set then 4, 14 and 8", and a
/// refusal other than 8 changes nothing.
#[test]
fn what_is_asked_before_what() {
    by_hand(&[
        ("T 15 1 15 0", ""),
        // C is 0: all is 1 but what is 15 before.
        ("R 1 0 65535", "NO 15"),
        ("R 1 1 65535", "NO 1"),
        ("R 2 601 0", "NO 15"),
        ("R 2 600 0", "NO 1"),
        ("R 3 0 0", "NO 15"),
        ("R 3 1 0", "NO 1"),
        ("R 4 0 0", "NO 1"),
        ("R 4 601 0", "NO 1"),
        ("R 0 3 0", "NO 1"),
        ("R 0 4097 0", "NO 3"),
        ("R 0 0 0", "NO 3"),
        ("R 0 2 0", "OK 0 / 0 / 0 0"),
        // No scratch.
        ("R 1 601 65535", "NO 15"),
        ("R 1 1 65535", "NO 2"),
        ("R 1 1 4095", "NO 2"),
        ("R 2 0 0", "NO 15"),
        ("R 2 1 0", "NO 2"),
        ("R 3 65535 0", "NO 15"),
        ("R 3 600 0", "NO 2"),
        ("R 4 65535 0", "NO 2"),
        ("S 1 1 1 4", ""),
        ("R 4 65535 0", "NO 2"),
        ("S 2 1 2 4", ""),
        ("R 1 0 65535", "NO 15"),
        ("R 1 1 65535", "NO 4"),
        ("R 1 1 32768", "NO 4"),
        ("R 1 1 32767", "NO 14"),
        ("R 1 1 4095", "NO 14"),
        ("R 1 601 4095", "NO 15"),
        ("R 1 1 4094", "OK 0 / 2 / 2 1 2 0"),
        ("S 2 1 2 4", ""),
        // Full: 15, 4 and 14 come before 8, and 14 stands for a seat present too.
        ("R 1 0 1", "NO 15"),
        ("R 1 2 32768", "NO 4"),
        ("R 1 2 4095", "NO 14"),
        ("R 1 1 4095", "NO 14"),
        ("R 1 1 65535", "NO 4"),
        // A fresh that is refused leaves the roster.
        ("R 0 3 0", "NO 1"),
        ("R 0 4097 0", "NO 3"),
        ("R 1 2 0", "NO 8 / 2 / 2 1 2 0"),
        ("R 2 1 0", "OK 4094 / 2 / 2 1 2 0"),
    ]);
}

/// "Any other is treated as a store that fails the audit": 15, 1, 2, 4 and 14 are
/// answered there, fresh is accepted, and no more is decided.
#[test]
fn stores_that_are_no_roster() {
    for alter in ["V 0", "V 1", "V 65535", "W 3 0", "W 14 1", "Q 0 0 0"] {
        by_hand(&[
            ("T 15 1 15 0", ""),
            ("S 2 1 2 4", ""),
            ("R 0 2 0", "OK 0 / 0 / 2 1 2 4"),
            ("R 1 9 9", "OK 0 / 2 / 2 1 2 0"),
            (alter, ""),
            ("R 1 0 0", "NO 15"),
            ("R 1 9 32768", "NO 4"),
            ("R 1 9 4095", "NO 14"),
            ("R 0 3 0", "NO 1"),
            ("S 1 1 1 4", ""),
            ("R 2 9 0", "NO 2"),
            ("R 1 8 0", "NO 2"),
            ("R 4 8 0", "NO 2"),
            ("R 0 1 0", "OK 0 / 0 / 1 1 1 4"),
            ("R 2 9 0", "ABSENT / 0 / 1 1 1 0"),
            (alter, ""),
            ("R 1 9 40000", "NO 4"),
            ("U 2 9 0", "UNDECIDED"),
            ("U 1 0 0", "UNDECIDED"),
            ("U 0 0 0", "UNDECIDED"),
            ("U 0 1 0", "UNDECIDED"),
            ("S 0 0", ""),
            ("V 0", ""),
            ("U 2 9 0", "UNDECIDED"),
            ("T 9 1 9 0", ""),
            ("R 2 9 0", "NO 1"),
        ]);
    }
}

/// No definition decides the ends of a roster's free chain, but they are cells of it
/// or 0: with a lower C question 1 may pass or not.
#[test]
fn ends_that_no_definition_decides() {
    by_hand(&[
        ("T 27 1 27 0", ""),
        ("S 4 1 4 0", ""),
        ("R 0 4 0", "OK 0 / 0 / 4 1 4 0"),
        ("R 1 1 1", "OK 0 / 2 / 4 1 4 0"),
        // A longer table than needed has no part in it.
        ("W 0 5", ""),
        ("R 2 1 0", "NO 1"),
        ("W 0 3", ""),
        ("R 2 0 0", "NO 15"),
        // 1 or 4: in neither case is anything changed.
        ("U 1 1 65535", "UNDECIDED"),
        ("R 2 0 0", "NO 15"),
        ("R 0 5 0", "NO 1"),
        ("S 2 1 2 0", ""),
        ("U 1 1 1", "UNDECIDED"),
        ("R 2 0 0", "NO 15"),
        ("S 3 1 3 0", ""),
        // 1, or no question fails.
        ("U 2 1 0", "UNDECIDED"),
        ("U 2 0 0", "UNDECIDED"),
    ]);
    // Ends that are given, or those of a fresh, are known.
    by_hand(&[
        ("T 27 1 27 0", ""),
        ("S 4 1 4 0", ""),
        ("R 0 4 0", "OK 0 / 0 / 4 1 4 0"),
        ("W 0 3", ""),
        ("R 1 1 65535", "NO 1"),
        ("W 2 3", ""),
        ("R 1 1 65535", "NO 4"),
        ("R 0 4 0", "OK 0 / 0 / 4 1 4 0"),
        ("R 1 1 1", "OK 0 / 2 / 4 1 4 0"),
        ("W 0 3", ""),
        ("W 1 0", ""),
        ("W 2 4", ""),
        ("R 1 1 65535", "NO 1"),
        ("W 2 3", ""),
        ("R 1 1 65535", "NO 4"),
        ("W 1 4", ""),
        ("R 1 1 65535", "NO 1"),
    ]);
}

#[test]
fn lines_that_are_errors() {
    let roster = "T 15 1 15 0\nS 2 1 2 0\nR 0 2 0\n";
    let altered = format!("{roster}V 0\n");
    for (before, line) in [
        ("", "X 1"),
        ("", "C 0 1 0"),
        ("", "R 5 1 0"),
        ("", "R 0 1"),
        ("", "R 0 1 1"),
        ("", "R 2 1 1"),
        ("", "R 3 1 1"),
        ("", "R 4 1 1"),
        ("", "R 1 65536 0"),
        ("", "V 65536"),
        ("", "V"),
        ("", "T 24591 1 24591 0"),
        ("", "S 4101 1 4101 0"),
        ("", "T 2 1 1 0"),
        (roster, "W 15 0"),
        (roster, "W 65536 0"),
        (roster, "U 2 1 0"),
        (roster, "U 0 1 0"),
        (roster, "U 1 0 0"),
        (&altered, "R 2 1 0"),
        (&altered, "R 4 1 0"),
        (&altered, "R 3 1 0"),
        (&altered, "R 1 1 4094"),
        (&altered, "U 1 1 4095"),
        (&altered, "U 2 601 0"),
        (&altered, "U 0 1 0"),
        (&altered, "U 2 1 0\nR 2 0 0"),
        (&altered, "U 2 1 0\nR 0 1 0"),
    ] {
        let before_alone = output(before);
        let (output, error) = output_and_error(&format!("{before}{line}\n"));
        assert!(error, "{line}");
        let undecided = output.strip_prefix(&before_alone).unwrap();
        assert!(["", "U 2 1 0 UNDECIDED\n"].contains(&undecided), "{line}");
    }
}

#[test]
fn every_list_is_the_same_by_history() {
    for name in LISTS {
        for seed in 2..=4 {
            let cases = if name == "full" { 2 } else { 60 };
            let list = list(name, seed, cases);
            let (history, error) = seats::history::output(&list);
            assert!(!error, "{name}");
            assert_same(name, &output(&list), &history);
        }
    }
}

#[test]
fn random_runs_are_the_same_by_history() {
    for name in ["runs", "altered", "others"] {
        let list = list(name, 77, 1_500);
        let (history, error) = seats::history::output(&list);
        assert!(!error, "{name}");
        assert_same(name, &output(&list), &history);
    }
}

/// What the runner says of a roster's store is so in one that is made of cells.
#[test]
fn every_list_is_the_same_in_cells() {
    for name in LISTS {
        let cases = if name == "full" { 2 } else { 400 };
        let list = list(name, 5, cases);
        assert_same(name, &output(&list), &seats::cells::output(&list));
    }
}

/// All seats, walked over at each call.
#[test]
#[ignore = "long"]
fn full_rosters_are_the_same_in_cells() {
    let list = list("full", 6, 5);
    assert_same("full", &output(&list), &seats::history::output(&list).0);
    assert_same("full", &output(&list), &seats::cells::output(&list));
    let (list, expected) = gate();
    assert_same("gate", &seats::cells::output(&list), &expected);
}

/// One line of any sort, with numbers that are mostly small, so that what stands
/// before matters.
fn any_line(rng: &mut Rng) -> String {
    let cells = rng.within(0, 5);
    let letter = if rng.one_in(4) { 'U' } else { 'R' };
    let seat = match rng.below(8) {
        0 => rng.pick(&[0, 600, 601, 65_535]),
        _ => rng.within(1, 3),
    };
    let reading = match rng.below(8) {
        0 => rng.pick(&[4_095, 32_767]),
        1 => rng.pick(&[32_768, 65_535]),
        _ => rng.within(0, 4_094),
    };
    match rng.below(30) {
        0 => format!("T 33 1 33 {}", rng.pick(&[0, 1, 4, 6])),
        1 => format!("Q {} {} 0", rng.within(62, 64), rng.within(0, 65)),
        2 => format!("W {} {}", rng.below(3), rng.within(0, 6)),
        3 => format!("W {} {}", rng.within(3, 32), rng.word()),
        4 => format!("V {}", rng.within(0, 5)),
        5 | 6 => format!("S {} 1 {0} {}", rng.within(1, 7), rng.word()),
        7..=9 => format!("{letter} 0 {cells} 0"),
        10..=17 => format!("{letter} 1 {seat} {reading}"),
        18..=21 => format!("{letter} 2 {seat} 0"),
        22..=25 => format!("{letter} 3 {seat} 0"),
        _ => format!("{letter} 4 {reading} 0"),
    }
}

/// Lists of any lines, each up to its first error: an R that the papers don't decide
/// or a U that they do. A line that is an error is left out, and the list goes on.
#[test]
fn any_lines_are_the_same_by_history() {
    let mut rng = Rng::new(5);
    let mut errors = 0;
    let mut calls = 0;
    for _ in 0..400 {
        let mut list = "T 33 1 33 0\nS 5 1 5 9\n".to_string();
        for _ in 0..80 {
            let next = format!("{list}{}\n", any_line(&mut rng));
            let (one, error) = output_and_error(&next);
            let (history, same_error) = seats::history::output(&next);
            assert_eq!(error, same_error, "{next}");
            assert_same(&next, &one, &history);
            if error {
                errors += 1;
            } else {
                list = next;
            }
        }
        calls += list.lines().filter(|line| line.starts_with('R')).count();
        assert_same(&list, &output(&list), &seats::cells::output(&list));
    }
    assert!(errors > 3_000 && calls > 3_000, "{errors} {calls}");
}

/// The gate's list and what is expected of it.
fn gate() -> (String, String) {
    let root = Path::new(env!("CARGO_MANIFEST_DIR")).parent().unwrap();
    let folder = root.join("crates/roster_cases");
    let read = |name: &str| fs::read_to_string(folder.join(name)).unwrap();
    (read("stdin"), read("stdout"))
}

#[test]
fn the_gate_has_what_is_stored() {
    let (list, expected) = gate();
    assert_same("gate", &output(&list), &expected);
    assert_same("gate", &seats::history::output(&list).0, &expected);
}

#[test]
fn the_gate_has_what_it_is_for() {
    let (list, output) = gate();
    assert!(list.len() < 1_500_000 && output.len() < 3_000_000);
    let mut counts = BTreeMap::new();
    for line in output.lines().filter(|line| line.starts_with(['R', 'U'])) {
        let parts: Vec<&str> = line.split(' ').collect();
        let reply = match parts[4..] {
            ["NO", number] => format!("NO {number}"),
            _ => parts[4].to_string(),
        };
        *counts.entry((parts[1].to_string(), reply)).or_insert(0) += 1;
    }
    println!("{counts:?}");
    let calls: usize = counts.values().sum();
    assert!((6_000..=16_000).contains(&calls), "{calls}");
    let replies: [(&str, &[&str]); 5] = [
        ("0", &["OK", "NO 1", "NO 3", "UNDECIDED"]),
        (
            "1",
            &[
                "OK",
                "NO 1",
                "NO 2",
                "NO 4",
                "NO 8",
                "NO 14",
                "NO 15",
                "UNDECIDED",
            ],
        ),
        ("2", &["OK", "ABSENT", "NO 1", "NO 2", "NO 15", "UNDECIDED"]),
        ("3", &["OK", "ABSENT", "NO 1", "NO 2", "NO 15", "UNDECIDED"]),
        ("4", &["OK", "NO 1", "NO 2", "UNDECIDED"]),
    ];
    for (code, all) in replies {
        for reply in all {
            let count = counts.get(&(code.to_string(), reply.to_string()));
            assert!(count.is_some_and(|&count| count >= 20), "{code} {reply}");
        }
        let others = counts.keys().filter(|key| key.0 == code).count();
        assert_eq!(others, all.len(), "{counts:?}");
    }
    // Rosters of every filling from none to all seats.
    let filled: BTreeSet<u32> = output
        .lines()
        .filter(|line| line.starts_with('A'))
        .map(|line| line.rsplit_once(' ').unwrap().1.parse().unwrap())
        .collect();
    assert_eq!(filled, (0..=600).map(|seats| 2 * seats).collect());
}
