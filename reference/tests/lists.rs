//! The lists for `reference states`: every list's output, made a second time
//! by a plain reader of the format over the slow machine.

mod slow;

use std::collections::{BTreeMap, BTreeSet};
use std::fs;
use std::path::Path;

use reference::annotate::{self, Codes};
use reference::call::{Call, Reply};
use reference::format::{Line, Reader};
use reference::generate::rng::Rng;
use reference::generate::{write_list, LISTS};
use reference::question::Refusal;
use reference::queue::Queue;
use reference::states::{self, Runner};
use reference::store::Store;

fn list(name: &str, seed: u64, cases: usize) -> String {
    let mut text = Vec::new();
    write_list(&mut Rng::new(seed), name, cases, &mut text).unwrap();
    String::from_utf8(text).unwrap()
}

fn fast_output(list: &str) -> String {
    let mut output = Vec::new();
    states::run(list.as_bytes(), &mut output).unwrap();
    String::from_utf8(output).unwrap()
}

fn annotated(list: &str, codes: &str) -> String {
    let mut output = Vec::new();
    let codes = Codes::parse(codes).unwrap();
    annotate::run(codes, list.as_bytes(), &mut output).unwrap();
    String::from_utf8(output).unwrap()
}

fn runs(words: &[u16]) -> String {
    let mut runs: Vec<(usize, u16)> = Vec::new();
    for &word in words {
        match runs.last_mut() {
            Some((count, last)) if *last == word => *count += 1,
            _ => runs.push((1, word)),
        }
    }
    let mut text = format!("{} {}", words.len(), runs.len());
    for (count, word) in runs {
        text += &format!(" {count} {word}");
    }
    text
}

fn written(store: &Store) -> String {
    let queue = &store.queue;
    let mut slots = Vec::new();
    for i in 0..64 {
        let words = [queue.kinds[i], queue.a[i], queue.b[i], queue.c[i]];
        if words != [0; 4] {
            let [kind, a, b, c] = words;
            slots.push(format!(" {i} {kind} {a} {b} {c}"));
        }
    }
    format!(
        "T {}\nQ {} {} {}{}\nS {}\n",
        runs(&store.table),
        queue.place,
        queue.count,
        slots.len(),
        slots.concat(),
        runs(&store.scratch)
    )
}

fn checksum(store: &Store) -> u64 {
    let mut numbers = vec![store.table.len() as u64];
    numbers.extend(store.table.iter().map(|&word| u64::from(word)));
    let queue = &store.queue;
    numbers.extend([u64::from(queue.place), u64::from(queue.count)]);
    for i in 0..64 {
        let words = [queue.kinds[i], queue.a[i], queue.b[i], queue.c[i]];
        numbers.extend(words.map(u64::from));
    }
    numbers.push(store.scratch.len() as u64);
    numbers.extend(store.scratch.iter().map(|&word| u64::from(word)));
    let mut sum = 0;
    for number in numbers {
        sum = (sum * 65_599 + number + 1) % 4_294_967_291;
    }
    sum
}

fn words(numbers: &[usize]) -> Vec<u16> {
    let mut words = Vec::new();
    for run in numbers[2..].chunks(2) {
        for _ in 0..run[0] {
            words.push(run[1] as u16);
        }
    }
    assert_eq!(words.len(), numbers[0]);
    assert_eq!(numbers.len(), 2 + 2 * numbers[1]);
    words
}

fn call(code: usize, p: u16, q: u16) -> Call {
    [
        Call::Fresh(p),
        Call::Car(p),
        Call::Cdr(p),
        Call::Cons(p, q),
        Call::ReplaceLeft(p, q),
        Call::ReplaceRight(p, q),
        Call::Up(p, q),
        Call::Down(p, q),
        Call::Step,
        Call::Audit,
    ][code]
}

fn text_of(numbers: &[usize]) -> Vec<u8> {
    assert_eq!(numbers.len(), 2 + numbers[1]);
    numbers[2..].iter().map(|&byte| byte as u8).collect()
}

fn is_undecided(store: &Store, call: Call) -> bool {
    !matches!(
        call,
        Call::Fresh(_) | Call::Audit | Call::Car(0) | Call::Cdr(0)
    ) && slow::first_questions(store, call).is_ok()
        && slow::audit(store).is_some()
}

fn slow_output(list: &str) -> String {
    let mut output = String::new();
    let mut store = Store::zeroed(0, 0);
    let mut undecided = false;
    for line in list.lines() {
        let (letter, rest) = line.split_once(' ').unwrap();
        if letter == "#" {
            continue;
        }
        let numbers: Vec<usize> = rest.split(' ').map(|text| text.parse().unwrap()).collect();
        match letter {
            "T" => {
                store = Store::zeroed(0, 0);
                store.table = words(&numbers);
                undecided = false;
            }
            "S" => store.scratch = words(&numbers),
            "W" => store.table[numbers[0]] = numbers[1] as u16,
            "Q" => {
                store.queue = Queue::empty();
                store.queue.place = numbers[0] as u16;
                store.queue.count = numbers[1] as u16;
                for slot in numbers[3..].chunks(5) {
                    store.queue.kinds[slot[0]] = slot[1] as u16;
                    store.queue.a[slot[0]] = slot[2] as u16;
                    store.queue.b[slot[0]] = slot[3] as u16;
                    store.queue.c[slot[0]] = slot[4] as u16;
                }
            }
            "C" | "B" | "U" if numbers[0] >= 10 => {
                let first = match numbers[0] {
                    10 => {
                        let first = slow::text::first_of_read(&store, &text_of(&numbers));
                        first.map(|_| ())
                    }
                    _ => slow::text::first_of_write(&store, numbers[1] as u16),
                };
                undecided = undecided || slow::text::is_undecided(&store, first);
                let shown = match numbers[0] {
                    10 => format!("{letter} 10 {}", numbers[1]),
                    _ => line.to_string(),
                };
                if undecided {
                    output += &format!("{shown} UNDECIDED\n");
                    continue;
                }
                assert_ne!(letter, "U", "{line}");
                let mut buffer = None;
                let reply = match numbers[0] {
                    10 => slow::text::read(&mut store, &text_of(&numbers)),
                    _ => {
                        let buffer = buffer.insert(vec![numbers[3] as u8; numbers[2]]);
                        slow::text::write(&store, numbers[1] as u16, buffer)
                    }
                };
                output += &match reply {
                    Ok(value) => format!("{shown} OK {value}\n"),
                    Err(number) => format!("{shown} NO {number}\n"),
                };
                if letter == "C" {
                    output += &written(&store);
                } else {
                    output += &format!("H {}\n", checksum(&store));
                }
                if let Some(buffer) = buffer {
                    let bytes: Vec<u16> = buffer.iter().map(|&byte| byte.into()).collect();
                    output += &format!("F {}\n", runs(&bytes));
                }
            }
            "C" | "B" | "U" => {
                let call = call(numbers[0], numbers[1] as u16, numbers[2] as u16);
                undecided = undecided || is_undecided(&store, call);
                if undecided {
                    output += &format!("{line} UNDECIDED\n");
                    continue;
                }
                assert_ne!(letter, "U", "{line}");
                let reply = match slow::perform(&mut store, call) {
                    Reply::Done(value) => format!("OK {value}"),
                    Reply::Refused(refusal) => format!("NO {}", refusal as u8),
                    Reply::Idle => "IDLE".to_string(),
                    Reply::Taken { kind, freed } => format!("TAKEN {kind} {freed}"),
                    Reply::Sound => "SOUND".to_string(),
                    Reply::Broken(rule) => format!("BROKEN {}", rule as u8),
                };
                output += &format!("{line} {reply}\n");
                if letter == "C" {
                    output += &written(&store);
                } else {
                    output += &format!("H {}\n", checksum(&store));
                }
            }
            _ => panic!("{line}"),
        }
    }
    output
}

fn assert_same(name: &str, list: &str) {
    assert_same_text(name, &fast_output(list), &slow_output(list));
}

fn assert_same_text(name: &str, fast: &str, slow: &str) {
    for (i, (fast, slow)) in fast.lines().zip(slow.lines()).enumerate() {
        assert_eq!(fast, slow, "{name}, output line {}", i + 1);
    }
    assert_eq!(fast.len(), slow.len(), "{name}");
}

#[test]
fn fast_and_slow_agree_on_every_list() {
    for name in LISTS {
        if name != "operands" {
            let cases = if name == "text-random" { 800 } else { 60 };
            assert_same(name, &list(name, 7, cases));
        }
    }
}

#[test]
fn fast_and_slow_agree_on_border_operands() {
    assert_same("operands", &list("operands", 8, 0));
}

#[test]
fn fast_and_slow_agree_on_many_mutants() {
    assert_same("mutants", &list("mutants", 9, 3_000));
    assert_same("garbage", &list("garbage", 10, 1_000));
    assert_same("snapshots", &list("snapshots", 11, 500));
}

#[test]
#[ignore = "long: CALLS sets how many mutants"]
fn fast_and_slow_agree_on_a_great_many_mutants() {
    let cases = std::env::var("CALLS").map_or(200_000, |text| text.parse().unwrap());
    let seed = std::env::var("SEED").map_or(12, |text| text.parse().unwrap());
    for part in 0..10 {
        assert_same("mutants", &list("mutants", seed + part, cases / 10));
    }
}

/// Each rule's list has at least ten stores that break it, and some stores
/// that are sound.
#[test]
fn each_rule_is_broken_ten_times() {
    for rule in 1..=5 {
        let output = fast_output(&list(&format!("s{rule}"), 1, 0));
        let broken = format!(" BROKEN {rule}");
        let stores = output.lines().filter(|line| line.ends_with(&broken));
        assert!(stores.count() >= 10, "S{rule}");
        assert!(output.contains(" SOUND\n"), "S{rule}");
    }
}

#[test]
fn a_store_can_be_changed_word_by_word() {
    let list = "T 9 1 9 0\nS 1 1 1 5\nC 0 1 0\nW 7 1\nC 9 0 0\nW 7 0\nB 9 0 0\n";
    let expected = "C 0 1 0 OK 0\nT 9 2 3 1 6 0\nQ 0 0 0\nS 1 1 1 5\n\
                    C 9 0 0 BROKEN 2\nT 9 4 3 1 4 0 1 1 1 0\nQ 0 0 0\nS 1 1 1 0\n\
                    B 9 0 0 SOUND\nH ";
    assert!(fast_output(list).starts_with(expected));
    assert_same("words", list);
}

#[test]
fn malformed_lists_are_errors() {
    for list in [
        "X 1",
        "T",
        "T 2 1 1 0",
        "T 2 1 3 0",
        "T 1 1 1 65536",
        "T 1 1 1 0\nW 1 0",
        "C 12 0 0",
        "C 10 0 0",
        "C 10 2 40",
        "C 10 1 256",
        "C 10",
        "C 11 0 2",
        "C 11 0 2 256",
        "C 11 65536 2 0",
        "T 9 2 3 1 6 0\nU 10 2 40 41",
        "T 9 2 3 1 6 0\nU 11 0 2 0",
        "T 9 2 3 1 6 2\nU 10 1 41",
        "T 9 2 3 1 6 2\nU 11 2 2 0",
        "Q 0 0 1 64 0 0 0 0",
        "C 1 2",
        "U 9 0 0",
        "T 9 1 9 0\nU 0 1 0",
        "T 9 2 3 1 6 0\nU 3 0 0",
        "T 9 2 3 1 6 2\nU 1 0 0",
        "T 9 2 3 1 6 2\nU 2 0 0",
    ] {
        assert!(states::run(list.as_bytes(), Vec::new()).is_err(), "{list}");
    }
}

/// A call is marked where its answer is `UNDECIDED`; the rest stays.
#[test]
fn annotated_lists_give_the_same_answers() {
    for name in LISTS {
        if name == "operands" || name == "large" {
            continue;
        }
        let list = list(name, 13, 40);
        let marked = annotated(&list, "0-11");
        let mut expected = String::new();
        for line in fast_output(&list).lines() {
            if line.ends_with(" UNDECIDED") {
                expected += &format!("U{}\n", &line[1..]);
            } else {
                expected += &format!("{line}\n");
            }
        }
        assert_same_text(name, &fast_output(&marked), &expected);
        assert_eq!(annotated(&marked, "0-11"), marked, "{name}");
        let unmarked = |text: &str| -> Vec<String> {
            let lines = text.lines().filter(|line| !line.starts_with('#'));
            lines.map(|line| line.replace(['B', 'U'], "C")).collect()
        };
        assert_eq!(unmarked(&marked), unmarked(&list), "{name}");
    }
}

/// Calls are left out before the others are marked.
#[test]
fn annotation_goes_by_the_calls_kept() {
    for (codes, kept) in [("0-7", "01234567"), ("8,0-2", "0128"), ("9", "9")] {
        for name in ["mutants", "garbage", "wrecks", "snapshots", "question1"] {
            let list = list(name, 14, 40);
            let is_kept = |line: &&str| match line.as_bytes() {
                [b'C' | b'B', b' ', code, ..] => kept.as_bytes().contains(code),
                _ => true,
            };
            let lines: Vec<&str> = list.lines().filter(is_kept).collect();
            let expected = annotated(&(lines.join("\n") + "\n"), "0-9");
            assert_eq!(annotated(&list, codes), expected, "{name} {codes}");
        }
    }
    // Without the step, which document 01 doesn't decide, fresh is decided.
    let list = "T 9 2 3 1 6 2\nS 1 1 1 0\nB 8 0 0\nC 0 1 0\n";
    let all = "T 9 2 3 1 6 2\nS 1 1 1 0\nU 8 0 0\nU 0 1 0\n";
    assert_eq!(annotated(list, "0-9"), all);
    let kept = "T 9 2 3 1 6 2\nS 1 1 1 0\nC 0 1 0\n";
    assert_eq!(annotated(list, "0-7"), kept);
    assert!(annotate::run(Codes::parse("0-7").unwrap(), all.as_bytes(), Vec::new()).is_err());
    assert_eq!(fast_output(all), "U 8 0 0 UNDECIDED\nU 0 1 0 UNDECIDED\n");
}

/// A read of nil is decided on a store that passes question 1 and fails the
/// audit, until an undecided call makes the store itself unknown.
#[test]
fn nil_reads_are_decided_on_damaged_stores() {
    let store = "T 9 2 3 1 6 2\nS 1 1 1 0\n";
    let calls = "C 1 0 0\nC 2 0 0\nC 8 0 0\nC 1 0 0\n";
    let marked = format!("{store}C 1 0 0\nC 2 0 0\nU 8 0 0\nU 1 0 0\n");
    let list = format!("{store}{calls}");
    assert_eq!(annotated(&list, "0-9"), marked);
    let unchanged = "T 9 2 3 1 6 2\nQ 0 0 0\nS 1 1 1 0\n";
    let expected = format!(
        "C 1 0 0 OK 0\n{unchanged}C 2 0 0 OK 0\n{unchanged}\
         U 8 0 0 UNDECIDED\nU 1 0 0 UNDECIDED\n"
    );
    assert_eq!(fast_output(&marked), expected);
    assert_same("reads of nil", &list);
    let unfit = "T 8 2 3 1 5 2\nC 1 0 0\n";
    let refused = "C 1 0 0 NO 1\nT 8 2 3 1 5 2\nQ 0 0 0\nS 0 0\n";
    assert_eq!(fast_output(unfit), refused);
}

#[test]
fn annotated_lines_are_canonical() {
    let list = "# title\n T  8 2 1 1\n7 00\nQ 0 0 0\n\nW 007 0 C 1 2\n 5";
    let expected = "T 8 2 1 1 7 0\nQ 0 0 0\nW 7 0\nC 1 2 5\n";
    assert_eq!(annotated(list, "0-9"), expected);
}

#[test]
fn codes_are_digits_and_ranges() {
    for (text, other) in [
        ("0-9", "0,1-8,9"),
        ("3", "3-3"),
        ("1,1,2", "1-2"),
        ("8-11", "8,9,10,11"),
    ] {
        assert_eq!(Codes::parse(text), Codes::parse(other), "{text}");
    }
    assert_eq!(Codes::parse("0-11"), Some(Codes::ALL));
    assert_ne!(Codes::parse("0-9"), Some(Codes::ALL));
    for text in [
        "", "12", "0-12", "011", "00", "7-0", "11-10", "a", "0-", "-7", "1,", "0 7", "1-2-3",
    ] {
        assert_eq!(Codes::parse(text), None, "{text}");
    }
}

/// A list for a gate's program and what is expected of it, as stored.
fn gate(name: &str) -> (String, String) {
    let folder = Path::new(env!("CARGO_MANIFEST_DIR")).join("cases/gate");
    let read = |end: &str| fs::read_to_string(folder.join(format!("{name}.{end}"))).unwrap();
    (read("list"), read("out"))
}

#[test]
fn gate_lists_give_what_is_stored() {
    for name in ["calls", "steps", "audits"] {
        let (list, output) = gate(name);
        assert_same_text(name, &output, &fast_output(&list));
    }
}

/// The list of A6, of which both machines give what is stored.
#[test]
fn named_cases_give_what_is_stored() {
    let (list, output) = gate("named");
    assert_same_text("named", &output, &fast_output(&list));
    assert_same_text("named", &output, &slow_output(&list));
    for code in 0..=11 {
        let accepted = |line: &&str| {
            let mut parts = line.split(' ');
            matches!(parts.next(), Some("C" | "B"))
                && parts.next() == Some(&code.to_string())
                && [" OK ", " TAKEN ", " SOUND"]
                    .iter()
                    .any(|word| line.contains(word))
        };
        let times = output.lines().filter(accepted).count();
        assert!(times >= 20, "{code}: {times}");
    }
}

#[test]
#[ignore = "long: half a minute"]
fn fast_and_slow_agree_on_the_gate_lists() {
    for name in ["calls", "steps", "audits"] {
        let (list, output) = gate(name);
        assert_same_text(name, &output, &slow_output(&list));
    }
}

/// The decided reads of nil of a list, by the stores that they meet.
#[derive(Debug, Default)]
struct NilReads {
    sound: usize,
    /// On stores that fail the audit.
    damaged: usize,
    /// On stores that fail question 1.
    unfit: usize,
    /// Those of the sound and the damaged stores whose queue is full.
    full: usize,
}

fn nil_reads(list: &str) -> NilReads {
    let mut reads = NilReads::default();
    let mut reader = Reader::new(list.as_bytes());
    let mut runner = Runner::new();
    while let Some(line) = reader.line().unwrap() {
        match line {
            Line::Title => {}
            Line::Lent(lent) => runner.lend(lent).unwrap(),
            Line::Call(call @ (Call::Car(0) | Call::Cdr(0)), sort) => {
                let before = runner.store().clone();
                if let Some(reply) = runner.call(call, sort).unwrap() {
                    assert_eq!(*runner.store(), before, "{call:?}");
                    note_nil_read(&mut reads, before, reply);
                }
            }
            Line::Call(call, sort) => {
                runner.call(call, sort).unwrap();
            }
            Line::Text(call, sort) => {
                runner.text(&call, sort).unwrap();
            }
        }
    }
    reads
}

fn note_nil_read(reads: &mut NilReads, mut store: Store, reply: Reply) {
    store.scratch = vec![0; 4_096];
    match (reply, Call::Audit.perform(&mut store)) {
        (Reply::Refused(Refusal::Store), Reply::Refused(Refusal::Store)) => {
            reads.unfit += 1;
            return;
        }
        (Reply::Done(0), Reply::Sound) => reads.sound += 1,
        (Reply::Done(0), Reply::Broken(_)) => reads.damaged += 1,
        other => panic!("{other:?}"),
    }
    reads.full += usize::from(store.queue.count == 64);
}

#[test]
fn lists_read_nil_on_damaged_stores() {
    for name in ["s1", "s2", "s3", "s4", "s5", "mutants", "garbage", "wrecks"] {
        let reads = nil_reads(&list(name, 1, 40));
        assert!(reads.damaged >= 10, "{name}: {reads:?}");
    }
    let reads = nil_reads(&list("question1", 1, 0));
    assert!(reads.unfit >= 10 && reads.damaged >= 10, "{reads:?}");
}

/// The stores of a list, as lent, that are sound and that aren't, with a clipped
/// reading in a cell in use.
fn stores_with_clipped(list: &str) -> (usize, usize) {
    let (mut sound, mut damaged) = (0, 0);
    let mut reader = Reader::new(list.as_bytes());
    let mut runner = Runner::new();
    let mut lent = false;
    while let Some(line) = reader.line().unwrap() {
        match line {
            Line::Lent(line) => {
                runner.lend(line).unwrap();
                lent = true;
                continue;
            }
            Line::Call(..) | Line::Text(..) if lent => {
                let mut store = runner.store().clone();
                store.scratch = vec![0; 4_096];
                match Call::Audit.perform(&mut store) {
                    Reply::Sound if slow::contains_clipped(&store) => sound += 1,
                    Reply::Broken(_) if slow::contains_clipped(&store) => damaged += 1,
                    _ => {}
                }
                lent = false;
            }
            _ => {}
        }
    }
    (sound, damaged)
}

/// Stores are lent that no list of calls makes any more (A5).
#[test]
fn lists_lend_stores_with_clipped_readings() {
    for (name, least_sound, least_damaged) in [
        ("s1", 1, 10),
        ("s2", 1, 10),
        ("s3", 1, 10),
        ("s4", 1, 10),
        ("s5", 1, 5),
        ("question1", 1, 5),
        ("question2", 5, 5),
        ("operands", 1, 0),
        ("snapshots", 10, 0),
        ("mutants", 1, 10),
        ("garbage", 0, 3),
        ("rows", 10, 0),
        ("rings", 5, 0),
        ("wrecks", 1, 10),
        ("clipped", 30, 20),
        ("text-borders", 3, 0),
        ("text-queues", 10, 0),
        ("text-free", 10, 0),
        ("text-mixed", 3, 0),
        ("text-back", 10, 0),
        ("text-shapes", 10, 0),
        ("text-damaged", 3, 10),
        ("text-clipped", 6, 10),
    ] {
        let (sound, damaged) = stores_with_clipped(&list(name, 1, 50));
        assert!(sound >= least_sound, "{name}: {sound} sound");
        assert!(damaged >= least_damaged, "{name}: {damaged} damaged");
    }
}

/// A small share of the calls of these lists is refused by 14, and not none.
#[test]
fn lists_refuse_clipped_readings_in_small_shares() {
    for name in ["runs", "large", "rows", "text-mixed", "text-random"] {
        let output = fast_output(&list(name, 1, 400));
        let is_call = |line: &&str| line.starts_with(['C', 'B']);
        let calls = output.lines().filter(is_call).count();
        let refused = count(&output, " NO 14");
        let share = 1_000 * refused / calls;
        assert!((1..150).contains(&share), "{name}: {refused} of {calls}");
    }
}

#[test]
fn rows_read_nil_with_full_queues() {
    let reads = nil_reads(&list("rows", 1, 128));
    assert!(reads.full >= 10, "{reads:?}");
}

/// How often each reply stands in an output.
fn count(output: &str, reply: &str) -> usize {
    let is_it = |line: &&str| line.starts_with(['C', 'B']) && line.ends_with(reply);
    output.lines().filter(is_it).count()
}

#[test]
fn gate_lists_have_what_they_are_for() {
    for (name, last) in [("calls", 7), ("steps", 8), ("audits", 9)] {
        let (list, output) = gate(name);
        assert!(list.len() < 1_200_000 && output.len() < 2_000_000, "{name}");
        for line in list.lines() {
            let (letter, rest) = line.split_once(' ').unwrap();
            if matches!(letter, "C" | "B" | "U") {
                let code = rest.split_once(' ').unwrap().0;
                assert!(code.parse::<u16>().unwrap() <= last, "{name}: {line}");
            }
        }
        let questions = (1..=10).chain([14]);
        for question in questions.filter(|&question| last > 7 || question != 2) {
            let times = count(&output, &format!(" NO {question}"));
            assert!(times >= 10, "{name}: NO {question} {times} times");
        }
        let reads = nil_reads(&list);
        println!("{name}: {reads:?}");
        let least = reads.damaged.min(reads.unfit).min(reads.full);
        assert!(least >= 10 && reads.sound >= 10, "{name}: {reads:?}");
        assert_eq!(count(&output, " UNDECIDED"), 0, "{name}");
        assert!(output.lines().any(|line| line.ends_with(" UNDECIDED")));
        for cells in [1, 2, 3, 63, 64, 65, 4_096] {
            let fresh = format!(" 0 {cells} 0 OK 0");
            assert!(count(&output, &fresh) > 0, "{name}: fresh {cells}");
        }
        if last > 8 {
            assert!(count(&output, " TAKEN 5 4096") > 0, "{name}");
            for rule in 1..=5 {
                let times = count(&output, &format!(" BROKEN {rule}"));
                assert!(times >= 10, "{name}: BROKEN {rule} {times} times");
            }
        }
    }
}

/// The list for the gate's program with text calls, and what is expected of it.
fn text_cases() -> (String, String) {
    let root = Path::new(env!("CARGO_MANIFEST_DIR")).parent().unwrap();
    let read =
        |name: &str| fs::read_to_string(root.join("reference/cases/gate").join(name)).unwrap();
    (read("texts.list"), read("texts.out"))
}

#[test]
fn text_cases_give_what_is_stored() {
    let (list, output) = text_cases();
    assert_same_text("text_cases", &output, &fast_output(&list));
    assert_same_text("text_cases", &output, &slow_output(&list));
}

#[test]
fn text_cases_have_what_they_are_for() {
    let (list, output) = text_cases();
    assert!(list.len() < 1_400_000 && output.len() < 3_000_000);
    let mut texts = BTreeSet::new();
    let mut fresh = BTreeSet::new();
    for line in list.lines() {
        let mut parts = line.splitn(4, ' ');
        let letter = parts.next().unwrap();
        assert!("TQSCBU".contains(letter), "{line}");
        match (letter, parts.next()) {
            ("C" | "B" | "U", Some("10")) => {
                parts.next();
                texts.insert(parts.next().unwrap_or(""));
            }
            ("C" | "B" | "U", Some("0")) => {
                fresh.insert(parts.next().unwrap());
            }
            _ => {}
        }
    }
    assert!(texts.len() >= 2_500, "{} texts", texts.len());
    println!("{} different texts", texts.len());
    // Each refusal of each of the two calls, each code with each letter.
    let mut counts = BTreeMap::new();
    for line in output
        .lines()
        .filter(|line| line.starts_with(['C', 'B', 'U']))
    {
        let parts: Vec<&str> = line.split(' ').collect();
        let code: usize = parts[1].parse().unwrap();
        let reply = match code {
            10 => &parts[3..],
            11 => &parts[5..],
            _ => &parts[4..],
        };
        let reply = match reply {
            ["NO", number] => format!("NO {number}"),
            other => other[0].to_string(),
        };
        *counts.entry((code, reply)).or_insert(0) += 1;
    }
    println!("{counts:?}");
    let all_of = [
        (
            10,
            &[
                "OK",
                "NO 1",
                "NO 7",
                "NO 8",
                "NO 11",
                "NO 12",
                "NO 14",
                "UNDECIDED",
            ][..],
        ),
        (
            11,
            &["OK", "NO 1", "NO 4", "NO 6", "NO 12", "NO 13", "UNDECIDED"],
        ),
    ];
    for (code, replies) in all_of {
        for reply in replies {
            let count = counts.get(&(code, reply.to_string())).copied().unwrap_or(0);
            assert!(count >= 50, "{code} {reply}: {count}");
        }
        let others = counts.keys().filter(|key| key.0 == code).count();
        assert_eq!(others, replies.len(), "{counts:?}");
    }
    for code in 0..=7 {
        assert!(counts[&(code, "OK".to_string())] >= 50, "{code}");
    }
    assert!(counts[&(8, "TAKEN".to_string())] >= 50);
    assert!(counts[&(9, "SOUND".to_string())] >= 50);
}

/// Which questions of the text calls are answered on a store that fails the
/// audit: 1, 11, 12 and 14 of reading, 1 and 4 of writing.
#[test]
fn text_calls_on_damaged_stores() {
    let store = "T 9 2 3 1 6 2\nQ 0 0 0\nS 1 1 1 0\n";
    let deep = format!("66{}{}", " 40".repeat(33), " 41".repeat(33));
    for (call, reply) in [
        ("10 1 41".to_string(), "10 1 NO 11"),
        ("10 0".to_string(), "10 0 NO 11"),
        (format!("10 {deep}"), "10 66 NO 12"),
        ("10 4 52 48 57 53".to_string(), "10 4 NO 14"),
        ("10 6 40 52 48 57 53 41".to_string(), "10 6 NO 14"),
        ("11 2 3 9".to_string(), "11 2 3 9 NO 4\nF 3 1 3 9"),
        ("11 32767 0 9".to_string(), "11 32767 0 9 NO 4\nF 0 0"),
    ] {
        let (first, buffer) = reply.split_once('\n').unwrap_or((reply, ""));
        let buffer = match buffer {
            "" => String::new(),
            line => format!("{line}\n"),
        };
        let expected = format!("C {first}\n{store}{buffer}");
        assert_eq!(fast_output(&format!("{store}C {call}\n")), expected);
        let unfit = "T 8 2 3 1 5 2\nQ 0 0 0\nS 0 0\n";
        let output = fast_output(&format!("{unfit}C {call}\n"));
        assert!(
            output.lines().next().unwrap().ends_with(" NO 1"),
            "{output}"
        );
    }
    for (call, shown) in [
        ("10 2 40 41", "10 2"),
        ("10 1 49", "10 1"),
        ("10 4 52 48 57 52", "10 4"),
        ("11 36863 5 0", "11 36863 5 0"),
        ("10 3 40 49 41", "10 3"),
        ("11 0 2 0", "11 0 2 0"),
        ("11 1 0 0", "11 1 0 0"),
        ("11 32768 0 0", "11 32768 0 0"),
    ] {
        let list = format!("{store}C {call}\nB 10 1 41\n");
        let marked = format!("{store}U {call}\nU 10 1 41\n");
        assert_eq!(annotated(&list, "0-11"), marked);
        let expected = format!("U {shown} UNDECIDED\nU 10 1 UNDECIDED\n");
        assert_eq!(fast_output(&marked), expected);
        assert_same("text", &list);
    }
}

/// The lines of a text call, worked out by hand.
#[test]
fn text_calls_in_a_list() {
    let list = "T 15 1 15 0\nS 1 1 1 5\nC 0 2 0\nC 10 7 40 49 32 46 32 50 41\n\
                C 11 1 9 35\nB 11 1 6 35\n";
    let output = fast_output(list);
    let after = "Q 0 1 1 0 2 32769 32770 1\nS 1 1 1 5\n";
    let table = "T 15 7 3 2 1 32769 1 32770 1 1 1 0 2 1 6 0\n";
    let whole = format!(
        "C 0 2 0 OK 0\nT 15 4 1 2 1 1 2 2 11 0\nQ 0 0 0\nS 1 1 1 5\n\
         C 10 7 OK 1\n{table}{after}C 11 1 9 35 OK 7\n{table}{after}\
         F 9 8 1 40 1 49 1 32 1 46 1 32 1 50 1 41 2 35\nB 11 1 6 35 NO 13\nH "
    );
    assert!(output.starts_with(&whole), "{output}\n{whole}");
    assert!(output.ends_with("\nF 6 1 6 35\n"), "{output}");
}
