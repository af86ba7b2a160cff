//! The cases K1 to K11 of document 01 and reads of nil, through the session
//! program.

use reference::call::{Call, Reply};
use reference::question::Refusal;
use reference::session;
use reference::store::Store;
use reference::table::length;

fn replies(input: &str) -> Vec<String> {
    let mut output = Vec::new();
    session::run(input.as_bytes(), &mut output).unwrap();
    let output = String::from_utf8(output).unwrap();
    output.lines().map(String::from).collect()
}

/// The replies to `calls` in a fresh store of 3 after `cons 0 32775`, without
/// line numbers.
fn after_cons(calls: &[&str]) -> Vec<String> {
    let input = format!("fresh 3\ncons 0 32775\n{}\n", calls.join("\n"));
    let replies = replies(&input);
    assert_eq!(replies[..2], ["1 OK 0", "2 OK 1"]);
    replies[2..]
        .iter()
        .map(|reply| reply.split_once(' ').unwrap().1.to_string())
        .collect()
}

const K1: &str = "fresh 3\ncons 0 32775\ncons 1 0\nup 2 1\nsetr 2 2\ndown 2 1\n\
                  step\nstep\nstep\nstep\nstep\nstep\n";

#[test]
fn k1_replies() {
    let expected = [
        "1 OK 0", "2 OK 1", "3 OK 2", "4 OK 0", "5 OK 0", "6 OK 0", "7 OK 0", "8 OK 0", "9 OK 0",
        "10 OK 0", "11 OK 2", "12 IDLE",
    ];
    assert_eq!(replies(K1), expected);
}

#[test]
fn k1_table() {
    let mut store = Store::zeroed(length(3), 3);
    for line in K1.lines() {
        session::parse(line.as_bytes()).unwrap().perform(&mut store);
    }
    // The chain is 1, 2, 3 (A8).
    let expected = [
        3, 1, 3, //
        2, 0, 0, 0, 0, 0, //
        3, 0, 0, 0, 0, 0, //
        0, 0, 0, 0, 0, 0,
    ];
    assert_eq!(store.table, expected);
    assert_eq!((store.queue.place, store.queue.count), (5, 0));
}

#[test]
fn k2_k3_up_to_the_ceiling() {
    assert_eq!(after_cons(&["up 1 4094", "up 1 1"]), ["OK 0", "NO 9"]);
}

#[test]
fn k4_to_k9_refusals() {
    for (call, reply) in [
        ("up 1 0", "NO 3"),
        ("setr 1 1", "NO 6"),
        ("cons 1 1", "NO 6"),
        ("cons 3 0", "NO 6"),
        ("cons 4 0", "NO 4"),
        ("car 32775", "NO 5"),
    ] {
        assert_eq!(after_cons(&[call]), [reply], "{call}");
    }
}

#[test]
fn k11_nil_is_read() {
    assert_eq!(after_cons(&["car 0"]), ["OK 0"]);
    assert_eq!(after_cons(&["cdr 0"]), ["OK 0"]);
}

/// Only nil is read without a hold; the other words are refused as before.
#[test]
fn reads_of_other_words_are_refused_as_before() {
    for (word, reply) in [
        (2, "NO 6"),
        (3, "NO 6"),
        (4, "NO 4"),
        (32_767, "NO 4"),
        (32_768, "NO 5"),
        (65_535, "NO 5"),
    ] {
        for name in ["car", "cdr"] {
            let call = format!("{name} {word}");
            assert_eq!(after_cons(&[&call]), [reply], "{call}");
        }
    }
}

#[test]
fn nil_read_before_a_fresh() {
    assert_eq!(replies("car 0\ncdr 0\n"), ["1 NO 1", "2 NO 1"]);
}

#[test]
fn nil_read_with_no_cell_in_use() {
    let expected = ["1 OK 0", "2 OK 0", "3 OK 0", "4 IDLE"];
    assert_eq!(replies("fresh 3\ncar 0\ncdr 0\nstep\n"), expected);
}

/// A list of three is walked to its end and past it; each step of the walk
/// gives up the hold of the cell before, and the reads past the end queue
/// nothing.
#[test]
fn list_walked_past_its_end() {
    let input = "fresh 3\ncons 32769 0\ncons 32770 1\ncons 32771 2\n\
                 cdr 3\ncdr 2\ncdr 1\ncdr 0\ncar 0\n\
                 step\nstep\nstep\nstep\nstep\nstep\nstep\ncdr 0\n";
    let expected = [
        "1 OK 0", "2 OK 1", "3 OK 2", "4 OK 3", "5 OK 2", "6 OK 1", "7 OK 0", "8 OK 0", "9 OK 0",
        "10 OK 0", "11 OK 0", "12 OK 0", "13 OK 1", "14 OK 1", "15 OK 1", "16 IDLE", "17 OK 0",
    ];
    assert_eq!(replies(input), expected);
}

/// A read of nil takes no slot and no hold, and needs neither.
#[test]
fn nil_read_changes_nothing_on_a_full_queue() {
    let mut store = Store::zeroed(length(1), 1);
    store.scratch.fill(5);
    Call::Fresh(1).perform(&mut store);
    Call::Cons(0, 0).perform(&mut store);
    for _ in 1..64 {
        Call::Up(1, 1).perform(&mut store);
    }
    assert_eq!(store.queue.count, 64);
    let before = store.clone();
    for call in [Call::Car(0), Call::Cdr(0)] {
        assert_eq!(call.perform(&mut store), Reply::Done(0), "{call:?}");
        assert_eq!(store, before, "{call:?}");
    }
    let full = Reply::Refused(Refusal::QueueFull);
    assert_eq!(Call::Car(1).perform(&mut store), full);
}

#[test]
fn k10_read_then_freed() {
    let expected = ["OK 32775", "OK 0", "OK 1"];
    assert_eq!(after_cons(&["cdr 1", "step", "step"]), expected);
}

/// Question 7 comes before question 8.
#[test]
fn full_queue_before_no_free_cell() {
    let mut store = Store::zeroed(length(1), 1);
    let mut refused = |call: Call| match call.perform(&mut store) {
        Reply::Refused(refusal) => refusal as u8,
        _ => 0,
    };
    assert_eq!(refused(Call::Fresh(1)), 0);
    assert_eq!(refused(Call::Cons(0, 0)), 0);
    assert_eq!(refused(Call::Cons(0, 0)), 8);
    for _ in 1..64 {
        assert_eq!(refused(Call::Up(1, 1)), 0);
    }
    assert_eq!(refused(Call::Cons(0, 0)), 7);
    assert_eq!(refused(Call::Step), 0);
    assert_eq!(refused(Call::Cons(0, 0)), 8);
}
