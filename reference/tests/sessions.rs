//! The generated sessions: which refusals they reach, and that the fast
//! session program gives what the slow machine gives.

mod slow;

use std::fs;
use std::path::Path;

use reference::call::{Call, Reply};
use reference::generate::rng::Rng;
use reference::generate::session::{write, STYLES};
use reference::question::Refusal;
use reference::queue::Queue;
use reference::session;
use reference::store::Store;
use reference::table::{length, MAX_CELLS};

fn session(style: &str, seed: u64, cells: u16, lines: usize) -> Vec<u8> {
    let mut text = Vec::new();
    write(&mut Rng::new(seed), style, cells, lines, &mut text).unwrap();
    text
}

fn output_of(input: &[u8]) -> String {
    let mut output = Vec::new();
    session::run(input, &mut output).unwrap();
    String::from_utf8(output).unwrap()
}

fn slow_output(input: &[u8]) -> String {
    let mut store = Store::zeroed(length(MAX_CELLS), MAX_CELLS as usize);
    let mut output = String::new();
    for (i, line) in input.split(|&byte| byte == b'\n').enumerate() {
        let reply = match session::parse(line) {
            None => "BAD".to_string(),
            Some(call) => match slow::perform(&mut store, call) {
                Reply::Done(value) => format!("OK {value}"),
                Reply::Taken { freed, .. } => format!("OK {freed}"),
                Reply::Refused(refusal) => format!("NO {}", refusal as u8),
                _ => "IDLE".to_string(),
            },
        };
        output += &format!("{} {reply}\n", i + 1);
    }
    output
}

#[test]
fn fast_and_slow_agree_on_sessions() {
    for style in STYLES {
        for cells in [1, 2, 3, 63] {
            let input = session(style, 3, cells, 300);
            assert_eq!(output_of(&input), slow_output(&input), "{style} {cells}");
        }
    }
}

#[test]
fn sessions_are_lively() {
    for cells in [1, 2, 3, 63, 64, 65, 4_096] {
        let output = output_of(&session("lively", 1, cells, 5_000));
        let done = output.lines().filter(|line| line.contains(" OK ")).count();
        assert!(done > 3_500, "{cells}: {done}");
    }
}

/// Question 2 is out of a session's reach.
#[test]
fn sessions_reach_the_refusals() {
    let mut outputs = output_of(&session("ceiling", 2, 4_096, 500));
    for (style, cells) in [("refusals", 3), ("full", 65), ("lively", 64), ("mixed", 63)] {
        outputs += &output_of(&session(style, 2, cells, 5_000));
    }
    for question in [1, 3, 4, 5, 6, 7, 8, 9, 10, 14] {
        let reply = format!(" NO {question}\n");
        assert!(outputs.contains(&reply), "no refusal {question}");
    }
    assert!(outputs.contains(" BAD\n") && outputs.contains(" IDLE\n"));
}

/// A read of nil, its reply and how many packets waited.
type NilRead = (Call, Reply, usize);

fn nil_reads(input: &[u8]) -> Vec<NilRead> {
    let mut store = Store::zeroed(length(MAX_CELLS), MAX_CELLS as usize);
    let mut reads = Vec::new();
    for call in input
        .split(|&byte| byte == b'\n')
        .filter_map(session::parse)
    {
        let reply = call.perform(&mut store);
        if matches!(call, Call::Car(0) | Call::Cdr(0)) {
            reads.push((call, reply, store.queue.count as usize));
        }
    }
    reads
}

const NIL_READS: [Call; 2] = [Call::Car(0), Call::Cdr(0)];

fn times(reads: &[NilRead], read: NilRead) -> usize {
    reads.iter().filter(|&&other| other == read).count()
}

#[test]
fn full_sessions_read_nil_with_full_queues() {
    let reads = nil_reads(&session("full", 4, 65, 2_000));
    for call in NIL_READS {
        let times = times(&reads, (call, Reply::Done(0), Queue::SLOTS));
        assert!(times >= 5, "{call:?}: {times} times");
    }
}

#[test]
fn sessions_read_nil_before_a_fresh() {
    for style in STYLES.into_iter().filter(|&style| style != "ceiling") {
        let reads = nil_reads(&session(style, 5, 2, 0));
        for call in NIL_READS {
            let read = (call, Reply::Refused(Refusal::Store), 0);
            assert_eq!(times(&reads, read), 1, "{style} {call:?}");
        }
    }
}

/// The session program's matched input is many sessions joined, so only its
/// first lines stand before a fresh.
#[test]
fn joined_sessions_read_nil() {
    let root = Path::new(env!("CARGO_MANIFEST_DIR")).parent().unwrap();
    let reads = nil_reads(&fs::read(root.join("crates/session/stdin")).unwrap());
    for call in NIL_READS {
        for read in [
            (call, Reply::Refused(Refusal::Store), 0),
            (call, Reply::Done(0), 0),
            (call, Reply::Done(0), 1),
            (call, Reply::Done(0), Queue::SLOTS),
        ] {
            assert!(times(&reads, read) > 0, "{read:?}");
        }
    }
    let by_reply = |reply| reads.iter().filter(|read| read.1 == reply).count();
    let refused = by_reply(Reply::Refused(Refusal::Store));
    assert_eq!(refused + by_reply(Reply::Done(0)), reads.len());
    let full = reads.iter().filter(|read| read.2 == Queue::SLOTS).count();
    println!(
        "reads of nil: {}, refused {refused}, with a full queue {full}",
        reads.len()
    );
}
