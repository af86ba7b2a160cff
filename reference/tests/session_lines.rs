//! What the session program takes for a line, and for a call.

use std::io::{BufReader, Read};

use reference::session;

fn output_of(input: &[u8]) -> String {
    let mut output = Vec::new();
    session::run(input, &mut output).unwrap();
    String::from_utf8(output).unwrap()
}

#[test]
fn empty_input_gives_no_output() {
    assert_eq!(output_of(b""), "");
}

#[test]
fn empty_lines_are_bad() {
    assert_eq!(output_of(b"\n"), "1 BAD\n");
    assert_eq!(
        output_of(b"\n\nfresh 1\n\n"),
        "1 BAD\n2 BAD\n3 OK 0\n4 BAD\n"
    );
}

#[test]
fn last_line_may_lack_its_feed() {
    assert_eq!(output_of(b"fresh 1\nstep"), "1 OK 0\n2 IDLE\n");
    assert_eq!(output_of(b"fresh 1\nstep\n"), "1 OK 0\n2 IDLE\n");
    assert_eq!(output_of(b"fresh 1\n "), "1 OK 0\n2 BAD\n");
}

#[test]
fn before_a_fresh_the_table_is_zero() {
    let input = b"step\ncar 1\nup 1 0\ncons 40000 32767\nfresh 0\nfresh 4097\nfresh 4096\nstep\n";
    let expected = "1 NO 1\n2 NO 1\n3 NO 1\n4 NO 1\n5 NO 3\n6 NO 3\n7 OK 0\n8 IDLE\n";
    assert_eq!(output_of(input), expected);
}

#[test]
fn bad_lines() {
    let bad: &[&[u8]] = &[
        b"car",
        b"car ",
        b"car  1",
        b"car 1 ",
        b" car 1",
        b"car 01",
        b"car 00",
        b"car 65536",
        b"car 65545",
        b"car 18446744073709551617",
        b"car -1",
        b"car +1",
        b"car 1\r",
        b"car\t1",
        b"Car 1",
        b"car 1 1",
        b"cons 1",
        b"cons 1 1 1",
        b"step 1",
        b"step ",
        b"audit",
        b"step\0",
        b"\xff",
        b"fresh",
    ];
    for line in bad {
        assert_eq!(session::parse(line), None, "{line:?}");
    }
    assert!(session::parse(b"car 65535").is_some());
    assert!(session::parse(b"car 0").is_some());
}

#[test]
fn long_lines_are_bad_and_counted_once() {
    for length in [79, 80, 81, 82, 1_000, 200_000] {
        let mut input = b"step".to_vec();
        input.resize(length, b' ');
        input.extend(b"\nfresh 2\n");
        assert_eq!(output_of(&input), "1 BAD\n2 OK 0\n", "{length}");
    }
}

/// The buffer's borders don't show.
#[test]
fn any_buffer_size() {
    let input =
        b"fresh 3\ncons 0 32775\n\ncar 1\nstep\nxxxxxxxxxxxxxxxxxxxxxxxxxxxxxxxxxxxxxxxxxxxx\
                  xxxxxxxxxxxxxxxxxxxxxxxxxxxxxxxxxxxxxxxxxxxxxxxxxxxxxxxxxxxxxxxxxxxxxx\nstep";
    let whole = output_of(input);
    assert_eq!(whole.lines().count(), 7);
    for size in 1..100 {
        let mut output = Vec::new();
        session::run(
            BufReader::with_capacity(size, input.take(9_999)),
            &mut output,
        )
        .unwrap();
        assert_eq!(output, whole.as_bytes(), "{size}");
    }
}
