//! The load program (A2): which inputs are good, the generator's rule, the
//! texts, the numbering and the replies. All of it is made a second time by a
//! naive program over the slow machine.

mod slow;

use std::fs;
use std::io::{self, BufReader, ErrorKind, Read};
use std::path::Path;

use reference::call::Reply;
use reference::generate::rng::Rng;
use reference::store::Store;
use reference::table::{length, MAX_CELLS};
use reference::{load, session};

fn output_of(input: &[u8]) -> String {
    let mut output = Vec::new();
    load::run(input, &mut output).unwrap();
    String::from_utf8(output).unwrap()
}

fn load_of(seed: u32, cells: u32, calls: u32) -> String {
    output_of(format!("{seed} {cells} {calls}\n").as_bytes())
}

// The naive program: document 02's sentences one by one, without wrapping
// arithmetic, fixed widths or the fast machine.

/// Seed, C and number of calls. A good input is one that its numbers, written
/// out again, give back.
fn naive_input(input: &[u8]) -> Option<[u128; 3]> {
    let text = std::str::from_utf8(input).ok()?;
    let words: Vec<&str> = text.split_whitespace().collect();
    let [seed, cells, calls] = words[..] else {
        return None;
    };
    let numbers = [seed.parse().ok()?, cells.parse().ok()?, calls.parse().ok()?];
    let [seed, cells, calls] = numbers;
    let line = format!("{seed} {cells} {calls}");
    let good = (text == line || text == line + "\n")
        && seed <= 4_294_967_295
        && cells <= 65_535
        && calls <= 65_535;
    good.then_some(numbers)
}

/// All states of 32 bits that follow the seed, without end.
fn states(seed: u128) -> impl Iterator<Item = u128> {
    let follow = |s: &u128| Some((1_664_525 * s + 1_013_904_223) % 4_294_967_296);
    std::iter::successors(Some(seed), follow).skip(1)
}

/// Each call's name and what is drawn for it.
const CALLS: [(&str, &str); 8] = [
    ("car", "x"),
    ("cdr", "x"),
    ("cons", "xy"),
    ("setl", "xy"),
    ("setr", "xy"),
    ("up", "xn"),
    ("down", "xn"),
    ("step", ""),
];

/// The lines of all calls, fresh's first.
fn naive_calls([seed, cells, calls]: [u128; 3]) -> Vec<String> {
    let mut draws = states(seed).map(|state| state / 65_536);
    let mut draw = move || draws.next().unwrap();
    let mut lines = vec![format!("fresh {cells}")];
    for _ in 0..calls {
        let (name, operands) = CALLS[(draw() % 8) as usize];
        let mut line = name.to_string();
        for operand in operands.chars() {
            let word = match operand {
                'n' => draw() % 4,
                _ => match draw() % (cells + 2) {
                    atom if atom == cells + 1 => 32_768,
                    word => word,
                },
            };
            line += &format!(" {word}");
        }
        lines.push(line);
    }
    lines
}

fn naive_output(input: &[u8]) -> String {
    let Some(numbers) = naive_input(input) else {
        return "BAD\n".to_string();
    };
    let mut store = Store::zeroed(length(MAX_CELLS), MAX_CELLS as usize);
    let mut output = String::new();
    for (i, line) in naive_calls(numbers).iter().enumerate() {
        let call = session::parse(line.as_bytes()).unwrap();
        let reply = match slow::perform(&mut store, call) {
            Reply::Done(value) => format!("OK {value}"),
            Reply::Taken { freed, .. } => format!("OK {freed}"),
            Reply::Refused(refusal) => format!("NO {}", refusal as u8),
            _ => "IDLE".to_string(),
        };
        output += &format!("{line}\n{} {reply}\n", i + 1);
    }
    output
}

/// The call lines and the reply lines of an output.
fn split(output: &str) -> (Vec<&str>, Vec<&str>) {
    let lines: Vec<&str> = output.lines().collect();
    let every_second = |from| lines.iter().skip(from).step_by(2).copied().collect();
    (every_second(0), every_second(1))
}

/// The generator's constants are those of a well-known one, whose sequence
/// from 0 is in print: 3C6EF35F, 47502932, D1CCF6E9, AAF95334, 6252E503,
/// 9F2EC686, 57FE6C2D, A3D95FA8, 81FDBEE7, 94F0AF1A, CBF633B1.
#[test]
fn the_sequence_in_print() {
    let print: [u128; 11] = [
        0x3C6EF35F, 0x47502932, 0xD1CCF6E9, 0xAAF95334, 0x6252E503, 0x9F2EC686, 0x57FE6C2D,
        0xA3D95FA8, 0x81FDBEE7, 0x94F0AF1A, 0xCBF633B1,
    ];
    assert!(states(0).take(11).eq(print));
    // 15470 % 8 is down, 18256 % 5 is 1, 53708 % 4 is 0; 43769 % 8 is cdr,
    // 25170 % 5 is 0; 40750 % 8 is down, 22526 % 5 is 1, 41945 % 4 is 1;
    // 33277 % 8 is up, 38128 % 5 is 3, 52214 % 4 is 2.
    let expected = "fresh 3\n1 OK 0\ndown 1 0\n2 NO 3\ncdr 0\n3 OK 0\n\
                    down 1 1\n4 NO 6\nup 3 2\n5 NO 6\n";
    assert_eq!(output_of(b"0 3 4\n"), expected);
}

#[test]
fn only_fresh() {
    assert_eq!(output_of(b"0 0 0"), "fresh 0\n1 NO 3\n");
    assert_eq!(output_of(b"9 1 0\n"), "fresh 1\n1 OK 0\n");
    assert_eq!(output_of(b"9 4096 0\n"), "fresh 4096\n1 OK 0\n");
    assert_eq!(output_of(b"9 4097 0\n"), "fresh 4097\n1 NO 3\n");
    assert_eq!(output_of(b"9 65535 0\n"), "fresh 65535\n1 NO 3\n");
}

#[test]
fn calls_are_the_rules() {
    let mut rng = Rng::new(1);
    let seeds = [0, 1, 2_147_483_647, 2_147_483_648, 4_294_967_295];
    let cells = [
        0, 1, 2, 3, 64, 4_095, 4_096, 4_097, 32_766, 32_767, 32_768, 65_533, 65_534, 65_535,
    ];
    let any_seed = |rng: &mut Rng| u32::from(rng.word()) << 16 | u32::from(rng.word());
    let more: Vec<u32> = (0..10).map(|_| any_seed(&mut rng)).collect();
    for seed in seeds.into_iter().chain(more) {
        for cells in cells {
            let output = load_of(seed, cells, 5_000);
            let naive = naive_calls([seed.into(), cells.into(), 5_000]);
            assert_eq!(split(&output).0, naive, "{seed} {cells}");
        }
    }
}

/// Every word that an operand can be is drawn, and C + 1 is never written.
#[test]
fn operands_of_three_cells() {
    let output = load_of(5, 3, 2_000);
    let (calls, _) = split(&output);
    let mut numbers = [const { Vec::new() }; 2];
    for call in &calls[1..] {
        let mut parts = call.split(' ');
        let counts = matches!(parts.next().unwrap(), "up" | "down");
        for (i, part) in parts.enumerate() {
            numbers[usize::from(counts && i == 1)].push(part.parse::<u16>().unwrap());
        }
    }
    for (numbers, all) in numbers
        .iter_mut()
        .zip([&[0, 1, 2, 3, 32_768][..], &[0, 1, 2, 3]])
    {
        numbers.sort();
        numbers.dedup();
        assert_eq!(numbers, all);
    }
}

/// First calls whose first draw is known, where C + 2 takes 16 bits or more.
#[test]
fn operands_of_large_stores() {
    for (input, first) in [
        // Drawn 32,767 twice, which is C + 1; then 65,535, which is C + 1 too.
        ("4171851869 32766 1", "setl 32768 32768"),
        ("2290037424 32766 1", "down 32768 0"),
        // Drawn 32,767, which is C; 32,768, which is C + 1; 32,769.
        ("2590382569 32767 1", "cons 32767 22190"),
        ("1276707698 32767 1", "up 32768 0"),
        ("2838012587 32767 1", "cons 0 9361"),
        // Drawn 32,768, which is C; then 32,769, which is C + 1.
        ("566713930 32768 1", "cons 32768 15773"),
        ("3545015542 32768 1", "setl 32768 0"),
        // Drawn 65,534 twice, which is C + 1; then 65,535.
        ("3785358470 65533 1", "cons 32768 32768"),
        ("442898921 65533 1", "cons 0 54958"),
        // Drawn 65,535, which is C + 1; then 65,534, which is C.
        ("287398783 65534 1", "setr 32768 1"),
        ("3888483296 65534 1", "cons 65534 29214"),
        // No draw is C + 1.
        ("287398783 65535 1", "setr 65535 1"),
    ] {
        let output = output_of(input.as_bytes());
        assert_eq!(split(&output).0[1], first, "{input}");
    }
}

#[test]
fn replies_are_the_slow_machines() {
    for (cells, calls) in [(0, 300), (1, 3_000), (3, 3_000), (8, 3_000), (64, 2_000)] {
        for seed in [0, 7, 2_147_483_648, 4_294_967_295u32] {
            let input = format!("{seed} {cells} {calls}\n");
            let naive = naive_output(input.as_bytes());
            assert_eq!(output_of(input.as_bytes()), naive, "{input}");
        }
    }
}

/// The calls go on after a refused fresh, on the zero table.
#[test]
fn refused_freshes() {
    for cells in [0, 4_097, 32_768, 65_535] {
        let output = load_of(3, cells, 500);
        let (calls, replies) = split(&output);
        assert_eq!((calls.len(), replies.len()), (501, 501));
        assert_eq!(calls[0], format!("fresh {cells}"));
        assert_eq!(replies[0], "1 NO 3");
        assert!(replies[1..].iter().all(|reply| reply.ends_with(" NO 1")));
    }
}

#[test]
fn replies_are_numbered_from_fresh() {
    for calls in [0, 1, 2, 9, 10, 99, 1_000, 65_535] {
        let output = load_of(11, 2, calls);
        let (lines, replies) = split(&output);
        assert_eq!(
            (lines.len(), replies.len()),
            (calls as usize + 1, lines.len())
        );
        for (number, reply) in (1..).zip(replies) {
            let found = reply.split(' ').next().unwrap().parse();
            assert_eq!(found, Ok(number), "{reply}");
        }
        assert!(output.ends_with('\n'));
    }
}

/// A shorter load is the front part of a longer one.
#[test]
fn loads_go_on() {
    let long = load_of(123, 3, 2_000);
    for calls in [0, 1, 2, 3, 500, 1_999] {
        let short = load_of(123, 3, calls);
        assert!(long.starts_with(&short), "{calls}");
        assert_eq!(short.lines().count(), 2 * (calls as usize + 1));
    }
}

#[test]
fn sessions_give_the_same_replies() {
    for (seed, cells, calls) in [
        (0, 0, 400),
        (1, 1, 20_000),
        (2, 2, 20_000),
        (408_858_366, 3, 65_535),
        (5, 5, 20_000),
        (1_775_118_300, 64, 65_535),
        (1_976_993_156, 600, 20_000),
        (3_877_942_671, 4_096, 65_535),
        (6, 4_097, 400),
        (287_398_783, 65_534, 400),
        (4_294_967_295, 65_535, 65_535),
    ] {
        let output = load_of(seed, cells, calls);
        let (lines, replies) = split(&output);
        let mut from_session = Vec::new();
        session::run(lines.join("\n").as_bytes(), &mut from_session).unwrap();
        let from_session = String::from_utf8(from_session).unwrap();
        assert!(from_session.lines().eq(replies), "{seed} {cells} {calls}");
    }
}

#[test]
fn the_line_feed_may_lack() {
    for line in ["0 0 0", "7 3 5", "4294967295 65535 2", "12 4096 1"] {
        let output = output_of(line.as_bytes());
        assert_ne!(output, "BAD\n");
        assert_eq!(output_of(format!("{line}\n").as_bytes()), output);
        assert_eq!(output_of(format!("{line}\n\n").as_bytes()), "BAD\n");
        assert_eq!(output_of(format!("\n{line}").as_bytes()), "BAD\n");
    }
}

#[test]
fn numbers_at_their_borders() {
    for (input, good) in [
        ("4294967295 3 1", true),
        ("4294967296 3 1", false),
        ("10000000000 3 1", false),
        ("18446744073709551617 3 1", false),
        ("7 65535 1", true),
        ("7 65536 1", false),
        ("7 100000 1", false),
        ("7 4294967299 1", false),
        ("7 0 65535", true),
        ("7 0 65536", false),
        ("7 0 4294967297", false),
        ("0 0 0", true),
        ("00 0 0", false),
        ("0 00 0", false),
        ("0 0 00", false),
        ("07 3 1", false),
        ("7 03 1", false),
        ("7 3 01", false),
        ("-0 3 1", false),
        ("7 +3 1", false),
        ("7 3 -1", false),
    ] {
        let output = output_of(input.as_bytes());
        assert_eq!(output != "BAD\n", good, "{input}");
        assert_eq!(output.starts_with("fresh "), good, "{input}");
    }
}

/// Every byte put in, put instead, and every byte left out, at every place.
#[test]
fn inputs_one_byte_away_from_good() {
    for good in [&b"7 3 2\n"[..], b"10 0 10", b"4294967295 65535 1\n"] {
        let mut inputs = Vec::new();
        for at in 0..=good.len() {
            let (front, back) = good.split_at(at);
            for byte in 0..=255 {
                inputs.push([front, &[byte], back].concat());
                if let [_, rest @ ..] = back {
                    inputs.push([front, &[byte], rest].concat());
                    inputs.push([front, rest].concat());
                }
            }
        }
        for input in inputs {
            // Long loads are compared elsewhere.
            let expected = match naive_input(&input) {
                Some([_, _, calls]) if calls >= 1_000 => continue,
                Some(_) => naive_output(&input),
                None => "BAD\n".to_string(),
            };
            assert_eq!(output_of(&input), expected, "{input:?}");
        }
    }
}

#[test]
fn long_inputs_are_bad() {
    for length in [22, 23, 24, 25, 80, 81, 255, 256, 8_192, 65_536, 300_000] {
        for fill in *b"0 7\n\0x" {
            for front in ["", "7 3 2", "7 3 2\n", "4294967295 65535 65535\n", "7 3 "] {
                let mut input = front.as_bytes().to_vec();
                input.resize(length.max(front.len() + 1), fill);
                if naive_input(&input).is_none() {
                    assert_eq!(output_of(&input), "BAD\n", "{length} {fill} {front}");
                }
            }
        }
    }
}

/// The buffer's borders don't show.
#[test]
fn any_buffer_size() {
    for input in [
        &b"4294967295 65535 12\n"[..],
        b"7 3 20",
        b"7 3 20\n7 3 20\n",
        b"",
    ] {
        let whole = output_of(input);
        for size in 1..30 {
            let mut output = Vec::new();
            load::run(BufReader::with_capacity(size, input), &mut output).unwrap();
            assert_eq!(output, whole.as_bytes(), "{size}");
        }
    }
}

/// One byte a read, with an interruption before each and an error at the end.
struct Faulty<'a> {
    bytes: &'a [u8],
    interrupt: bool,
    end: Option<ErrorKind>,
}

impl Read for Faulty<'_> {
    fn read(&mut self, buffer: &mut [u8]) -> io::Result<usize> {
        self.interrupt = !self.interrupt;
        if self.interrupt {
            return Err(ErrorKind::Interrupted.into());
        }
        match (self.bytes, self.end) {
            ([], Some(error)) => Err(error.into()),
            ([], None) => Ok(0),
            ([byte, rest @ ..], _) => {
                buffer[0] = *byte;
                self.bytes = rest;
                Ok(1)
            }
        }
    }
}

#[test]
fn interruptions_and_errors_of_the_input() {
    for bytes in [&b"7 3 20\n"[..], &[b'7'; 100]] {
        let input = |end| Faulty {
            bytes,
            interrupt: false,
            end,
        };
        let mut output = Vec::new();
        load::run(input(None), &mut output).unwrap();
        assert_eq!(output, output_of(bytes).as_bytes());
        // Nothing is written before the whole input is there.
        let mut output = Vec::new();
        let error = load::run(input(Some(ErrorKind::BrokenPipe)), &mut output).unwrap_err();
        assert_eq!(error.kind(), ErrorKind::BrokenPipe);
        assert_eq!(output, b"");
    }
}

// The stored inputs and outputs.

fn stored(name: &str) -> String {
    let root = Path::new(env!("CARGO_MANIFEST_DIR")).parent().unwrap();
    fs::read_to_string(root.join(name)).unwrap()
}

/// What printf's %b makes of a line: `\0` and three octal digits for a byte,
/// `\c` for nothing more.
fn unescape(line: &str) -> Vec<u8> {
    let mut bytes = Vec::new();
    let mut rest = line.as_bytes();
    while let [byte, tail @ ..] = rest {
        rest = tail;
        if *byte != b'\\' {
            bytes.push(*byte);
            continue;
        }
        let [escape, tail @ ..] = rest else {
            panic!("{line}");
        };
        rest = tail;
        bytes.push(match escape {
            b'n' => b'\n',
            b't' => b'\t',
            b'r' => b'\r',
            b'v' => 11,
            b'f' => 12,
            b'\\' => b'\\',
            b'0' => {
                let (digits, tail) = rest.split_at(3);
                rest = tail;
                u8::from_str_radix(std::str::from_utf8(digits).unwrap(), 8).unwrap()
            }
            b'c' => return bytes,
            _ => panic!("{line}"),
        });
    }
    bytes
}

#[test]
fn stored_outputs_are_the_naive_ones() {
    let inputs = stored("reference/cases/load.inputs");
    let mut expected = String::new();
    for line in inputs.lines() {
        let input = unescape(line);
        let output = naive_output(&input);
        assert!(output_of(&input) == output, "{line}");
        expected += &format!("== {line}\n{output}");
    }
    assert!(stored("reference/cases/load.outputs") == expected);
}

#[test]
fn stored_inputs_are_of_all_sorts() {
    let inputs = stored("reference/cases/load.inputs");
    let inputs: Vec<Vec<u8>> = inputs.lines().map(unescape).collect();
    let good: Vec<[u128; 3]> = inputs
        .iter()
        .filter_map(|input| naive_input(input))
        .collect();
    assert!(good.len() >= 60 && inputs.len() >= good.len() + 60);
    let mut apart = inputs.clone();
    apart.sort();
    apart.dedup();
    assert_eq!(apart.len(), inputs.len(), "an input stands there twice");
    for cells in [
        0, 1, 2, 3, 64, 4_095, 4_096, 4_097, 32_766, 32_767, 32_768, 65_534, 65_535,
    ] {
        assert!(good.iter().any(|load| load[1] == cells), "{cells}");
    }
    for seed in [0, 1, 2_147_483_647, 2_147_483_648, 4_294_967_295] {
        assert!(good.iter().any(|load| load[0] == seed), "{seed}");
    }
    for calls in [0, 1, 2, 400] {
        assert!(good.iter().any(|load| load[2] == calls), "{calls}");
    }
    let outputs = stored("reference/cases/load.outputs");
    for reply in [
        "OK 0", "NO 1", "NO 3", "NO 5", "NO 6", "NO 7", "NO 8", "IDLE",
    ] {
        assert!(outputs.contains(&format!(" {reply}\n")), "{reply}");
    }
    let long = stored("reference/cases/load-long.inputs");
    for line in long.lines() {
        let load = naive_input(&unescape(line)).unwrap();
        assert_eq!(load[2], 65_535, "{line}");
    }
}
