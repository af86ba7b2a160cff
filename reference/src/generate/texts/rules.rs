//! Input for the program `reference rules`.

use std::io::{self, Write};

use super::borders::nested;
use super::{cycle, flat, random, short};
use crate::generate::rng::Rng;

/// Lines at all borders, then random ones until there are so many. The last line
/// lacks its line feed.
pub fn rules(rng: &mut Rng, lines: usize, output: &mut dyn Write) -> io::Result<()> {
    let mut texts = vec![Vec::new()];
    texts.extend(known());
    texts.extend(clipped());
    texts.extend((1..=3).flat_map(short::all_of_length));
    for byte in (0..=u8::MAX).filter(|&byte| byte != b'\n') {
        for (before, after) in [("", ""), ("(1", "2)"), ("(1 ", " . 2)"), ("(1)", "")] {
            texts.push([before.as_bytes(), &[byte], after.as_bytes()].concat());
        }
    }
    for n in [1, 2, 31, 32, 33, 34, 64, 65, 1_000, 2_048] {
        texts.push(nested(n, ""));
        texts.push(nested(n, "5"));
        texts.push(nested(n, "4095"));
        texts.push(nested(n, ".")); // Outside, however deep.
        texts.push(nested(n, "1 2 . 3"));
        texts.push("(".repeat(n).into_bytes());
        texts.push(")".repeat(n).into_bytes());
        texts.push(format!("{}2{}", "(1 ".repeat(n), ")".repeat(n)).into_bytes());
        texts.push(format!("{}2{}", "(1 . ".repeat(n), ")".repeat(n)).into_bytes());
        texts.push(format!("{}1{}", "(".repeat(n), " . 2)".repeat(n)).into_bytes());
    }
    for pairs in [1, 2, 31, 32, 33, 62, 63, 64, 65, 66, 128, 2_047] {
        texts.push(flat(rng, pairs));
        texts.push(format!("({})", "()".repeat(pairs)).into_bytes());
        texts.push(format!("({}.9)", "4094 ".repeat(pairs)).into_bytes());
        texts.push(format!("({}.4095)", "1 ".repeat(pairs)).into_bytes());
    }
    for length in [4_095, 4_096, 4_097, 4_098, 8_192, 70_000] {
        texts.push(format!("(1{}2)", " ".repeat(length - 4)).into_bytes());
        texts.push(format!("7{}", " ".repeat(length - 1)).into_bytes());
        texts.push(cycle(b" ", length));
    }
    texts.push(cycle(b"(1 2) ", 70_000));
    texts.push(cycle(b"x", 65_536));
    let last = b"(the last line lacks its line feed)";
    while texts.len() + 1 < lines {
        let depth = rng.below(6);
        let text = if rng.one_in(4) {
            random::broken(rng, depth)
        } else {
            random::text(rng, depth)
        };
        if !text.contains(&b'\n') {
            texts.push(text);
        }
    }
    // In no order, so that long and short, good and bad are neighbours.
    for i in (1..texts.len()).rev() {
        texts.swap(i, rng.below(i + 1));
    }
    for text in texts {
        output.write_all(&text)?;
        output.write_all(b"\n")?;
    }
    output.write_all(if rng.one_in(2) {
        b"(1 . (2 . 3))"
    } else {
        last
    })
}

/// Values on both sides of 4,095 and at the notation's end, in many places.
fn clipped() -> Vec<Vec<u8>> {
    let mut texts = Vec::new();
    for value in [
        "4093", "4094", "4095", "4096", "32767", "32768", "04094", "04095",
    ] {
        for (before, after) in [
            ("", ""),
            (" ", " "),
            ("(", ")"),
            ("(", " 1)"),
            ("(1 ", " 2)"),
            ("(1 ", ")"),
            ("(1 . ", ")"),
            ("(", ".1)"),
            ("((2 (", ")) 3)"),
            ("(4094 ", ")"),
            ("(", " 4095)"),
            ("(", ""),
            ("", ")"),
        ] {
            texts.push(format!("{before}{value}{after}").into_bytes());
        }
    }
    texts
}

fn known() -> Vec<Vec<u8>> {
    let texts = [
        "()",
        "( )",
        "0",
        "7",
        "32767",
        "32768",
        "65535",
        "65536",
        "65541",
        "4294967301",
        "18446744073709551621",
        "00",
        "01",
        "(00)",
        "(1 . 00)",
        "-1",
        "+1",
        "(1 2 . 3)",
        "(1 2)",
        "((1) (2))",
        "((1).((2)))",
        "(1 . ())",
        "(1 . (2 . 3))",
        "(1 . 2)",
        "(1.2)",
        "(1.(2))",
        "(1 .2)",
        "(1. 2)",
        "( 1 2 )",
        " 5 ",
        "(1(2)3)",
        "(. 1)",
        "(1 .)",
        "(1 . 2 3)",
        "(1 . 2 . 3)",
        "(1 . . 2)",
        "(.)",
        ".",
        "1 . 2",
        "1 2",
        "()()",
        "(1)2",
        "2(1)",
        "(1))",
        "((1)",
        ")(",
        ")",
        "(",
        "(1\t2)",
        "(1)\r",
        "\r",
        "(1,2)",
        "nil",
        "NIL",
        "(a)",
        "'(1)",
        "NO 11",
        "(() . ())",
        "((() . ()) . ())",
        "(()())",
        "(1 . (()))",
        "((1 . 2) . (3 . 4))",
    ];
    texts.map(|text| text.as_bytes().to_vec()).to_vec()
}
