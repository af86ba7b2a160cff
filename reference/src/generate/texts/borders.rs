//! The borders of the refusals of both calls, and their order.

use std::io;

use super::{any_fill, cycle, flat, scattered, Case};
use crate::call::{Call, Reply};
use crate::generate::list::List;
use crate::generate::rng::Rng;
use crate::table::*;

pub fn borders(rng: &mut Rng, list: &mut List) -> io::Result<()> {
    papers(list)?;
    values(list)?;
    depths(rng, list)?;
    lengths(list)?;
    pairs(rng, list)?;
    orders(rng, list)?;
    deep_words(rng, list)?;
    words(rng, list)
}

/// `n` brackets around what stands inside.
pub fn nested(n: usize, inside: &str) -> Vec<u8> {
    format!("{}{inside}{}", "(".repeat(n), ")".repeat(n)).into_bytes()
}

/// What document 02 itself has, store and all.
fn papers(list: &mut List) -> io::Result<()> {
    let mut case = Case::fresh(list, "document 02's own", 8)?;
    for text in [
        "()",
        "7",
        "(1 2 . 3)",
        "(1 2)",
        "((1) (2))",
        "((1).((2)))",
        "(1 . ())",
        "(1 . (2 . 3))",
        "(1 . 2)",
        "( 1 2 )",
        " 5 ",
        "(1(2)3)",
        "((1 . 2) 3 . (4))",
    ] {
        if let Some(word) = case.read_whole(text.as_bytes())? {
            case.write_whole(word, 24, b'#')?;
            case.step_until_idle()?;
            if is_cell(word, 8) {
                case.call(Call::Down(word, 1))?;
            }
            case.step_until_idle()?;
            case.whole(Call::Audit)?;
        }
    }
    Ok(())
}

/// Atoms at 4,095, at 32,767 and far over it, leading zeros, signs.
fn values(list: &mut List) -> io::Result<()> {
    let mut case = Case::fresh(list, "values", 3)?;
    for value in [
        "0",
        "1",
        "9",
        "10",
        "4094",
        "4095",
        "4096",
        "9999",
        "10000",
        "32766",
        "32767",
        "32768",
        "32769",
        "32770",
        "32800",
        "33000",
        "40000",
        "65535",
        "65536",
        "65541",
        "99999",
        "100000",
        "327670",
        "4294967295",
        "4294967296",
        "4294967301",
        "18446744073709551615",
        "18446744073709551621",
        "340282366920938463463374607431768211461",
        "00",
        "01",
        "007",
        "032767",
        "000000000000001",
        "0 0",
        "1 0",
        "+1",
        "-1",
        "-0",
        "1e3",
        "0x1",
        "1,000",
        "1_0",
        "NIL",
        "nil",
        "a",
        "'1",
        "1.0",
        "1.5",
        "\"1\"",
        "#1",
        ";1",
        "1;",
    ] {
        for (before, after) in [("", ""), ("(", ")"), ("(1 . ", ")"), ("(", " . 1)")] {
            let text = format!("{before}{value}{after}");
            if let Some(word) = case.read(text.as_bytes())? {
                case.write(word, 30, 0)?;
                case.call(Call::Fresh(3))?;
            }
        }
    }
    Ok(())
}

/// 31 to 34 brackets in all manner of texts, on a store where all fit.
fn depths(rng: &mut Rng, list: &mut List) -> io::Result<()> {
    let mut case = Case::fresh(list, "brackets open together", 80)?;
    for n in [1, 2, 31, 32, 33, 34] {
        let inner = n - 1;
        let texts = [
            // One pair less than brackets, as many, two for each bracket.
            nested(n, ""),
            nested(n, "5"),
            nested(inner, "5 ()"),
            format!("{}{}{}", "(1".repeat(n), "", ")".repeat(n)).into_bytes(),
            format!("{}{}{}", "(".repeat(n), "2", " 3)".repeat(n)).into_bytes(),
            // Lists after dots count as brackets, though no list is in a list.
            format!("{}{}{}", "(1 . ".repeat(inner), "()", ")".repeat(inner)).into_bytes(),
            format!("{}{}{}", "(1.".repeat(inner), "(2)", ")".repeat(inner)).into_bytes(),
            format!("{}{}{}", "(".repeat(n), "1", ".2)".repeat(n)).into_bytes(),
            format!("{}{}{}", "(() . ".repeat(inner), "3", ")".repeat(inner)).into_bytes(),
            // Open, closed and open again.
            format!(
                "({}{})",
                "()".repeat(3),
                String::from_utf8_lossy(&nested(inner, ""))
            )
            .into_bytes(),
            format!(
                "({}{})",
                String::from_utf8_lossy(&nested(inner, "")),
                "()".repeat(3)
            )
            .into_bytes(),
        ];
        for text in texts {
            if let Some(word) = case.read(&text)? {
                let length = case.peek(word, 400).map_or(0, |text| text.len());
                case.write(word, length, any_fill(rng))?;
                case.write(word, length - 1, any_fill(rng))?;
                case.call(Call::Fresh(80))?;
            }
            // With one bracket less or more it is outside, however deep.
            case.read(&text[1..])?;
            case.read(&text[..text.len() - 1])?;
        }
    }
    Ok(())
}

/// Texts of 4,095 to 4,098 bytes.
fn lengths(list: &mut List) -> io::Result<()> {
    let mut case = Case::fresh(list, "lengths", 4)?;
    for (before, after) in [("5", ""), ("", "(1 . 2)"), ("(1", "2)")] {
        for length in [4_096, 4_097] {
            let spaces = length - before.len() - after.len();
            let text = format!("{before}{}{after}", " ".repeat(spaces));
            if let Some(word) = case.read(text.as_bytes())? {
                case.write(word, 12, 1)?;
                case.call(Call::Fresh(4))?;
            }
        }
    }
    let text = format!("{}(){}", " ".repeat(2_000), " ".repeat(2_093));
    assert_eq!(text.len(), 4_095);
    case.read(text.as_bytes())?;
    case.read(&cycle(b" ", 4_096))?;
    case.read(b"")?;
    case.read(b" ")?;
    Ok(())
}

/// 62 to 66 pairs on stores of as many cells and more.
fn pairs(rng: &mut Rng, list: &mut List) -> io::Result<()> {
    for cells in [62, 63, 64, 65, 66] {
        let title = format!("62 to 66 pairs, {cells} cells");
        let mut case = Case::fresh(list, &title, cells)?;
        for pairs in [66, 65, 64, 63, 62] {
            let text = flat(rng, pairs);
            if case.read(&text)?.is_some() {
                // Full queue or no free cell, or both, or nearly so.
                case.read(b"(1)")?;
                case.read(b"(1 2)")?;
                case.read(b"(1 2 3)")?;
                case.read(b"()")?;
                case.read(b"3")?;
                case.call(Call::Audit)?;
                case.call(Call::Fresh(cells))?;
            }
        }
    }
    Ok(())
}

/// What comes first where two refusals would do: 1, 11, 12, 7, 8.
fn orders(rng: &mut Rng, list: &mut List) -> io::Result<()> {
    let outside = nested(33, ".");
    let deep = nested(33, "");
    let deep_and_many = format!("({}{})", nested_text(33), " 1".repeat(66));
    let outside_and_many = format!("({})x", "1 ".repeat(70));
    for (cells, waiting) in [
        (70, 0),
        (70, 33),
        (70, 64),
        (20, 10),
        (3, 62),
        (2, 64),
        (1, 0),
    ] {
        let title = format!("order of refusals, {cells} cells, {waiting} packets");
        let mut follower = scattered(rng, cells, 1);
        let x = follower.held_cell(rng).unwrap_or(1);
        for _ in 0..waiting {
            follower.perform(Call::Up(x, 1));
        }
        let mut case = Case::start(list, &title, follower)?;
        for text in [
            &outside[..],
            &deep,
            deep_and_many.as_bytes(),
            outside_and_many.as_bytes(),
            &nested(33, "1"),
            &nested(32, "1"),
            b"(1 2 3 4",
            b"(1 2 3 4)",
            b"(1 2 3)",
            b"(1 2)",
            b"(1)",
            b"()",
        ] {
            case.read(text)?;
        }
        case.read(&cycle(b"(1 ", 4_096)[..rng.below(90)])?;
    }
    // A text too long that is too deep as well.
    let mut case = Case::fresh(list, "order of refusals, long texts", 2)?;
    let text = format!("{}{}", nested_text(40), " ".repeat(4_096 - 80));
    case.read(text.as_bytes())?;
    case.read(format!("{text} ").as_bytes())?;
    Ok(())
}

fn nested_text(n: usize) -> String {
    format!("{}{}", "(".repeat(n), ")".repeat(n))
}

/// Words of 31 to 34 brackets, made by conses around a text, written into
/// buffers around the place where the 33rd bracket is met.
fn deep_words(rng: &mut Rng, list: &mut List) -> io::Result<()> {
    // What stands inside, and the cell's other word.
    for (inside, left, right) in [
        ("()", None, NIL),
        ("7", None, NIL),
        ("(3)", Some(FIRST_ATOM + 1), NIL),
        ("(3)", Some(NIL), NIL),
        ("(3 . 4)", None, FIRST_ATOM + 12),
        ("() ", None, FIRST_ATOM),
    ] {
        let title = format!("words of many brackets around {inside}");
        let mut case = Case::fresh(list, &title, 80)?;
        let mut word = case.read(inside.as_bytes())?.unwrap_or(NIL);
        for around in 1..=34 {
            word = wrap(&mut case, word, left, right)?;
            if case.follower.store.queue.count > 40 {
                case.step_until_idle()?;
            }
            if around < 30 {
                continue;
            }
            let fill = any_fill(rng);
            let full = case.peek(word, 2_000).map(|text| text.len());
            // Where the 33rd bracket comes, counted by what comes before it.
            let step = match left {
                None => 1,
                Some(NIL) => 4,
                Some(_) => 3,
            };
            let mut lengths = vec![0, 1, 2];
            let near = 32 * step;
            lengths.extend(near - 4..near + 5);
            lengths.extend([near + 40, 300, 1_000]);
            if let Some(full) = full {
                lengths.extend([full - 2, full - 1, full, full + 1]);
            }
            for length in lengths {
                case.write(word, length, fill)?;
            }
        }
    }
    Ok(())
}

/// A pair whose left is the word, or whose second element is.
fn wrap(case: &mut Case, word: u16, left: Option<u16>, right: u16) -> io::Result<u16> {
    let call = match left {
        None => Call::Cons(word, right),
        Some(_) => Call::Cons(word, NIL),
    };
    let mut new = made(case, call)?;
    if let Some(left) = left {
        new = made(case, Call::Cons(left, new))?;
    }
    Ok(new)
}

fn made(case: &mut Case, call: Call) -> io::Result<u16> {
    match case.call(call)? {
        Reply::Done(word) => Ok(word),
        other => panic!("{call:?}: {other:?}"),
    }
}

/// Words held, not held, free, illegal; nil and atoms; with all buffers.
fn words(rng: &mut Rng, list: &mut List) -> io::Result<()> {
    for cells in [1, 5, 9] {
        let title = format!("all words written, {cells} cells");
        let mut follower = scattered(rng, cells, cells.div_ceil(2));
        if let Some(x) = follower.held_cell(rng) {
            // Given up, but its packet waits: in use and not held.
            follower.perform(Call::Down(x, follower.holds(x)));
        }
        let mut case = Case::start(list, &title, follower)?;
        let mut words: Vec<u16> = (0..=cells + 1).collect();
        words.extend([4_096, 4_097, 32_767]);
        for word in words {
            for length in [0, 1, 2, 3, 40] {
                case.write(word, length, any_fill(rng))?;
            }
        }
        for value in [
            0, 1, 9, 10, 99, 100, 999, 1_000, 4_094, 4_095, 4_096, 9_999, 10_000, 32_766, 32_767,
        ] {
            for length in 0..=6 {
                case.write(FIRST_ATOM + value, length, any_fill(rng))?;
            }
        }
        case.write_whole(NIL, 2, 0)?;
        case.write_whole(u16::MAX, 5, 255)?;
        case.write_whole(1, 60, 1)?;
    }
    Ok(())
}
