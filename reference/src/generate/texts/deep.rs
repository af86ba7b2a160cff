//! Very deep texts, up to 4,096 bytes of brackets.

use std::io;

use super::{cycle, Case};
use crate::call::Call;
use crate::generate::list::List;

/// What opens a level, what stands in the middle, what closes a level.
const SHAPES: [(&str, &str, &str); 20] = [
    ("(", "", ")"),
    ("(", "5", ")"),
    ("( ", "", " )"),
    ("(1", "", ")"),
    ("(1 ", "2", ")"),
    ("(()", "", ")"),
    ("(", "()", "())"),
    ("(", "", " 7)"),
    ("(1 . ", "2", ")"),
    ("(1.", "()", ")"),
    ("(1 2 . ", "(3)", ")"),
    ("(", "1", " . 2)"),
    ("(", "()", ".())"),
    ("((1) . ", "()", ")"),
    // Outside the notation at every level, or at each but the innermost.
    ("(.", "", ")"),
    ("(. ", "1", ")"),
    ("(", "1", " .)"),
    ("(1 . ", "2", " 3)"),
    ("(1 . ", "2", " . 3)"),
    ("(01 ", "2", ")"),
];

pub fn deep(list: &mut List) -> io::Result<()> {
    let mut case = Case::fresh(list, "deep texts", 64)?;
    for (i, (open, middle, close)) in SHAPES.into_iter().enumerate() {
        for depth in [3, 16, 31, 32, 33, 34, 40] {
            let text = format!("{}{middle}{}", open.repeat(depth), close.repeat(depth));
            read(&mut case, text.as_bytes())?;
            if depth != 32 + i % 2 {
                continue;
            }
            for text in [
                // Unclosed, surplus, and both ends of the middle.
                format!("{}{middle}{}", open.repeat(depth), close.repeat(depth - 1)),
                format!("{}{middle}{}", open.repeat(depth), close.repeat(depth + 1)),
                format!("{}{middle}", open.repeat(depth)),
                format!("{middle}{}", close.repeat(depth)),
                format!("{} . {middle}{}", open.repeat(depth), close.repeat(depth)),
                format!("{}{middle} .{}", open.repeat(depth), close.repeat(depth)),
                format!("{}{middle} 00 {}", open.repeat(depth), close.repeat(depth)),
            ] {
                read(&mut case, text.as_bytes())?;
            }
        }
    }
    for text in longest() {
        read(&mut case, &text)?;
    }
    Ok(())
}

/// Of 4,096 bytes or just about.
fn longest() -> Vec<Vec<u8>> {
    let level = |n: usize, open: &str, middle: &str, close: &str| {
        format!("{}{middle}{}", open.repeat(n), close.repeat(n)).into_bytes()
    };
    let joined = |open: usize, close: usize| {
        format!("{}{}", "(".repeat(open), ")".repeat(close)).into_bytes()
    };
    vec![
        // Closed, one unclosed, one surplus, all unclosed, all surplus.
        joined(2_048, 2_048),
        joined(2_049, 2_047),
        joined(2_047, 2_049),
        joined(4_096, 0),
        joined(0, 4_096),
        // A fault in the innermost of 2,047 levels.
        level(2_047, "(", ".", ")"),
        level(2_046, "(", "01", ")"),
        // Elements and dots at every level.
        level(1_365, "(1", "", ")"),
        level(1_023, "(1.", "()", ")"),
        level(1_023, "(", "5 ", ".6)"),
        // Outermost fault only.
        [&level(2_047, "(", "", ")")[..], b")"].concat(),
        [b"("[..].as_ref(), &level(2_047, "(", "", ")")].concat(),
        // Wide and not deep: 2,047 pairs; too many elements outside brackets.
        format!("({})", "()".repeat(2_047)).into_bytes(),
        format!("({})", cycle_text("1 ", 4_094)).into_bytes(),
        cycle(b"()", 4_096),
        cycle(b"1 ", 4_096),
        cycle(b"1", 4_096),
    ]
}

fn cycle_text(part: &str, n: usize) -> String {
    part.chars().cycle().take(n).collect()
}

fn read(case: &mut Case, text: &[u8]) -> io::Result<()> {
    if let Some(word) = case.read(text)? {
        let length = case.peek(word, 1_000).map_or(0, |text| text.len());
        case.write(word, length, 0)?;
        case.call(Call::Fresh(64))?;
    }
    Ok(())
}
