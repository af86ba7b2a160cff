//! Clipped readings in rule text (A5): the border of 14, what comes before what,
//! and stores whose words have some.

use std::io;

use super::borders::nested;
use super::{any_fill, scattered, Case};
use crate::call::Call;
use crate::generate::atoms::{rename, BORDER_VALUES};
use crate::generate::damaged::sample;
use crate::generate::follower::Follower;
use crate::generate::list::List;
use crate::generate::rng::Rng;
use crate::table::*;
use crate::text_call::TextCall;

pub fn clipped(rng: &mut Rng, list: &mut List) -> io::Result<()> {
    places(list)?;
    orders(rng, list)?;
    lengths(list)?;
    any_store(list)?;
    written(rng, list)
}

/// Values on both sides of 4,095 and at the notation's end, in every place.
fn places(list: &mut List) -> io::Result<()> {
    let mut case = Case::fresh(list, "clipped readings, values and places", 33)?;
    for value in [
        "0", "4093", "4094", "4095", "4096", "5000", "9999", "10000", "32766", "32767", "32768",
        "04094", "04095", "40950", "65535",
    ] {
        for (before, after) in [
            ("", ""),
            (" ", " "),
            ("(", ")"),
            ("( ", " )"),
            ("(", " 1)"),
            ("(1 ", ")"),
            ("(1 ", " 2)"),
            ("(1 . ", ")"),
            ("(1.", ")"),
            ("(", " . 1)"),
            ("(", ".())"),
            ("((", ") 1)"),
            ("(1 (2 (3 ", ")))"),
            ("(1 (2 . ", ") 3)"),
            ("((", " . 1) . 2)"),
            ("(() . ", ")"),
            ("(1 . (", "))"),
            ("(", " 4094)"),
            ("(4094 ", ")"),
            ("(4095 ", ")"),
            ("(", " . 4096)"),
        ] {
            read(&mut case, format!("{before}{value}{after}").as_bytes())?;
        }
    }
    for depth in [31, 32] {
        for value in ["4094", "4095", "4096", "32767"] {
            read(&mut case, &nested(depth, value))?;
            read(&mut case, &nested(depth, &format!("1 . {value}")))?;
        }
    }
    Ok(())
}

/// Reads a text; one that is accepted is written, and the store made anew.
fn read(case: &mut Case, text: &[u8]) -> io::Result<()> {
    if let Some(word) = case.read(text)? {
        let length = case.peek(word, 200).map_or(0, |text| text.len());
        case.write(word, length, 0)?;
        let cells = case.follower.cells();
        case.call(Call::Fresh(cells))?;
    }
    Ok(())
}

/// What comes first where two refusals would do: 11, 12, 14, 7, 8.
fn orders(rng: &mut Rng, list: &mut List) -> io::Result<()> {
    for (cells, waiting) in [(80, 0), (80, 64), (80, 61), (3, 0), (3, 62), (2, 64)] {
        let mut follower = scattered(rng, cells, 1);
        let x = follower.held_cell(rng).unwrap_or(1);
        for _ in 0..waiting {
            follower.perform(Call::Up(x, 1));
        }
        let title = format!("clipped readings, {cells} cells, {waiting} packets");
        let mut case = Case::start(list, &title, follower)?;
        for value in ["4095", "32767", "4094"] {
            let many = format!("({}{value})", "1 ".repeat(64));
            for text in [
                format!("({value}"),
                format!("({value} x)"),
                format!("({value} . 1 2)"),
                format!("{value} {value}"),
                format!("({value} 32768)"),
                format!("(0{value} {value})"),
                format!("{}{value} .{}", "(".repeat(33), ")".repeat(33)),
                format!("{}{value}{}", "(".repeat(33), ")".repeat(33)),
                format!("({value} {}{})", "(".repeat(32), ")".repeat(32)),
                many.clone(),
                format!("{many})"),
                format!("({value} 2 3 4)"),
                format!("(1 2 . {value})"),
                format!("({value})"),
                value.to_string(),
            ] {
                case.read(text.as_bytes())?;
            }
        }
        case.call(Call::Audit)?;
    }
    Ok(())
}

/// Texts of 4,096 bytes and of one more.
fn lengths(list: &mut List) -> io::Result<()> {
    let mut case = Case::fresh(list, "clipped readings, lengths", 2)?;
    for length in [4_096, 4_097] {
        let text = format!("(1{}4095)", " ".repeat(length - 7));
        case.read(text.as_bytes())?;
    }
    Ok(())
}

/// Stores that pass question 1 and not the audit, and such that fail both: there
/// reading answers 1, 11, 12 and 14, writing 1 and 4.
fn any_store(list: &mut List) -> io::Result<()> {
    let sample = sample();
    for (index, damage) in [
        (at(5) + LEFT, 9),
        (at(8) + STATE, 2),
        (FIRST_FREE, 0),
        (at(1) + CELL_COUNT, 2),
        (at(5) + ROOT_COUNT, 0),
        (CELLS, 9),
        (FIRST_FREE, 9),
    ] {
        for value in ["4095", "32767", "4094"] {
            let mut store = sample.clone();
            store.table[index] = damage;
            list.title(&format!("word {index} is {damage}, clipped readings"))?;
            list.store(&store)?;
            list.brief(Call::Audit)?;
            for text in [
                format!("({value}"),
                format!("{}{value}{}", "(".repeat(33), ")".repeat(33)),
                format!("({}{value})", "1 ".repeat(64)),
                format!("(1 . {value})"),
                format!("({value} 2)"),
                value.to_string(),
            ] {
                list.text(&TextCall::Read(text.into_bytes()), true)?;
            }
            for word in [9, 32_767, FIRST_ATOM + CLIP, u16::MAX, 1] {
                let (length, fill) = (5, 77);
                list.text(&TextCall::Write { word, length, fill }, true)?;
            }
        }
    }
    Ok(())
}

/// Words that have a clipped reading from before A5 are written, whatever the
/// buffer, and their texts not read again.
fn written(rng: &mut Rng, list: &mut List) -> io::Result<()> {
    let mark = FIRST_ATOM + 1;
    for value in BORDER_VALUES {
        let atom = FIRST_ATOM + value;
        let mut follower = Follower::fresh(12);
        for call in [
            Call::Cons(mark, NIL),
            Call::Up(1, 2),
            Call::Cons(NIL, mark),
            Call::Up(2, 2),
            Call::Cons(mark, mark),
            Call::Cons(1, 2),
            Call::Cons(mark, 4),
        ] {
            follower.perform(call);
        }
        if rng.one_in(2) {
            follower.drain();
        }
        rename(&mut follower.store, mark, atom);
        let title = format!("words with atom {value}, written and read");
        let mut case = Case::start(list, &title, follower)?;
        case.call(Call::Audit)?;
        for word in [atom, 1, 2, 3, 5] {
            let text = case.peek(word, 60).unwrap_or_default();
            for length in 0..=text.len() + 1 {
                case.write(word, length, any_fill(rng))?;
            }
            case.read_whole(&text)?;
        }
        // The word read out of a cell is written, and not stored.
        case.call(Call::Car(1))?;
        case.call(Call::Cons(atom, NIL))?;
        case.write_whole(atom, 5, 35)?;
        case.call(Call::Audit)?;
    }
    Ok(())
}
