//! Many short texts: all over a small alphabet, every byte in several places,
//! and random ones.

use std::collections::BTreeSet;
use std::io;

use super::{any_fill, random, Case};
use crate::call::Call;
use crate::generate::list::List;
use crate::generate::rng::Rng;

const ALPHABET: [u8; 6] = *b"(). 01";

/// All texts of so many bytes over the alphabet.
pub fn all_of_length(length: usize) -> Vec<Vec<u8>> {
    let mut texts = vec![Vec::new()];
    for _ in 0..length {
        let longer = |text: &Vec<u8>| {
            let text = text.clone();
            ALPHABET.map(|byte| [&text[..], &[byte]].concat())
        };
        texts = texts.iter().flat_map(longer).collect();
    }
    texts
}

/// Every text over the alphabet of up to four bytes, and those of five and six
/// that begin and end with brackets.
pub fn short(rng: &mut Rng, list: &mut List) -> io::Result<()> {
    let mut texts: Vec<Vec<u8>> = (0..=4).flat_map(all_of_length).collect();
    for inside in [3, 4] {
        let inside = all_of_length(inside).into_iter();
        texts.extend(inside.map(|text| [&b"("[..], &text, b")"].concat()));
    }
    read_all(rng, list, "short texts", 4, &texts)
}

/// Every byte in eight places of a text.
pub fn bytes(rng: &mut Rng, list: &mut List) -> io::Result<()> {
    let mut texts = Vec::new();
    for byte in 0..=u8::MAX {
        for (before, after) in [
            ("", ""),
            ("", "(1)"),
            ("(", ")"),
            ("(1", "2)"),
            ("(1 .", "2)"),
            ("1", ""),
            ("(1)", ""),
            ("(1 ", " 2)"),
        ] {
            texts.push([before.as_bytes(), &[byte], after.as_bytes()].concat());
        }
    }
    read_all(rng, list, "every byte", 3, &texts)
}

/// Random texts, every second one within the notation.
pub fn texts(rng: &mut Rng, list: &mut List, cases: usize) -> io::Result<()> {
    let mut seen = BTreeSet::new();
    let mut texts = Vec::new();
    while texts.len() < cases {
        let depth = rng.below(5);
        let text = if texts.len() % 2 == 0 {
            random::text(rng, depth)
        } else {
            random::broken(rng, depth)
        };
        if text.len() <= 60 && seen.insert(text.clone()) {
            texts.push(text);
        }
    }
    read_all(rng, list, "random texts", 9, &texts)
}

/// Reads each text; what is accepted is written out again. After some texts the
/// store is made anew, before that it gets fuller.
fn read_all(
    rng: &mut Rng,
    list: &mut List,
    title: &str,
    cells: u16,
    texts: &[Vec<u8>],
) -> io::Result<()> {
    let mut case = Case::fresh(list, title, cells)?;
    for text in texts {
        let Some(word) = case.read(text)? else {
            continue;
        };
        let length = case.peek(word, 200).map_or(0, |text| text.len());
        let fill = any_fill(rng);
        case.write(word, length + rng.below(3), fill)?;
        if rng.one_in(4) {
            case.write(word, length - 1, fill)?;
        }
        if case.follower.no_free_cell() || rng.one_in(2) {
            if rng.one_in(8) {
                case.call(Call::Audit)?;
            }
            case.call(Call::Fresh(cells))?;
        } else if rng.one_in(3) {
            case.call(Call::Step)?;
        }
    }
    Ok(())
}
