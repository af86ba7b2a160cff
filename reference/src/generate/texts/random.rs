//! Random texts, within the notation and just outside.

use crate::generate::rng::Rng;
use crate::notation::Element;

/// Values that may be stored, and clipped ones.
const VALUES: [u16; 16] = [
    0, 1, 2, 7, 9, 10, 11, 99, 100, 255, 999, 1_000, 2_048, 4_000, 4_093, 4_094,
];
const CLIPPED: [u16; 8] = [4_095, 4_095, 4_096, 9_999, 10_000, 20_000, 32_766, 32_767];

/// An element in which lists stand at most `depth` deep, without clipped readings.
pub fn element(rng: &mut Rng, depth: usize) -> Element {
    if depth == 0 || rng.one_in(3) {
        return match rng.below(4) {
            0 => Element::Nil,
            1 => Element::Atom(rng.within(0, 4_094)),
            _ => Element::Atom(rng.pick(&VALUES)),
        };
    }
    let elements = (0..1 + rng.below(3)).map(|_| element(rng, depth - 1));
    let elements: Vec<Element> = elements.collect();
    let last = rng.one_in(3).then(|| Box::new(element(rng, depth - 1)));
    Element::List(elements, last)
}

/// Makes about half of its atoms clipped readings.
fn clip(rng: &mut Rng, element: &mut Element) {
    match element {
        Element::Nil => {}
        Element::Atom(value) => {
            if rng.one_in(2) {
                *value = rng.pick(&CLIPPED);
            }
        }
        Element::List(elements, last) => {
            for element in elements.iter_mut().chain(last.as_deref_mut()) {
                clip(rng, element);
            }
        }
    }
}

/// Its brackets, dots and atoms.
fn tokens(element: &Element, tokens: &mut Vec<String>) {
    match element {
        Element::Nil => tokens.extend(["(".into(), ")".into()]),
        Element::Atom(value) => tokens.push(value.to_string()),
        Element::List(elements, last) => {
            tokens.push("(".into());
            for element in elements {
                self::tokens(element, tokens);
            }
            if let Some(last) = last {
                tokens.push(".".into());
                self::tokens(last, tokens);
            }
            tokens.push(")".into());
        }
    }
}

/// A text of the element: with no more spaces than needed, or with some about.
pub fn spell(rng: &mut Rng, element: &Element) -> Vec<u8> {
    let mut parts = Vec::new();
    tokens(element, &mut parts);
    let loose = rng.one_in(2);
    let mut text = Vec::new();
    let mut after_atom = false;
    for part in parts {
        let is_atom = part.as_bytes()[0].is_ascii_digit();
        let least = usize::from(after_atom && is_atom);
        let more = if loose && rng.one_in(3) {
            1 + rng.below(3)
        } else {
            0
        };
        text.extend(vec![b' '; least + more]);
        text.extend(part.bytes());
        after_atom = is_atom;
    }
    if loose {
        text.extend(vec![b' '; rng.below(3)]);
    }
    text
}

/// A text within the notation; one in eight may have clipped readings.
pub fn text(rng: &mut Rng, depth: usize) -> Vec<u8> {
    let mut element = element(rng, depth);
    if rng.one_in(8) {
        clip(rng, &mut element);
    }
    spell(rng, &element)
}

/// A text with one byte or some taken out, put in, changed or doubled; it may be
/// within the notation all the same.
pub fn broken(rng: &mut Rng, depth: usize) -> Vec<u8> {
    let mut text = text(rng, depth);
    for _ in 0..1 + rng.below(2) {
        let place = rng.below(text.len() + 1);
        let byte = match rng.below(8) {
            0 => rng.word() as u8,
            _ => rng.pick(b"()().. 0123456789"),
        };
        if place == text.len() {
            text.push(byte);
            continue;
        }
        match rng.below(5) {
            0 => {
                text.remove(place);
            }
            1 => text.insert(place, byte),
            2 => text[place] = byte,
            3 => text.insert(place, text[place]),
            _ => {
                let other = rng.below(text.len());
                text.swap(place, other);
            }
        }
    }
    text
}
