//! The notation of rule text (A4) against all that its grammar derives, and
//! against a second reader of another shape.

mod slow;

use std::collections::BTreeSet;

use reference::generate::rng::Rng;
use reference::generate::texts::random;
use reference::notation::{deepest, parse, Element};
use slow::text::{self, Tree};

const ALPHABET: [char; 6] = ['(', ')', '.', ' ', '0', '1'];

/// What an element says, as pairs.
fn tree(element: &Element) -> Tree {
    match element {
        Element::Nil => Tree::Nil,
        Element::Atom(value) => Tree::Atom(*value),
        Element::List(elements, last) => {
            let mut rest = last.as_ref().map_or(Tree::Nil, |last| tree(last));
            for element in elements.iter().rev() {
                rest = Tree::Pair(Box::new(tree(element)), Box::new(rest));
            }
            rest
        }
    }
}

fn agree(bytes: &[u8]) -> bool {
    let first = parse(bytes);
    let second = text::tree(bytes);
    assert_eq!(
        first.as_ref().map(tree),
        second,
        "{:?}",
        String::from_utf8_lossy(bytes)
    );
    if let (Some(element), Some(tree)) = (&first, &second) {
        assert_eq!(element.pairs(), text::pairs(tree), "{bytes:?}");
        assert_eq!(deepest(bytes), text::depth(bytes), "{bytes:?}");
    }
    first.is_some()
}

/// All strings of each length that the grammar derives, from document 02's
/// words alone: nothing here looks at a text.
///
///     text = spaces element spaces
///     element = "(" spaces ")" | atom | "(" spaces some spaces ")"
///             | "(" spaces some spaces "." spaces element spaces ")"
///     some = element | some spaces element, one space at least between two atoms
struct Grammar {
    /// By length: elements that are atoms, and those in brackets.
    atoms: Vec<BTreeSet<String>>,
    lists: Vec<BTreeSet<String>>,
    /// By length: elements in a row, by whether the last is an atom.
    rows: [Vec<BTreeSet<String>>; 2],
}

fn spaces(n: usize) -> String {
    " ".repeat(n)
}

impl Grammar {
    fn up_to(most: usize) -> Grammar {
        let mut grammar = Grammar {
            atoms: vec![BTreeSet::new(); most + 1],
            lists: vec![BTreeSet::new(); most + 1],
            rows: [
                vec![BTreeSet::new(); most + 1],
                vec![BTreeSet::new(); most + 1],
            ],
        };
        // The values of the notation that are written with 0 and 1 alone.
        for value in 0..=32_767u32 {
            let digits = value.to_string();
            if digits.len() <= most && digits.chars().all(|c| c == '0' || c == '1') {
                grammar.atoms[digits.len()].insert(digits);
            }
        }
        for length in 1..=most {
            let lists = grammar.lists_of(length);
            grammar.lists[length] = lists;
            for ends_in_atom in [0, 1] {
                let rows = grammar.rows_of(length, ends_in_atom == 1);
                grammar.rows[ends_in_atom][length] = rows;
            }
        }
        grammar
    }

    fn elements(&self, length: usize) -> impl Iterator<Item = &String> {
        self.atoms[length].iter().chain(&self.lists[length])
    }

    fn all_rows(&self, length: usize) -> impl Iterator<Item = &String> {
        self.rows[0][length].iter().chain(&self.rows[1][length])
    }

    fn lists_of(&self, length: usize) -> BTreeSet<String> {
        let mut lists = BTreeSet::new();
        if length < 2 {
            return lists;
        }
        let inside = length - 2;
        lists.insert(format!("({})", spaces(inside)));
        for row in 1..=inside {
            for before in 0..=inside - row {
                let rest = inside - row - before;
                for text in self.all_rows(row) {
                    lists.insert(format!("({}{text}{})", spaces(before), spaces(rest)));
                }
                // spaces "." spaces element spaces
                for last in 1..rest {
                    for gap in 0..rest - last {
                        for gap_2 in 0..rest - last - gap {
                            let gap_3 = rest - last - gap - gap_2 - 1;
                            for text in self.all_rows(row) {
                                for end in self.elements(last) {
                                    lists.insert(format!(
                                        "({}{text}{}.{}{end}{})",
                                        spaces(before),
                                        spaces(gap),
                                        spaces(gap_2),
                                        spaces(gap_3)
                                    ));
                                }
                            }
                        }
                    }
                }
            }
        }
        lists
    }

    fn rows_of(&self, length: usize, ends_in_atom: bool) -> BTreeSet<String> {
        let last = |n: usize| {
            if ends_in_atom {
                &self.atoms[n]
            } else {
                &self.lists[n]
            }
        };
        let mut rows = last(length).clone();
        for end in 1..length {
            for row in 1..=length - end {
                let gap = length - end - row;
                for after_atom in [0, 1] {
                    if after_atom == 1 && ends_in_atom && gap == 0 {
                        continue;
                    }
                    for text in &self.rows[after_atom][row] {
                        for element in last(end) {
                            rows.insert(format!("{text}{}{element}", spaces(gap)));
                        }
                    }
                }
            }
        }
        rows
    }

    /// All texts of exactly so many bytes.
    fn texts(&self, length: usize) -> BTreeSet<String> {
        let mut texts = BTreeSet::new();
        for element in 1..=length {
            for before in 0..=length - element {
                let after = length - element - before;
                for text in self.elements(element) {
                    texts.insert(format!("{}{text}{}", spaces(before), spaces(after)));
                }
            }
        }
        texts
    }
}

fn all_texts(length: usize, mut look: impl FnMut(&str)) {
    let mut digits = vec![0; length];
    loop {
        let text: String = digits.iter().map(|&digit| ALPHABET[digit]).collect();
        look(&text);
        let Some(place) = digits.iter().position(|&digit| digit < 5) else {
            return;
        };
        digits[..place].fill(0);
        digits[place] += 1;
    }
}

/// Every text of up to seven bytes: accepted exactly where it is derived.
#[test]
fn texts_accepted_are_the_texts_derived() {
    let grammar = Grammar::up_to(7);
    let (mut all, mut within) = (0, 0);
    for length in 0..=7 {
        let derived = grammar.texts(length);
        all_texts(length, |text| {
            let accepted = agree(text.as_bytes());
            assert_eq!(accepted, derived.contains(text), "{text:?}");
            all += 1;
            within += usize::from(accepted);
        });
    }
    assert_eq!(all, (0..=7).map(|n| 6usize.pow(n)).sum::<usize>());
    println!("{within} of {all} texts are within the notation");
    assert!(within > 1_000);
}

#[test]
fn both_readers_agree_on_random_texts() {
    let mut rng = Rng::new(1);
    let (mut within, mut outside) = (0, 0);
    for i in 0..60_000 {
        let depth = rng.below(7);
        let text = if i % 2 == 0 {
            random::text(&mut rng, depth)
        } else {
            random::broken(&mut rng, depth)
        };
        let accepted = agree(&text);
        assert!(
            accepted || i % 2 == 1,
            "{:?}",
            String::from_utf8_lossy(&text)
        );
        within += usize::from(accepted);
        outside += usize::from(!accepted);
    }
    assert!(within > 30_000 && outside > 10_000, "{within} {outside}");
}

/// Every value that has up to six digits, with and without leading zeros.
#[test]
fn atoms_are_values_up_to_32767() {
    for value in 0..=70_000u32 {
        let text = value.to_string();
        let expected = (value <= 32_767).then_some(Element::Atom(value as u16));
        assert_eq!(parse(text.as_bytes()), expected, "{text}");
        for zeros in ["0", "00"] {
            assert_eq!(parse(format!("{zeros}{text}").as_bytes()), None);
        }
    }
}

#[test]
fn long_texts_end_at_4096_bytes() {
    for length in [4_095, 4_096, 4_097, 70_000] {
        let text = format!("(1{}2)", " ".repeat(length - 4));
        assert_eq!(parse(text.as_bytes()).is_some(), length <= 4_096);
        let deep = format!("{}{}", "(".repeat(length / 2), ")".repeat(length / 2));
        assert_eq!(parse(deep.as_bytes()).is_some(), length / 2 <= 2_048);
    }
}
