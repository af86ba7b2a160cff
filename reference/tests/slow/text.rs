//! Rule text (A4) a second time, of another shape than the fast one's: a text is
//! read by putting its innermost brackets together until one thing is left, and
//! written by taking a list of things still to be said from its front.

use super::{audit, legal, model, perform, question_1};
use reference::call::{Call, Reply};
use reference::store::Store;

/// What a word opens out into.
#[derive(Clone, Debug, PartialEq, Eq)]
pub enum Tree {
    Nil,
    Atom(u16),
    Pair(Box<Tree>, Box<Tree>),
}

#[derive(Clone, Debug)]
enum Piece {
    Open,
    Close,
    Dot,
    Made(Tree),
}

/// The tree of a text, or none where it is outside the notation.
pub fn tree(text: &[u8]) -> Option<Tree> {
    if text.len() > 4096 || !text.iter().all(|byte| b"() .0123456789".contains(byte)) {
        return None;
    }
    // With spaces on both sides of all but digits, spaces are all that separates.
    let mut spaced = String::new();
    for &byte in text {
        match byte {
            b'(' | b')' | b'.' => spaced += &format!(" {} ", byte as char),
            _ => spaced.push(byte as char),
        }
    }
    let mut pieces: Vec<Piece> = Vec::new();
    for part in spaced.split(' ').filter(|part| !part.is_empty()) {
        pieces.push(match part {
            "(" => Piece::Open,
            ")" => Piece::Close,
            "." => Piece::Dot,
            digits => {
                let value = digits.trim_start_matches('0');
                let value = if value.is_empty() { "0" } else { value };
                if digits != value || value.len() > 5 {
                    return None;
                }
                let value: u32 = value.parse().unwrap();
                if value >= 32768 {
                    return None;
                }
                Piece::Made(Tree::Atom(value as u16))
            }
        });
    }
    while let Some(close) = pieces.iter().position(|p| matches!(p, Piece::Close)) {
        let open = pieces[..close]
            .iter()
            .rposition(|p| matches!(p, Piece::Open))?;
        let made = together(&pieces[open + 1..close])?;
        pieces.splice(open..=close, [Piece::Made(made)]);
    }
    match &pieces[..] {
        [Piece::Made(tree)] => Some(tree.clone()),
        _ => None,
    }
}

/// What stands between two brackets, none of it a bracket.
fn together(inside: &[Piece]) -> Option<Tree> {
    let (front, mut tree) = match inside {
        [front @ .., Piece::Dot, Piece::Made(last)] if !front.is_empty() => (front, last.clone()),
        _ => (inside, Tree::Nil),
    };
    for piece in front.iter().rev() {
        let Piece::Made(left) = piece else {
            return None;
        };
        tree = Tree::Pair(Box::new(left.clone()), Box::new(tree));
    }
    Some(tree)
}

/// The most brackets open together in a text of the notation.
pub fn depth(text: &[u8]) -> usize {
    (0..=text.len())
        .map(|end| {
            let before = |wanted: u8| text[..end].iter().filter(|&&b| b == wanted).count();
            before(b'(').saturating_sub(before(b')'))
        })
        .max()
        .unwrap()
}

/// The calls of cons that a tree needs, in order: `(a . b)` needs what a needs,
/// what b needs, and its own. That is A4's order too: of a list's pairs the last
/// is made first, after all that the elements need.
pub fn pairs(tree: &Tree) -> usize {
    match tree {
        Tree::Pair(left, right) => pairs(left) + pairs(right) + 1,
        _ => 0,
    }
}

fn build(store: &mut Store, tree: &Tree) -> u16 {
    match tree {
        Tree::Nil => 0,
        Tree::Atom(value) => 32768 + value,
        Tree::Pair(left, right) => {
            let x = build(store, left);
            let y = build(store, right);
            match perform(store, Call::Cons(x, y)) {
                Reply::Done(new) => new,
                other => panic!("cons {x} {y}: {other:?}"),
            }
        }
    }
}

/// Whether an atom anywhere in the tree, or the tree itself, is 4,095 or more.
fn has_clipped(tree: &Tree) -> bool {
    match tree {
        Tree::Nil => false,
        Tree::Atom(value) => *value > 4094,
        Tree::Pair(left, right) => has_clipped(left) || has_clipped(right),
    }
}

/// Questions 1, 11, 12 and 14 of reading.
pub fn first_of_read(store: &Store, text: &[u8]) -> Result<Tree, u8> {
    if !question_1(store) {
        return Err(1);
    }
    let tree = tree(text).ok_or(11)?;
    // Counted bracket by bracket only where it matters, as that is slow.
    let opened = text.iter().filter(|&&byte| byte == b'(').count();
    if opened > 32 && depth(text) > 32 {
        return Err(12);
    }
    if has_clipped(&tree) {
        return Err(14);
    }
    Ok(tree)
}

/// Questions 1 and 4 of writing.
pub fn first_of_write(store: &Store, word: u16) -> Result<(), u8> {
    if !question_1(store) {
        return Err(1);
    }
    if !legal(word, store.table[0]) {
        return Err(4);
    }
    Ok(())
}

/// Reads on a sound store.
pub fn read(store: &mut Store, text: &[u8]) -> Result<usize, u8> {
    let tree = first_of_read(store, text)?;
    let model = model(store);
    if pairs(&tree) + model.packets.len() > 64 {
        return Err(7);
    }
    if pairs(&tree) > model.cells.values().filter(|cell| cell.state == 0).count() {
        return Err(8);
    }
    Ok(build(store, &tree) as usize)
}

enum Thing {
    Word(u16),
    Rest(u16),
    Open,
    Byte(u8),
}

/// Writes on a sound store. Refused, the buffer stays as it is.
pub fn write(store: &Store, word: u16, buffer: &mut [u8]) -> Result<usize, u8> {
    first_of_write(store, word)?;
    let model = model(store);
    if model.held_counts().get(&word).is_some_and(|&held| held < 1) {
        return Err(6);
    }
    let mut said = Vec::new();
    let mut open = 0;
    // Still to be said, the next last.
    let mut things = vec![Thing::Word(word)];
    while let Some(thing) = things.pop() {
        match thing {
            Thing::Word(0) => things.extend([Thing::Byte(b')'), Thing::Open]),
            Thing::Word(atom @ 32768..) => {
                let digits = (atom - 32768).to_string();
                things.extend(digits.bytes().rev().map(Thing::Byte));
            }
            Thing::Word(x) => {
                let cell = model.cells[&x];
                things.extend([Thing::Rest(cell.right), Thing::Word(cell.left), Thing::Open]);
            }
            Thing::Rest(0) => things.push(Thing::Byte(b')')),
            Thing::Rest(atom @ 32768..) => {
                things.extend([Thing::Byte(b')'), Thing::Word(atom)]);
                things.extend(b" . ".map(Thing::Byte));
            }
            Thing::Rest(x) => {
                let cell = model.cells[&x];
                things.extend([Thing::Rest(cell.right), Thing::Word(cell.left)]);
                things.push(Thing::Byte(b' '));
            }
            Thing::Open => {
                if open == 32 {
                    return Err(12);
                }
                open += 1;
                things.push(Thing::Byte(b'('));
            }
            Thing::Byte(byte) => {
                if said.len() >= buffer.len() {
                    return Err(13);
                }
                if byte == b')' {
                    open -= 1;
                }
                said.push(byte);
            }
        }
    }
    for (place, byte) in buffer.iter_mut().zip(&said) {
        *place = *byte;
    }
    Ok(said.len())
}

/// The tree that a word opens out into, down to so many pairs on one way.
pub fn opened(store: &Store, word: u16, depth: usize) -> Option<Tree> {
    Some(match word {
        0 => Tree::Nil,
        32768.. => Tree::Atom(word - 32768),
        _ if depth == 0 => return None,
        _ => {
            let base = 3 + 6 * (word as usize - 1);
            let left = opened(store, store.table[base], depth - 1)?;
            let right = opened(store, store.table[base + 1], depth - 1)?;
            Tree::Pair(Box::new(left), Box::new(right))
        }
    })
}

/// Whether the papers leave open what a call gives whose first questions give
/// this.
pub fn is_undecided<T>(store: &Store, first: Result<T, u8>) -> bool {
    first.is_ok() && audit(store).is_some()
}
