//! Rule text in and out (request A4): reading builds cells by cons, writing
//! fills the front part of a lent buffer. Written for plainness.

use crate::notation::{self, Element, MAX_OPEN};
use crate::question::{self, Refusal};
use crate::queue::Queue;
use crate::row;
use crate::table::*;

/// Builds what the text says and replies with the word, which is held once more
/// where it is a cell.
pub fn read(table: &mut [u16], queue: &mut Queue, text: &[u8]) -> Result<u16, Refusal> {
    let element = before_read(table, queue, text)?;
    let pairs = element.pairs();
    if pairs > empty_slots(queue) {
        return Err(Refusal::QueueFull);
    }
    if pairs > free_cells(table) {
        return Err(Refusal::NoFreeCell);
    }
    // On a sound store no cons is refused from here on. On another one might be,
    // and then nothing lent may have changed; so the conses are made on copies.
    let mut new_table = table.to_vec();
    let mut new_queue = queue.clone();
    let word = build(&mut new_table, &mut new_queue, &element)?;
    table.copy_from_slice(&new_table);
    *queue = new_queue;
    Ok(word)
}

/// Questions 1, 11, 12 and 14 of reading, which go by the text and are answered
/// as written on any store. Gives what the text says.
pub fn before_read(table: &[u16], queue: &Queue, text: &[u8]) -> Result<Element, Refusal> {
    question::store(table, queue)?;
    let element = notation::parse(text).ok_or(Refusal::Outside)?;
    if notation::deepest(text) > MAX_OPEN {
        return Err(Refusal::Deep);
    }
    may_be_stored(&element)?;
    Ok(element)
}

/// Question 14 (A5) of every atom, also of one that is the whole text.
fn may_be_stored(element: &Element) -> Result<(), Refusal> {
    match element {
        Element::Nil => Ok(()),
        Element::Atom(value) => question::may_be_stored(FIRST_ATOM + value),
        Element::List(elements, last) => {
            let mut all = elements.iter().chain(last.as_deref());
            all.try_for_each(may_be_stored)
        }
    }
}

fn empty_slots(queue: &Queue) -> usize {
    Queue::SLOTS - queue.count as usize
}

fn free_cells(table: &[u16]) -> usize {
    let cells = 1..=table[CELLS];
    cells.filter(|&x| table[at(x) + STATE] == FREE).count()
}

/// First what the elements need, left to right, the part after a dot being the
/// last of them; then the list's own pairs, last to first.
fn build(table: &mut [u16], queue: &mut Queue, element: &Element) -> Result<u16, Refusal> {
    match element {
        Element::Nil => Ok(NIL),
        Element::Atom(value) => Ok(FIRST_ATOM + value),
        Element::List(elements, last) => {
            let mut words = Vec::new();
            for element in elements {
                words.push(build(table, queue, element)?);
            }
            let mut rest = match last {
                Some(last) => build(table, queue, last)?,
                None => NIL,
            };
            for &word in words.iter().rev() {
                rest = row::cons(table, queue, word, rest)?;
            }
            Ok(rest)
        }
    }
}

/// Writes the text of a held word into the front part of the buffer and gives
/// that part's length. Refused, it leaves the whole buffer as it is.
pub fn write(table: &[u16], queue: &Queue, word: u16, buffer: &mut [u8]) -> Result<usize, Refusal> {
    let cells = before_write(table, queue, word)?;
    if is_cell(word, cells) {
        question::held(table, queue, word, 1)?;
    }
    let mut text = Text {
        bytes: Vec::new(),
        room: buffer.len(),
        open: 0,
    };
    text.element(table, word)?;
    let length = text.bytes.len();
    buffer[..length].copy_from_slice(&text.bytes);
    Ok(length)
}

/// Questions 1 and 4 of writing, which stores nothing and isn't asked 14. Gives C.
pub fn before_write(table: &[u16], queue: &Queue, word: u16) -> Result<u16, Refusal> {
    question::legal_words(table, queue, &[word])
}

/// The text so far, from left to right, with the first refusal that is met.
struct Text {
    bytes: Vec<u8>,
    room: usize,
    open: usize,
}

impl Text {
    fn byte(&mut self, byte: u8) -> Result<(), Refusal> {
        if self.bytes.len() == self.room {
            return Err(Refusal::Buffer);
        }
        self.bytes.push(byte);
        Ok(())
    }

    /// Where a bracket is both too deep and without room, it is too deep.
    fn open(&mut self) -> Result<(), Refusal> {
        if self.open == MAX_OPEN {
            return Err(Refusal::Deep);
        }
        self.byte(b'(')?;
        self.open += 1;
        Ok(())
    }

    fn close(&mut self) -> Result<(), Refusal> {
        self.byte(b')')?;
        self.open -= 1;
        Ok(())
    }

    fn element(&mut self, table: &[u16], word: u16) -> Result<(), Refusal> {
        if word == NIL {
            self.open()?;
            self.close()
        } else if is_cell(word, table[CELLS]) {
            self.open()?;
            self.pairs(table, word)?;
            self.close()
        } else {
            self.atom(word)
        }
    }

    /// What stands between the brackets of the list that begins with the pair
    /// `x`. Each pair takes a byte at least, so a ring of pairs ends at the
    /// buffer's end or at the 33rd bracket.
    fn pairs(&mut self, table: &[u16], mut x: u16) -> Result<(), Refusal> {
        loop {
            self.element(table, table[at(x) + LEFT])?;
            let rest = table[at(x) + RIGHT];
            if rest == NIL {
                return Ok(());
            }
            self.byte(b' ')?;
            if !is_cell(rest, table[CELLS]) {
                self.byte(b'.')?;
                self.byte(b' ')?;
                return self.atom(rest);
            }
            x = rest;
        }
    }

    /// The value in base ten. On a damaged store the word may be no atom; its
    /// text is then any.
    fn atom(&mut self, word: u16) -> Result<(), Refusal> {
        let value = word.wrapping_sub(FIRST_ATOM);
        for digit in value.to_string().bytes() {
            self.byte(digit)?;
        }
        Ok(())
    }
}
