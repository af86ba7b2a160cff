//! The notation of rule text (request A4): what a text says, told without a
//! store. Written for plainness; a text is at most 4,096 bytes long.

/// The longest text, in bytes.
pub const MAX_TEXT: usize = 4_096;
/// The most brackets that may be open together.
pub const MAX_OPEN: usize = 32;
/// The largest value of an atom.
pub const MAX_VALUE: u16 = 32_767;

#[derive(Clone, Debug, PartialEq, Eq)]
pub enum Element {
    /// `()`.
    Nil,
    /// An atom's value.
    Atom(u16),
    /// `(a b)` or `(a b . c)`: at least one element, and the part after the dot,
    /// if there is a dot.
    List(Vec<Element>, Option<Box<Element>>),
}

#[derive(Clone, Copy, Debug, PartialEq, Eq)]
enum Token {
    Open,
    Close,
    Dot,
    Atom(u16),
}

/// A list whose bracket is still open.
#[derive(Default)]
struct OpenList {
    elements: Vec<Element>,
    dotted: bool,
    last: Option<Element>,
}

/// What a text says, or none where it is outside the notation. How many brackets
/// are open doesn't matter here: refusal 12 comes after 11.
pub fn parse(text: &[u8]) -> Option<Element> {
    if text.len() > MAX_TEXT {
        return None;
    }
    let mut open: Vec<OpenList> = Vec::new();
    let mut whole: Option<Element> = None;
    for token in tokens(text)? {
        let element = match token {
            Token::Open => {
                open.push(OpenList::default());
                continue;
            }
            Token::Dot => {
                open.last_mut()?.dot()?;
                continue;
            }
            Token::Close => open.pop()?.close()?,
            Token::Atom(value) => Element::Atom(value),
        };
        match open.last_mut() {
            Some(list) => list.add(element)?,
            None if whole.is_none() => whole = Some(element),
            // A second element outside all brackets.
            None => return None,
        }
    }
    if open.is_empty() {
        whole
    } else {
        None
    }
}

/// The brackets, dots and atoms of a text, or none where it has other bytes than
/// these and spaces or an atom that is outside the notation.
fn tokens(text: &[u8]) -> Option<Vec<Token>> {
    let mut tokens = Vec::new();
    let mut i = 0;
    while i < text.len() {
        match text[i] {
            b' ' => {}
            b'(' => tokens.push(Token::Open),
            b')' => tokens.push(Token::Close),
            b'.' => tokens.push(Token::Dot),
            b'0'..=b'9' => {
                let start = i;
                while i < text.len() && text[i].is_ascii_digit() {
                    i += 1;
                }
                tokens.push(Token::Atom(value(&text[start..i])?));
                continue;
            }
            _ => return None,
        }
        i += 1;
    }
    Some(tokens)
}

/// The value of an atom's digits, all that stand together.
fn value(digits: &[u8]) -> Option<u16> {
    if digits.len() > 1 && digits[0] == b'0' {
        return None;
    }
    let mut value: u32 = 0;
    for digit in digits {
        value = 10 * value + u32::from(digit - b'0');
        if value > u32::from(MAX_VALUE) {
            return None;
        }
    }
    Some(value as u16)
}

impl OpenList {
    /// None where a part after the dot stands there already.
    fn add(&mut self, element: Element) -> Option<()> {
        if !self.dotted {
            self.elements.push(element);
        } else if self.last.is_none() {
            self.last = Some(element);
        } else {
            return None;
        }
        Some(())
    }

    /// None where no element stands before the dot or where it isn't the first.
    fn dot(&mut self) -> Option<()> {
        if self.elements.is_empty() || self.dotted {
            return None;
        }
        self.dotted = true;
        Some(())
    }

    /// None where nothing stands after the dot.
    fn close(self) -> Option<Element> {
        if self.dotted && self.last.is_none() {
            return None;
        }
        if self.elements.is_empty() {
            return Some(Element::Nil);
        }
        Some(Element::List(self.elements, self.last.map(Box::new)))
    }
}

/// How many brackets of a text are open together at most.
pub fn deepest(text: &[u8]) -> usize {
    let (mut open, mut deepest) = (0, 0);
    for &byte in text {
        match byte {
            b'(' => open += 1,
            b')' => open -= 1,
            _ => {}
        }
        deepest = deepest.max(open);
    }
    deepest
}

impl Element {
    /// How many pairs there are in it, each of which takes a cell and a slot.
    pub fn pairs(&self) -> usize {
        match self {
            Element::Nil | Element::Atom(_) => 0,
            Element::List(elements, last) => {
                let own = elements.len();
                let in_elements: usize = elements.iter().map(Element::pairs).sum();
                let in_last = last.as_ref().map_or(0, |last| last.pairs());
                own + in_elements + in_last
            }
        }
    }
}
