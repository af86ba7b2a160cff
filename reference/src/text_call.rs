//! The two text calls as values (request A4), beside the ten of `call`.

use crate::question::Refusal;
use crate::rule_text;
use crate::store::Store;

#[derive(Clone, Debug, PartialEq, Eq)]
pub enum TextCall {
    Read(Vec<u8>),
    /// Into a buffer of `length` bytes, each of which is `fill` before.
    Write {
        word: u16,
        length: usize,
        fill: u8,
    },
}

/// What a text call gives beside the store.
#[derive(Clone, Debug, PartialEq, Eq)]
pub struct TextReply {
    /// The word read, or the length of the text written.
    pub value: Result<usize, Refusal>,
    /// The whole buffer after a writing, accepted or not.
    pub buffer: Option<Vec<u8>>,
}

impl TextCall {
    pub const READ: u16 = 10;
    pub const WRITE: u16 = 11;

    pub fn code(&self) -> u16 {
        match self {
            TextCall::Read(_) => TextCall::READ,
            TextCall::Write { .. } => TextCall::WRITE,
        }
    }

    /// Makes the call. On a store that fails the audit it may give anything past
    /// its first questions.
    pub fn perform(&self, store: &mut Store) -> TextReply {
        let Store { table, queue, .. } = store;
        match self {
            TextCall::Read(text) => TextReply {
                value: rule_text::read(table, queue, text).map(usize::from),
                buffer: None,
            },
            &TextCall::Write { word, length, fill } => {
                let mut buffer = vec![fill; length];
                TextReply {
                    value: rule_text::write(table, queue, word, &mut buffer),
                    buffer: Some(buffer),
                }
            }
        }
    }

    /// The questions that are answered as written on any store, without making
    /// the call: 1, 11, 12 and 14 of reading, 1 and 4 of writing.
    pub fn first_questions(&self, store: &Store) -> Result<(), Refusal> {
        let Store { table, queue, .. } = store;
        match self {
            TextCall::Read(text) => rule_text::before_read(table, queue, text).map(|_| ()),
            &TextCall::Write { word, .. } => {
                rule_text::before_write(table, queue, word).map(|_| ())
            }
        }
    }
}
