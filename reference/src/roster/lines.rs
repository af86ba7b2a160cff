//! The lines of a roster list; FORMAT.md describes them.

use std::io;

use super::Call;
use crate::format::Reader;
use crate::queue::Queue;

/// The longest table and the longest scratch that a list may have.
pub const MOST_TABLE: usize = 24_590;
pub const MOST_SCRATCH: usize = 4_100;

pub enum Line {
    Title,
    Table(Vec<u16>),
    Queue(Box<Queue>),
    Scratch(Vec<u16>),
    Word {
        index: usize,
        word: u16,
    },
    /// The roster's word.
    RosterWord(u16),
    Call {
        call: Call,
        /// Whether the line says that the papers decide the call.
        decided: bool,
    },
}

/// The next line, or none at the end.
pub fn next(reader: &mut Reader) -> io::Result<Option<Line>> {
    let Some(letter) = reader.start() else {
        return Ok(None);
    };
    Ok(Some(match letter {
        b'#' => {
            reader.skip_line();
            Line::Title
        }
        b'T' => Line::Table(reader.runs(MOST_TABLE)?),
        b'Q' => Line::Queue(Box::new(reader.queue()?)),
        b'S' => Line::Scratch(reader.runs(MOST_SCRATCH)?),
        b'W' => Line::Word {
            index: reader.word()?.into(),
            word: reader.word()?,
        },
        b'V' => Line::RosterWord(reader.word()?),
        b'R' => call(reader, true)?,
        b'U' => call(reader, false)?,
        _ => return Err(reader.error("no such letter")),
    }))
}

fn call(reader: &mut Reader, decided: bool) -> io::Result<Line> {
    let (code, p, q) = (reader.word()?, reader.word()?, reader.word()?);
    let call = Call::decode(code, p, q).ok_or_else(|| reader.error("no such call"))?;
    Ok(Line::Call { call, decided })
}
