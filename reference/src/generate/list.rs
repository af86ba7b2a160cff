//! Writes lists in the format of `reference states`.

use std::io::{self, Write};

use super::atoms::FIRST_CLIPPED;
use crate::call::Call;
use crate::format::{write_call, write_store, write_text_call};
use crate::store::Store;
use crate::table::at;
use crate::text_call::TextCall;

pub struct List<'a> {
    pub output: &'a mut dyn Write,
}

impl List<'_> {
    pub fn title(&mut self, text: &str) -> io::Result<()> {
        writeln!(self.output, "# {text}")
    }

    pub fn store(&mut self, store: &Store) -> io::Result<()> {
        write_store(&mut self.output, store)
    }

    /// A call after which the whole store is written.
    pub fn call(&mut self, call: Call) -> io::Result<()> {
        write_call(&mut self.output, call, false)
    }

    /// A call after which a checksum is written.
    pub fn brief(&mut self, call: Call) -> io::Result<()> {
        write_call(&mut self.output, call, true)
    }

    /// A text call, brief or not.
    pub fn text(&mut self, call: &TextCall, brief: bool) -> io::Result<()> {
        write_text_call(&mut self.output, call, brief)
    }

    /// Audits a store and tries the questions that are answered on any store
    /// and a read of nil, then a step, which is decided on sound stores only.
    pub fn case(&mut self, title: &str, store: &Store) -> io::Result<()> {
        self.title(title)?;
        self.store(store)?;
        self.call(Call::Audit)?;
        self.brief(Call::Up(1, 0))?;
        self.brief(Call::Cons(0, 32_767))?;
        self.brief(Call::Car(32_768))?;
        self.brief(Call::Cons(FIRST_CLIPPED, 0))?;
        self.brief(Call::ReplaceRight(1, FIRST_CLIPPED))?;
        self.brief(Call::Cdr(0))?;
        self.call(Call::Step)?;
        self.call(Call::Audit)
    }
}

/// Index of a word of a cell in the table.
pub fn word(x: u16, part: usize) -> usize {
    at(x) + part
}
