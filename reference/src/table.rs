//! Words and the layout of the cell table.

/// The largest number of cells a table may have.
pub const MAX_CELLS: u16 = 4_096;
/// The largest held count, pointer count or operand n.
pub const MAX_COUNT: u16 = 4_095;

pub const NIL: u16 = 0;
pub const FIRST_ATOM: u16 = 32_768;
/// The value at which the converter clips a reading (A5).
pub const CLIP: u16 = 4_095;

// The header words.
pub const CELLS: usize = 0;
pub const FIRST_FREE: usize = 1;
pub const LAST_FREE: usize = 2;
pub const HEADER_WORDS: usize = 3;

// The words of a cell, relative to `at`.
pub const LEFT: usize = 0;
pub const RIGHT: usize = 1;
pub const ROOT_COUNT: usize = 2;
pub const CELL_COUNT: usize = 3;
pub const STATE: usize = 4;
/// How many times waiting packets name the cell (A6).
pub const NAMED: usize = 5;
pub const CELL_WORDS: usize = 6;

pub const FREE: u16 = 0;
pub const IN_USE: u16 = 1;

/// How many words a table of this many cells needs.
pub const fn length(cells: u16) -> usize {
    HEADER_WORDS + CELL_WORDS * cells as usize
}

/// Index of the first word of cell `x`, which must not be nil.
#[inline]
pub const fn at(x: u16) -> usize {
    HEADER_WORDS + CELL_WORDS * (x as usize - 1)
}

/// The cells of a table that is long enough for them, cell 1 first.
#[inline]
pub fn cells_of(table: &[u16], cells: u16) -> &[[u16; CELL_WORDS]] {
    table[HEADER_WORDS..length(cells)].as_chunks().0
}

#[inline]
pub const fn is_cell(word: u16, cells: u16) -> bool {
    word != NIL && word <= cells
}

/// Nil, a cell of this store, or an atom.
#[inline]
pub const fn is_legal(word: u16, cells: u16) -> bool {
    word <= cells || word >= FIRST_ATOM
}

/// An atom of value 4,095 or more, which may not be stored (A5).
#[inline]
pub const fn is_clipped(word: u16) -> bool {
    word >= FIRST_ATOM + CLIP
}

#[inline]
pub fn is_cell_in_use(table: &[u16], word: u16, cells: u16) -> bool {
    is_cell(word, cells) && table[at(word) + STATE] == IN_USE
}
