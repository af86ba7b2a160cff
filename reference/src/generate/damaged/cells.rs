//! Stores that break rule S1, or nearly do.

use std::io;

use super::{crowded, edited, sample};
use crate::generate::list::{word, List};
use crate::table::*;

pub fn s1(list: &mut List) -> io::Result<()> {
    let sample = sample();
    list.case("S1: nothing changed", &sample)?;
    let free_right = "S1: right of a free cell is 32767, which S1 leaves alone";
    let cases: &[(&str, usize, u16)] = &[
        ("S1: state 2 in a cell in use", word(5, STATE), 2),
        ("S1: state 2 in a free cell", word(7, STATE), 2),
        ("S1: state 65535 in the last cell", word(8, STATE), 65_535),
        ("S1: state 256 in the first cell", word(1, STATE), 256),
        ("S1: root count 4095", word(5, ROOT_COUNT), 4_095),
        ("S1: root count 4096", word(5, ROOT_COUNT), 4_096),
        ("S1: root count 65535", word(1, ROOT_COUNT), 65_535),
        ("S1: cell count 4095", word(5, CELL_COUNT), 4_095),
        ("S1: cell count 4096", word(5, CELL_COUNT), 4_096),
        (
            "S1: root count 4095 in a free cell",
            word(8, ROOT_COUNT),
            4_095,
        ),
        (
            "S1: root count 4096 in a free cell",
            word(8, ROOT_COUNT),
            4_096,
        ),
        (
            "S1: cell count 4095 in a free cell",
            word(3, CELL_COUNT),
            4_095,
        ),
        (
            "S1: cell count 4096 in a free cell",
            word(3, CELL_COUNT),
            4_096,
        ),
        ("S1: left of the first cell is C + 1", word(1, LEFT), 9),
        (
            "S1: right of the first cell is 32767",
            word(1, RIGHT),
            32_767,
        ),
        ("S1: right of a cell is 4097", word(5, RIGHT), 4_097),
        ("S1: left of a cell is atom 0", word(5, LEFT), 32_768),
        ("S1: left of a cell is the last atom", word(5, LEFT), 65_535),
        ("S1: left of a cell is atom 4094", word(5, LEFT), 36_862),
        ("S1: left of a cell is atom 4095", word(5, LEFT), 36_863),
        ("S1: right of a cell is atom 4096", word(1, RIGHT), 36_864),
        ("S1: left of a cell is nil", word(1, LEFT), 0),
        ("S1: left of a cell is a free cell", word(5, LEFT), 7),
        (
            "S1: right of a cell is the last free cell",
            word(6, RIGHT),
            4,
        ),
        ("S1: right of a cell is a cell in use", word(1, RIGHT), 6),
        (free_right, word(7, RIGHT), 32_767),
        ("S1: a cell in use is marked free", word(2, STATE), 0),
        ("S1: a free cell is marked in use", word(8, STATE), 1),
        ("S1: the last free cell is marked in use", word(4, STATE), 1),
    ];
    for &(title, index, value) in cases {
        list.case(title, &edited(&sample, &[(index, value)]))?;
    }
    let last = edited(&crowded(), &[(word(2, RIGHT), 3)]);
    list.case("S1: right of the last cell is C + 1", &last)?;
    let both = edited(&sample, &[(word(6, RIGHT), 32_767), (FIRST_FREE, 0)]);
    list.case("S1: broken together with S2", &both)
}
