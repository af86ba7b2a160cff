//! Seats, readings and thresholds at their borders.

use std::io;

use super::Calls;
use crate::generate::rng::Rng;

/// Around 1 and 600, and where a seat of which some bits are dropped, or that is taken
/// for a word, would be another.
const SEATS: [u16; 24] = [
    0, 1, 2, 3, 88, 255, 256, 257, 299, 300, 301, 344, 513, 598, 599, 600, 601, 602, 1_200, 4_095,
    32_767, 32_768, 33_368, 65_535,
];

/// Around 0, the clipped readings, and the words that are no value of an atom; also
/// the words of the atoms that the readings are stored as.
const READINGS: [u16; 24] = [
    0, 1, 2, 599, 600, 601, 2_047, 2_048, 4_093, 4_094, 4_095, 4_096, 4_097, 8_192, 32_766, 32_767,
    32_768, 32_769, 36_862, 36_863, 40_959, 61_440, 65_534, 65_535,
];

/// Every border seat in each call, on rosters with none, one, some and all of the
/// seats that are.
pub fn seats(calls: &mut Calls) -> io::Result<()> {
    for present in [
        &[][..],
        &[1],
        &[600],
        &[1, 600],
        &[300, 599, 2, 256],
        &[1, 2, 3, 88, 256, 257, 300, 344, 513, 598, 599, 600],
    ] {
        let title = format!("border seats with {} present", present.len());
        calls.empty_roster(&title, 30)?;
        for &seat in present {
            // The reading of a seat is another seat's number.
            calls.set(seat, 601 - seat)?;
        }
        for seat in SEATS {
            calls.look_up(seat)?;
        }
        for seat in SEATS {
            calls.remove(seat)?;
            calls.look_up(seat)?;
            calls.set(seat, 5)?;
        }
        calls.count(0)?;
    }
    Ok(())
}

/// Every border reading for a seat that is new and for one that is there, and what
/// is looked up after it.
pub fn readings(calls: &mut Calls) -> io::Result<()> {
    for cells in [3, 7] {
        calls.empty_roster(&format!("border readings, {cells} cells"), cells)?;
        for reading in READINGS {
            calls.set(1, reading)?;
            calls.look_up(1)?;
            calls.count(reading)?;
            // A second seat has cells in the second store only.
            calls.set(600, reading)?;
            calls.look_up(600)?;
            calls.remove(1)?;
        }
        for reading in READINGS {
            calls.set(1, reading)?;
        }
        calls.look_up(1)?;
    }
    Ok(())
}

/// Counts at every border, on rosters of known readings, at each reading, one above
/// it and one below.
pub fn thresholds(rng: &mut Rng, calls: &mut Calls) -> io::Result<()> {
    let mut rows: Vec<Vec<(u16, u16)>> = vec![
        vec![],
        vec![(1, 0)],
        vec![(600, 4_094)],
        vec![(9, 0), (8, 4_094)],
        vec![(4, 100), (3, 100), (2, 100), (1, 99), (5, 101)],
    ];
    // As many readings as seats, all different, in no order.
    rows.push((0..20).map(|i| (600 - i, (i * 7 % 20) * 200 + 3)).collect());
    for row in rows {
        let cells = 2 * row.len() as u16 + 1;
        calls.empty_roster(&format!("thresholds with {} seats", row.len()), cells)?;
        for &(seat, reading) in &row {
            calls.set(seat, reading)?;
        }
        for threshold in READINGS {
            calls.count(threshold)?;
        }
        for &(_, reading) in row.iter().take(6) {
            for threshold in [reading.saturating_sub(1), reading, reading + 1] {
                calls.count(threshold)?;
            }
            // The atom that the reading is stored as.
            calls.count(32_768 + reading)?;
        }
        for _ in 0..6 {
            calls.count(rng.within(0, 4_094))?;
            calls.count(rng.word())?;
        }
        // A seat that is set anew counts once, by its new reading.
        if let Some(&(seat, reading)) = row.first() {
            calls.set(seat, 4_094 - reading)?;
            calls.count(0)?;
            calls.count(reading.min(4_094 - reading) + 1)?;
            calls.remove(seat)?;
            calls.count(0)?;
        }
    }
    Ok(())
}
