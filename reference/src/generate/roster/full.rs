//! Rosters with many seats, up to all 600.

use std::io;

use super::{any_reading, Calls};
use crate::generate::rng::Rng;

/// So many of these stores, those last that take longest.
pub fn full(rng: &mut Rng, calls: &mut Calls, cases: usize) -> io::Result<()> {
    for case in 0..cases.min(5) {
        match case {
            0 => one_cell_over(rng, calls, 401)?,
            1 => more_than_enough(rng, calls, 60)?,
            2 => just_enough(rng, calls)?,
            3 => one_cell_over(rng, calls, 1_199)?,
            _ => more_than_enough(rng, calls, 600)?,
        }
    }
    Ok(())
}

/// As many seats as find room in an odd number of cells, in ascending order; for the
/// next one there is one cell only. Then all are removed, in no order.
fn one_cell_over(rng: &mut Rng, calls: &mut Calls, cells: u16) -> io::Result<()> {
    let last = cells / 2;
    let new = last + 1;
    calls.empty_roster(&format!("{last} seats, {cells} cells"), cells)?;
    for seat in 1..=last {
        calls.set(seat, seat * 6)?;
    }
    calls.set(new, 5)?;
    calls.set(new, 4_095)?;
    calls.set(new, 32_768)?;
    calls.set(601, 5)?;
    calls.look_up(new)?;
    calls.remove(new)?;
    let some = [1, last / 2, last];
    for seat in some {
        calls.set(seat, 4_094)?;
        calls.look_up(seat)?;
    }
    for threshold in [0, 6, 7, 12, last * 6 - 6, last * 6 - 5, 4_094, 4_095] {
        calls.count(threshold)?;
    }
    for seat in some {
        calls.remove(seat)?;
        calls.set(new, seat)?;
        calls.set(seat, 1)?;
        calls.look_up(new)?;
        calls.remove(new)?;
        calls.set(seat, seat)?;
    }
    calls.count(0)?;
    calls.look_up_all([1, 2, last / 2 - 1, last / 2, last - 1, last, new])?;
    let mut seats: Vec<u16> = (1..=last).collect();
    while !seats.is_empty() {
        let seat = seats.swap_remove(rng.below(seats.len()));
        if seat.is_multiple_of(8) {
            calls.look_up(seat)?;
        }
        calls.remove(seat)?;
        if seats.len().is_multiple_of(50) {
            calls.look_up(seat)?;
            calls.count(0)?;
        }
    }
    calls.set(new, 0)
}

/// 600 seats in 1,200 cells, in descending order; some set anew, some removed and put
/// back with no cell over.
fn just_enough(rng: &mut Rng, calls: &mut Calls) -> io::Result<()> {
    calls.empty_roster("600 seats, 1200 cells", 1_200)?;
    for seat in (1..=600).rev() {
        // The reading of a seat is another seat's number.
        calls.set(seat, 601 - seat)?;
        if seat % 75 == 0 {
            calls.count(300)?;
            calls.look_up(seat)?;
        }
    }
    calls.set(601, 1)?;
    for threshold in [0, 1, 2, 300, 600, 601, 4_094, 65_535] {
        calls.count(threshold)?;
    }
    calls.look_up_all([1, 2, 299, 300, 301, 599, 600, 601])?;
    for _ in 0..12 {
        let seat = rng.within(1, 600);
        calls.set(seat, any_reading(rng))?;
        calls.look_up(seat)?;
    }
    for _ in 0..10 {
        let (one, other) = (rng.within(1, 600), rng.within(1, 600));
        for seat in [one, other] {
            calls.remove(seat)?;
        }
        for seat in [other, one] {
            calls.look_up(seat)?;
            calls.set(seat, any_reading(rng))?;
        }
    }
    calls.count(0)?;
    calls.fresh(1_200)?;
    calls.look_up(600)?;
    calls.count(0)
}

/// So many seats in 4,096 cells, in scattered order; what isn't taken stays free.
fn more_than_enough(rng: &mut Rng, calls: &mut Calls, seats: u32) -> io::Result<()> {
    calls.empty_roster(&format!("{seats} seats, 4096 cells"), 4_096)?;
    // 601 is a prime, so that no seat comes twice.
    let seat = |i: u32| (i * 233 % 601) as u16;
    for i in 1..=seats {
        calls.set(seat(i), any_reading(rng))?;
    }
    for threshold in [0, 1, 2_047, 4_094, 4_095] {
        calls.count(threshold)?;
    }
    for i in [1, 2, seats / 2, seats] {
        calls.look_up(seat(i))?;
        calls.set(seat(i), 0)?;
        calls.remove(seat(i))?;
        calls.look_up(seat(i))?;
        calls.set(seat(i), 4_094)?;
    }
    calls.count(4_094)
}
