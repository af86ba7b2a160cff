//! Sizes of store, and orders of setting and removing.

use std::io;

use super::{any_reading, Calls};
use crate::generate::rng::Rng;
use crate::roster::Call;

/// Stores from one cell on, filled until question 8 fails, then each seat set anew
/// with no cell left, looked up, one taken out and another put in, and emptied.
pub fn sizes(rng: &mut Rng, calls: &mut Calls) -> io::Result<()> {
    let sizes = (1..=11).chain([16, 17, 32, 33, 63, 64, 65, 128, 129]);
    for cells in sizes {
        calls.empty_roster(&format!("filled, {cells} cells"), cells)?;
        let room = cells / 2;
        let first = rng.within(1, 600 - room - 2);
        let seats: Vec<u16> = (first..first + room).collect();
        let new = first + room;
        for &seat in &seats {
            calls.set(seat, any_reading(rng))?;
        }
        calls.set(new, any_reading(rng))?;
        calls.set(new + 1, any_reading(rng))?;
        calls.count(0)?;
        // In larger stores the seats at both ends and in the middle do.
        let some: Vec<u16> = match room {
            0..=5 => seats.clone(),
            _ => vec![first, first + room / 2, new - 1],
        };
        for &seat in &some {
            calls.set(seat, any_reading(rng))?;
            calls.look_up(seat)?;
        }
        calls.look_up(new)?;
        for &seat in &some {
            calls.remove(seat)?;
            calls.set(new, any_reading(rng))?;
            calls.set(seat, any_reading(rng))?;
            calls.remove(new)?;
            calls.remove(new)?;
            calls.set(seat, any_reading(rng))?;
        }
        calls.count(2_048)?;
        if room <= 9 {
            for &seat in seats.iter().rev() {
                calls.remove(seat)?;
            }
            calls.look_up(first)?;
            calls.set(new, any_reading(rng))?;
        }
    }
    Ok(())
}

/// The orders of three things.
const ORDERS: [[usize; 3]; 6] = [
    [0, 1, 2],
    [0, 2, 1],
    [1, 0, 2],
    [1, 2, 0],
    [2, 0, 1],
    [2, 1, 0],
];

/// Three seats set in every order and removed in every order, in one store, with the
/// others looked up after each removal.
pub fn orders(calls: &mut Calls) -> io::Result<()> {
    let seats = [1, 2, 600];
    for (i, set) in ORDERS.into_iter().enumerate() {
        calls.empty_roster(&format!("set in the order {set:?}"), 6 + i as u16 % 3)?;
        for removed in ORDERS {
            for place in set {
                calls.set(seats[place], 10 + place as u16)?;
            }
            // Seat 3 is new: it finds room in some of the stores only.
            calls.set(3, 4_094)?;
            calls.remove(3)?;
            for (n, place) in removed.into_iter().enumerate() {
                calls.remove(seats[place])?;
                for &left in &removed[n + 1..] {
                    calls.look_up(seats[left])?;
                }
            }
            calls.count(0)?;
        }
    }
    Ok(())
}

/// Every call of a few after every two others of them, whatever the roster is then.
pub fn turns(calls: &mut Calls) -> io::Result<()> {
    for (cells, seats, with_look_up) in [(4, 3, true), (2, 2, true), (5, 3, false)] {
        calls.empty_roster(&format!("all turns of {seats} seats, {cells} cells"), cells)?;
        let mut letters = Vec::new();
        for seat in 1..=seats {
            letters.push(Call::Set { seat, reading: 0 });
            letters.push(Call::Remove(seat));
            if with_look_up {
                letters.push(Call::LookUp(seat));
            }
        }
        let mut next = 0;
        for letter in all_turns(letters.len(), 3) {
            let mut call = letters[letter];
            // Each set has another reading.
            if let Call::Set { reading, .. } = &mut call {
                *reading = next % 4_095;
                next += 1;
            }
            calls.call(call)?;
        }
        calls.count(0)?;
        calls.look_up_all(1..=seats)?;
    }
    Ok(())
}

/// A run of letters 0 to `letters` - 1 in which every word of `length` of them
/// stands: from `length` first letters on, always the highest letter that makes a
/// word which didn't stand yet.
fn all_turns(letters: usize, length: usize) -> Vec<usize> {
    let words = letters.pow(length as u32);
    let mut stood = vec![false; words];
    let mut run = vec![0; length - 1];
    // The number of the last letters, one fewer than a word has.
    let mut last = 0;
    while let Some(letter) = (0..letters)
        .rev()
        .find(|letter| !stood[last * letters + letter])
    {
        stood[last * letters + letter] = true;
        run.push(letter);
        last = (last * letters + letter) % (words / letters);
    }
    run
}
