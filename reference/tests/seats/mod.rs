//! The seat roster (A7) twice more: from the history of its calls, and in cells.

pub mod cells;
pub mod history;

/// The words that runs stand for, the length and the number of runs before them.
fn words(numbers: &[u16]) -> Vec<u16> {
    let mut words = Vec::new();
    for run in numbers[2..].chunks(2) {
        for _ in 0..run[0] {
            words.push(run[1]);
        }
    }
    assert_eq!(words.len(), numbers[0].into());
    assert_eq!(numbers.len(), 2 + 2 * usize::from(numbers[1]));
    words
}

/// The line S of a scratch.
fn scratch_line(scratch: &[u16]) -> String {
    let mut runs: Vec<(usize, u16)> = Vec::new();
    for &word in scratch {
        match runs.last_mut() {
            Some((count, last)) if *last == word => *count += 1,
            _ => runs.push((1, word)),
        }
    }
    let mut line = format!("S {} {}", scratch.len(), runs.len());
    for (count, word) in runs {
        line += &format!(" {count} {word}");
    }
    line
}
