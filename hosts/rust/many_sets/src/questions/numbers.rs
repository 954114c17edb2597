//! Numbers of questions.

use crate::faults;
use small_sets::{Line, Random};

/// The number in some columns; 1 where there is none.
pub fn number(line: &Line, first: usize, last: usize) -> u64 {
    faults::number(line, (first, last)).map_or(1, u64::from)
}

/// One of the numbers from `first` on to `last`.
pub fn among(random: &mut Random, first: u64, last: u64) -> u64 {
    first + random.below(last.saturating_sub(first) as usize + 1) as u64
}

/// Another number: the next ones, those that have its low bits, and the ends of
/// ranges.
pub fn other(random: &mut Random, number: u64) -> u64 {
    const ENDS: [u64; 10] = [0, 1, 9, 10, 255, 9_999, 10_000, 1 << 16, 1 << 32, u64::MAX];
    match random.below(5) {
        0 => number.saturating_sub(1),
        1 => number + 1,
        2 => number + random.pick(&[1 << 8, 1 << 16, 1 << 32, 1 << 48]),
        3 => among(random, 0, 9_999),
        _ => random.pick(&ENDS),
    }
}
