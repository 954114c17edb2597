//! Lengths of the slices that a spread table gets.

use super::numbers::number;
use small_sets::{File, Line, Random, Set};

/// The highest channel of a relation line's record.
pub fn highest(set: &Set, at: &Line) -> usize {
    let record = |line: &Line| (line.0[1..7].to_vec(), number(line, 8, 11));
    let lines = (1..=set.lines(File::X)).map(|line| set.line(File::X, line));
    let channels =
        lines.filter(|line| record(line) == record(at)).map(|line| number(&line, 43, 46));
    channels.max().unwrap_or(0) as usize
}

/// So many places, one too few, some more, or any.
pub fn length(random: &mut Random, highest: usize) -> usize {
    match random.below(12) {
        0 => highest.saturating_sub(1),
        1 => random.below(highest + 1),
        2 | 3 => highest + 1,
        4 => highest + random.below(20),
        5 => 10_000 + random.below(3),
        _ => highest,
    }
}
