//! Channels and components, by the fields of a relation line.

use super::numbers::{among, number, other};
use small_sets::{Line, Random};

/// A channel that the line covers, the one before or after, or another.
pub fn channel(random: &mut Random, line: &Line) -> u64 {
    let (from, to) = (number(line, 39, 42), number(line, 43, 46));
    match random.below(8) {
        0 => from.saturating_sub(1),
        1 => from,
        2 => to,
        3 => to + 1,
        4 => other(random, to),
        _ => among(random, from, to),
    }
}

/// A component that its receivers have, the next, or another.
pub fn component(random: &mut Random, line: &Line) -> u64 {
    let components = number(line, 47, 47);
    match random.below(8) {
        0 => components + 1,
        1 => other(random, components),
        2 => components,
        _ => among(random, 1, components),
    }
}
