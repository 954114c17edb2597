//! Lines of R.

use super::numbers::{among, number, other};
use small_sets::{File, Line, Random, Set};

/// The line of a receiver that a relation line covers, one beside it, a marker,
/// one of other index, any of the file, or another number.
pub fn r_line(random: &mut Random, set: &Set, at: &Line) -> u64 {
    let lines = set.lines(File::R) as u64;
    let kind = random.below(12);
    let near = match kind {
        0 => one(random, set, |line| line.0[26..28] == *b"PM"),
        1 => one(random, set, |line| covered(at, line) && !same_index(at, line)),
        _ => one(random, set, |line| covered(at, line) && same_index(at, line)),
    };
    match (kind, near) {
        (2, _) | (_, None) => among(random, 1, lines + 1),
        (3, Some(line)) => other(random, line),
        (_, Some(line)) => line,
    }
}

/// One of the lines of R that are so.
fn one(random: &mut Random, set: &Set, is: impl Fn(&Line) -> bool) -> Option<u64> {
    let lines = 1..=set.lines(File::R);
    let are: Vec<usize> = lines.filter(|&line| is(&set.line(File::R, line))).collect();
    (!are.is_empty()).then(|| random.pick(&are) as u64)
}

/// Whether a relation line covers the name and number of a line of R.
fn covered(at: &Line, line: &Line) -> bool {
    let (from, to) = (number(at, 64, 71), number(at, 72, 79));
    let numbers = from.min(to)..=from.max(to);
    at.0[47..63] == line.0[1..17] && numbers.contains(&number(line, 18, 25))
}

fn same_index(at: &Line, line: &Line) -> bool {
    number(at, 80, 80) == number(line, 26, 26)
}
