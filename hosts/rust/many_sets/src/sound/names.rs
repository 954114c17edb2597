//! Line names and tapes, many of which are alike.

use crate::fields::name;
use small_sets::Random;
use std::collections::BTreeSet;

/// Sub-fielded names and others that differ by blanks, by case or in one column.
const ALIKE: [&[&str]; 4] = [
    &["1   12", "11  2", "1  12", "112", "1   1 2"],
    &["L1", "l1", "L 1", "L1 1", "L11", "L2"],
    &["LINE 2026 EAST 1", "LINE 2026 EAST 2", "LINE 2026 EAST", "LINE 2026 EAST~"],
    &["0001", "001", "1", "01", "1.0"],
];

const TAPES: [&str; 8] = ["100", "100  1", "10   1", "1001", "001", "10000", "10001", "~"];

/// One to four names of 16 columns.
pub fn of_lines(random: &mut Random) -> Vec<String> {
    let alike = random.pick(&ALIKE);
    let mut names = BTreeSet::new();
    for _ in 0..1 + random.below(4) {
        names.insert(match random.below(4) {
            0 => name(random, 16),
            _ => format!("{:16}", random.pick(alike)),
        });
    }
    names.into_iter().collect()
}

/// A tape of six columns.
pub fn tape(random: &mut Random) -> String {
    match random.below(6) {
        0 => name(random, 6),
        _ => format!("{:6}", random.pick(&TAPES)),
    }
}
