//! What a test runs on: valid lines, then damaged ones.

use crate::compare::compare;
use many_sets::damage::{damage, Fields};
use many_sets::run::{random, turns};
use naive::{Fault, File};
use small_sets::{Line, Random};
use std::collections::BTreeSet;

/// Valid lines: both readers take each of them.
pub fn valid(file: File, salt: u64, line: impl Fn(&mut Random) -> Line) {
    let mut random = random(salt);
    for _ in 0..turns(6_000) {
        let line = line(&mut random);
        assert_eq!(compare(file, line), Ok(()), "{file:?} {}", line.0.escape_ascii());
    }
}

/// Valid lines that are damaged: the readers take some of them, and refuse the
/// others for just these faults.
pub fn damaged(
    file: File,
    salt: u64,
    line: impl Fn(&mut Random) -> Line,
    fields: Fields,
    faults: &[(u8, u8)],
) {
    let mut random = random(salt);
    let mut taken = 0;
    let mut refused = BTreeSet::new();
    for _ in 0..turns(30_000) {
        let times = 1 + random.below(3);
        let line = line(&mut random);
        let line = (0..times).fold(line, |line, _| damage(&mut random, line, fields));
        match compare(file, line) {
            Ok(()) => taken += 1,
            Err(Fault { number, column }) => drop(refused.insert((number, column))),
        }
    }
    assert!(taken > 1_000, "{taken} of the damaged lines are taken");
    assert_eq!(refused, faults.iter().copied().collect());
}

/// Fault 5 at the first column of each field.
pub fn first_columns(fields: Fields) -> Vec<(u8, u8)> {
    fields.iter().map(|&(first, _)| (5, first as u8)).collect()
}
