//! Hostile sets of 2,000 lines a file, as they are, then with changes.

use crate::compare::{compare, compare_calls, Tally};
use many_sets::faults::damage_more;
use many_sets::large::{Large, HOSTILE, WIDEST};
use many_sets::run::{random, turns};
use small_sets::Set;

const LINES: usize = 2_000;

/// Each of some sets, so many times with each number of changes from one on.
fn changed(salt: u64, sets: &[Large], times: &[u64]) -> Tally {
    let mut random = random(salt);
    let mut tally = Tally::default();
    for (name, make) in sets {
        let hostile: Set = make(LINES);
        tally.count(compare_calls(&hostile, name));
        for (changes, &times) in (1..).zip(times) {
            for _ in 0..turns(times) {
                let (set, ways) = damage_more(&mut random, hostile.clone(), changes);
                tally.count(compare(&set, &format!("{name}, {ways}")));
            }
        }
    }
    tally
}

/// The refusals that each run of some thousand sets has.
const OFTEN: [usize; 17] = [1, 3, 4, 5, 6, 7, 9, 10, 11, 12, 13, 14, 16, 18, 19, 24, 25];

/// Two halves, since tests run at the same time.
#[test]
fn hostile_sets_changed() {
    changed(60, &HOSTILE[..HOSTILE.len() / 2], &[70, 30]).holds(OFTEN, 10);
}

#[test]
fn more_hostile_sets_changed() {
    changed(61, &HOSTILE[HOSTILE.len() / 2..], &[70, 30]).holds(OFTEN, 10);
}

/// These take the naive reader long.
#[test]
fn widest_sets_changed() {
    assert!(changed(62, &WIDEST, &[5, 5]).sets() > 20);
}
