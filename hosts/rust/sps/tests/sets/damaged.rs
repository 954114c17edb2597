//! Sound sets, then with one thing changed, then with two or three.

use crate::compare::{compare, compare_calls, Tally};
use many_sets::faults::damage_more;
use many_sets::run::{random, turns};
use many_sets::sound::sound;
use sps::Accepted;

/// The naive reader, the proved one and the maker of a set agree on what it holds.
#[test]
fn sound_sets() {
    let (mut random, mut with_dead) = (random(30), 0);
    for turn in 0..turns(20_000) {
        let made = sound(&mut random);
        let compare = if turn % 8 == 0 { compare_calls } else { compare };
        let [receivers, shots, relations, traces, dead_traces] = made.counts;
        let counts = Accepted { receivers, shots, relations, traces, dead_traces };
        assert_eq!(compare(&made.set, "a sound set"), Ok(counts), "as it is made");
        with_dead += u64::from(dead_traces > 0 && dead_traces < traces);
    }
    assert!(with_dead > turns(3_000), "{with_dead} sets have dead traces and others");
}

/// Sets with so many changes.
fn changed(salt: u64, sets: u64, changes: usize) {
    let mut random = random(salt);
    let mut tally = Tally::default();
    for _ in 0..turns(sets / 8) {
        let made = sound(&mut random);
        for turn in 0..8 {
            let (set, ways) = damage_more(&mut random, made.set.clone(), changes);
            let compare = if turn == 0 { compare_calls } else { compare };
            tally.count(compare(&set, &ways));
        }
    }
    tally.holds((1..=19).chain([24, 25]), 20);
}

#[test]
fn one_change() {
    changed(31, 80_000, 1);
}

/// Which of two faults is named.
#[test]
fn two_changes() {
    changed(32, 80_000, 2);
}

#[test]
fn three_changes() {
    changed(33, 40_000, 3);
}
