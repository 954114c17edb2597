//! Questions on sets made from a seed: sound ones, and with one thing changed.

use crate::compare::compare;
use crate::tally::Kind::{Found, Nothing, OfTheSet, OutOfRange, TooShort};
use crate::tally::Tally;
use many_sets::faults::damage;
use many_sets::questions::{channel, spread, table_line, trace, Ask};
use many_sets::run::{random, turns};
use many_sets::sound::{sound, Sound};
use small_sets::{Random, Set};

/// A sound set; few have no relation line.
fn with_relations(random: &mut Random) -> Set {
    loop {
        let Sound { set, counts: [_, _, relations, ..] } = sound(random);
        if relations > 0 || random.below(8) == 0 {
            return set;
        }
    }
}

/// Twelve questions on each of 1,500 sets with so many changes.
fn asked(salt: u64, changes: usize, ask: Ask) -> Tally {
    let mut random = random(salt);
    let mut tally = Tally::default();
    for _ in 0..turns(1_500) {
        let mut set = with_relations(&mut random);
        for _ in 0..changes {
            (set, _) = damage(&mut random, set);
        }
        for _ in 0..12 {
            let question = ask(&mut random, &set);
            tally.count(&compare(&set, &question));
        }
    }
    tally
}

#[test]
fn traces_of_sound_sets() {
    asked(40, 0, trace).holds(&[(Found, 5_000), (Nothing, 2_000), (OutOfRange, 500)]);
}

#[test]
fn traces_of_damaged_sets() {
    let least = [(Found, 500), (Nothing, 500), (OutOfRange, 500), (OfTheSet, 5_000)];
    asked(41, 1, trace).holds(&least);
}

#[test]
fn channels_of_sound_sets() {
    asked(42, 0, channel).holds(&[(Found, 2_000), (Nothing, 2_000), (OutOfRange, 500)]);
}

#[test]
fn channels_of_damaged_sets() {
    let least = [(Found, 500), (Nothing, 500), (OutOfRange, 500), (OfTheSet, 5_000)];
    asked(43, 1, channel).holds(&least);
}

#[test]
fn spreads_of_sound_sets() {
    let least = [(Found, 2_000), (Nothing, 1_000), (OutOfRange, 500), (TooShort, 2_000)];
    asked(44, 0, spread).holds(&least);
}

#[test]
fn spreads_of_damaged_sets() {
    let least = [(Found, 500), (Nothing, 500), (OutOfRange, 500), (TooShort, 500)];
    asked(45, 1, spread).holds(&least);
}

#[test]
fn table_lines_of_sound_sets() {
    asked(50, 0, table_line).holds(&[(Found, 5_000), (Nothing, 1_000), (OutOfRange, 1_000)]);
}

#[test]
fn table_lines_of_damaged_sets() {
    let least = [(Found, 500), (Nothing, 200), (OutOfRange, 500), (OfTheSet, 5_000)];
    asked(51, 1, table_line).holds(&least);
}
