//! Sets made from a seed, and questions on them.

use crate::stated::hold;
use many_sets::faults::damage;
use many_sets::media::plain;
use many_sets::questions::{channel, spread, table_line, trace, Ask};
use many_sets::run::{random, turns};
use small_sets::{Answer, Question, Set};
use std::collections::BTreeMap;

/// How many sets are answered, and refused for each number.
type Tally = BTreeMap<u8, u64>;

fn count(tally: &mut Tally, answer: &Answer) {
    let number = match *answer {
        Answer::Refused { number, .. } => number,
        _ => 0,
    };
    *tally.entry(number).or_default() += 1;
}

/// Each of the numbers turns up so many times.
fn holds(tally: &Tally, numbers: impl IntoIterator<Item = u8>, least: u64) {
    for number in numbers {
        let found = tally.get(&number).copied().unwrap_or(0);
        assert!(found >= least, "too few of {number}: {tally:?}");
    }
}

/// Sets in the order of the disc or of the tape, half of them with a change.
#[test]
fn sets() {
    let (mut random, mut tally) = (random(70), Tally::new());
    for turn in 0..turns(8_000) {
        let mut set = plain(&mut random);
        let mut how = "as it is made";
        if turn % 2 == 1 {
            (set, how) = damage(&mut random, set);
        }
        if let Some(answer) = hold(&set.plain(), &Question::Cross, how) {
            count(&mut tally, &answer);
        }
    }
    holds(&tally, [0, 1, 4, 5, 6, 7, 9, 10, 11, 12, 13, 15, 16, 18, 19, 24, 25], 10);
    holds(&tally, [0, 10], 500);
}

/// Eight questions on each of some sets.
fn asked(salt: u64, ask: Ask) {
    let (mut random, mut tally) = (random(salt), Tally::new());
    for _ in 0..turns(600) {
        let set: Set = plain(&mut random);
        for _ in 0..8 {
            let question = ask(&mut random, &set);
            let answer = hold(&set, &question, "a sound set").expect("a tape");
            count(&mut tally, &answer);
        }
    }
    holds(&tally, [0, 10, 20], 100);
}

#[test]
fn traces() {
    asked(71, trace);
}

#[test]
fn channels() {
    asked(72, channel);
}

#[test]
fn spreads() {
    asked(73, spread);
}

#[test]
fn table_lines() {
    asked(75, table_line);
}
