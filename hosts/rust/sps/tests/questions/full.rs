//! Questions on sets of 9,999 lines a file.

use crate::compare::compare;
use crate::tally::Kind::{Found, OfTheSet};
use crate::tally::Tally;
use many_sets::large::{most, survey, two_million_traces, FULL, HOSTILE};
use many_sets::questions::{channel, spread, table_line, trace, Ask};
use many_sets::run::{random, turns};
use small_sets::place::{below, first};
use small_sets::Question;

const KINDS: [Ask; 4] = [trace, channel, spread, table_line];

/// Large sets, and those made to take long, are no different. These get a question
/// each, of a kind in turn.
#[test]
fn full_sets() {
    let mut random = random(48);
    let mut tally = Tally::default();
    let survey = survey(1_995);
    for ask in KINDS.repeat(turns(3) as usize) {
        let question = ask(&mut random, &survey);
        tally.count(&compare(&survey, &question));
    }
    for ((_, make), ask) in HOSTILE.into_iter().zip(KINDS.into_iter().cycle()) {
        let set = make(FULL);
        let question = ask(&mut random, &set);
        tally.count(&compare(&set, &question));
    }
    tally.holds(&[(Found, 2), (OfTheSet, 2)]);
}

/// The first and the last records, channels and lines.
#[test]
fn ends_of_full_files() {
    let set = two_million_traces();
    let tape = || b"100   ".to_vec();
    let last = u64::from(most()) - 1;
    let (first, line) = (first() as u64, |n| below(n) as u64);
    for (record, channel, answer) in [
        (0, 1, first * 16 + 1),
        (0, 200, line(200) * 16 + 1),
        (0, 201, 0),
        (last, 1, 9_800 * 16 + 1),
        (last, 200, 9_999 * 16 + 1),
        (last + 1, 1, 0),
    ] {
        let question = Question::Trace { tape: tape(), record, channel };
        assert_eq!(compare(&set, &question).host_number(), answer);
    }
    for (record, r_line, answer) in [
        (0, first - 1, 0),
        (0, first, 1),
        (0, line(200), 200),
        (0, line(201), 0),
        (last, 9_800, 1),
        (last, 9_999, 200),
    ] {
        let question = Question::Channel { tape: tape(), record, r_line, component: 1 };
        assert_eq!(compare(&set, &question).host_number(), answer);
    }
}
