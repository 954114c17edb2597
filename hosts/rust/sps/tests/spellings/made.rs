//! Sets made from a seed, and questions on them.

use crate::twins::{hold, twins};
use many_sets::faults::damage;
use many_sets::media::plain;
use many_sets::questions::{channel, spread, table_line, trace, Ask};
use many_sets::run::{random, turns};
use many_sets::sound::{sound, Sound};
use many_sets::spellings::spelt;
use small_sets::{Answer, Question, Random, Set};
use std::collections::BTreeMap;

const KINDS: [Ask; 4] = [trace, channel, spread, table_line];

/// A question of each kind.
fn asked(random: &mut Random, set: &Set) -> [Question; 4] {
    KINDS.map(|ask| ask(random, set))
}

/// About half of all decimals have a point as they are made. Every set can do without, and
/// many have room for a point in each.
#[test]
fn sound_sets() {
    let mut random = random(80);
    let (mut as_made, mut pointed, mut found) = ([0, 0], 0, 0);
    for _ in 0..turns(3_000) {
        let Sound { set, counts } = sound(&mut random);
        let sets = twins(&set);
        let [made, with, without] = sets.each_ref().map(spelt);
        assert_eq!(without, [0, made[0] + made[1]]);
        as_made = [as_made[0] + made[0], as_made[1] + made[1]];
        pointed += u64::from(with[0] > 0 && with[1] == 0);
        let [receivers, shots, relations, traces, dead_traces] = counts;
        let accepted = Answer::Accepted { receivers, shots, relations, traces, dead_traces };
        assert_eq!(hold(&sets, &Question::Cross, "a sound set"), accepted);
        for question in asked(&mut random, &set) {
            let answer = hold(&sets, &question, "a sound set");
            found += u64::from(answer.host_number() > 0);
        }
    }
    assert!(pointed > turns(1_000) && found > turns(2_000), "{pointed} sets, {found} answers");
    let [with, without] = as_made;
    assert!((0.8..1.25).contains(&(with as f64 / without as f64)), "{with} and {without}");
}

/// How many sets are accepted, and refused for each number.
fn tally(answers: impl Iterator<Item = Answer>) -> BTreeMap<u8, u64> {
    let mut tally = BTreeMap::new();
    for answer in answers {
        let number = match answer {
            Answer::Refused { number, .. } => number,
            _ => 0,
        };
        *tally.entry(number).or_default() += 1;
    }
    tally
}

/// One change or two: the refusal and its place are those of each spelling.
#[test]
fn damaged_sets() {
    let mut random = random(81);
    let answers = (0..turns(6_000)).map(|turn| {
        let Sound { set, .. } = sound(&mut random);
        let (mut set, mut how) = damage(&mut random, set);
        if turn % 2 == 1 {
            (set, how) = damage(&mut random, set);
        }
        let sets = twins(&set);
        let question = random.pick(&KINDS)(&mut random, &set);
        hold(&sets, &question, how);
        hold(&sets, &Question::Cross, how)
    });
    let tally = tally(answers);
    for number in [0, 1, 3, 4, 5, 6, 7, 9, 10, 11, 12, 13, 15, 16, 18, 19, 24, 25] {
        assert!(tally.get(&number) > Some(&10), "too few of {number}: {tally:?}");
    }
}

#[test]
fn tapes() {
    let mut random = random(82);
    let answers = (0..turns(1_000)).map(|_| {
        let set = plain(&mut random);
        let on_tape = |set: Set| set.on_tape().expect("characters of a tape");
        let sets = twins(&set).map(on_tape);
        for question in asked(&mut random, &set) {
            hold(&sets, &question, "a tape");
        }
        hold(&sets, &Question::Cross, "a tape")
    });
    let tally = tally(answers);
    assert!(tally.get(&0) > Some(&500) && tally.get(&10) > Some(&20), "{tally:?}");
}
