//! Verdicts and counts: of sets made from a seed, of the table and the examples, of full size.

use crate::compare::compare;
use crate::relations::{relations, way};
use many_sets::backwards;
use many_sets::faults::damage;
use many_sets::large::{survey, HOSTILE};
use many_sets::media::plain;
use many_sets::run::{random, turns};
use many_sets::sound::{sound, Sound};
use small_sets::{examples, table, Answer, File, Medium, Question, Set};
use std::cmp::Ordering;
use std::collections::BTreeMap;

/// A verdict without the column of a byte or field that changes places.
fn kept(verdict: &Answer) -> Answer {
    match *verdict {
        Answer::Refused { number: number @ (3 | 5), file, line, column: 64..=79 }
            if file == File::X as u8 =>
        {
            Answer::Refused { number, file, line, column: 64 }
        }
        _ => verdict.clone(),
    }
}

/// Holds both readers to one verdict on a disc set and on the set laid out backwards, and
/// returns it. Twice backwards is the set itself.
fn hold(set: &Set, how: &str) -> Answer {
    let other = backwards::set(set.clone());
    assert!(backwards::set(other.clone()) == *set, "{how}");
    let verdicts = [set, &other].map(|set| compare(set, &Question::Cross));
    assert_eq!(kept(&verdicts[0]), kept(&verdicts[1]), "{how}");
    let [verdict, _] = verdicts;
    verdict
}

/// How many sets are accepted, and refused for each number.
fn tally(answers: impl Iterator<Item = Answer>) -> BTreeMap<u8, u64> {
    let mut tally = BTreeMap::new();
    for answer in answers {
        let number = match answer {
            Answer::Refused { number, .. } => number,
            _ => 0,
        };
        *tally.entry(number).or_default() += 1;
    }
    tally
}

/// Of the lines of more than one receiver about half descend as they are made.
#[test]
fn sound_sets() {
    let mut random = random(92);
    let (mut up, mut down) = (0, 0);
    for _ in 0..turns(3_000) {
        let Sound { set, counts } = sound(&mut random);
        for relation in relations(&set) {
            match way(&relation) {
                Ordering::Less => up += 1,
                Ordering::Greater => down += 1,
                Ordering::Equal => {}
            }
        }
        let [receivers, shots, lines, traces, dead_traces] = counts;
        let accepted = Answer::Accepted { receivers, shots, relations: lines, traces, dead_traces };
        assert_eq!(hold(&set, "a sound set"), accepted);
    }
    assert!((0.8..1.25).contains(&(f64::from(up) / f64::from(down))), "{up} up, {down} down");
}

/// One change or two.
#[test]
fn damaged_sets() {
    let mut random = random(93);
    let answers = (0..turns(6_000)).map(|turn| {
        let Sound { set, .. } = sound(&mut random);
        let (mut set, mut how) = damage(&mut random, set);
        if turn % 2 == 1 {
            (set, how) = damage(&mut random, set);
        }
        hold(&set, how)
    });
    let tally = tally(answers);
    for number in [0, 1, 3, 4, 5, 6, 7, 9, 10, 11, 12, 13, 15, 16, 18, 19, 24, 25] {
        assert!(tally.get(&number) > Some(&10), "too few of {number}: {tally:?}");
    }
}

#[test]
fn tapes() {
    let mut random = random(94);
    let answers = (0..turns(1_000)).map(|_| {
        let set = plain(&mut random);
        let on_tape = |set: Set| set.on_tape().expect("characters of a tape");
        let sets = [set.clone(), backwards::set(set)].map(on_tape);
        let [one, other] = sets.map(|set| compare(&set, &Question::Cross));
        assert_eq!(one, other, "a tape");
        one
    });
    let tally = tally(answers);
    assert!(tally.get(&0) > Some(&500) && tally.get(&10) > Some(&20), "{tally:?}");
}

/// The disc cases of the cross-check in the table, and the examples.
#[test]
fn stated() {
    let mut cases = 0;
    let cross_checks = table().into_iter().filter(|case| case.question == Question::Cross);
    for case in cross_checks.filter(|case| case.set.medium == Medium::Disc) {
        assert_eq!(hold(&case.set, &case.name), case.expected, "{}", case.name);
        cases += 1;
    }
    assert!(cases > 1_500, "{cases} cases");
    for example in examples().iter().filter(|example| example.set.medium == Medium::Disc) {
        let verdict = hold(&example.set, example.name).verdict();
        assert_eq!(verdict.as_deref(), Some(example.verdict.as_str()), "{}", example.name);
    }
}

/// The survey at its full size, and hostile sets of 2,000 lines a file.
#[test]
fn large_sets() {
    let verdict = hold(&survey(1_995), "the survey").verdict();
    assert_eq!(verdict.as_deref(), Some("ACCEPTED 9954 1995 9975 1995000 0\n"));
    let tally = tally(HOSTILE.into_iter().map(|(name, make)| hold(&make(2_000), name)));
    assert!(tally.keys().eq(&[0, 9, 12, 13, 15, 16, 18, 19, 24, 25]), "{tally:?}");
}
