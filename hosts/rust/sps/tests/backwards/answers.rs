//! Questions on sets made from a seed, and on the same laid out backwards.

use crate::compare::compare;
use crate::relations::{other_end, relations, way};
use many_sets::backwards;
use many_sets::large::{most, two_million_traces};
use many_sets::run::{random, turns};
use many_sets::sound::sound;
use naive::Relation;
use small_sets::place::{below, first};
use small_sets::{Answer, Question, Set};
use std::cmp::Ordering;

/// Holds so many sets with their likes, of one to eight relation lines, by each of these.
/// Lines of each way turn up, and of more than one component.
fn each(salt: u64, sets: u64, hold: fn([&Set; 2], &Relation, &[Relation])) {
    let mut random = random(salt);
    let (mut up, mut down, mut alone, mut components) = (0, 0, 0, 0);
    for _ in 0..turns(sets) {
        let set = sound(&mut random).set;
        let other = backwards::set(set.clone());
        let lines = relations(&set);
        for relation in lines.iter().filter(|_| lines.len() <= 8) {
            match way(relation) {
                Ordering::Less => up += 1,
                Ordering::Greater => down += 1,
                Ordering::Equal => alone += 1,
            }
            components += u64::from(way(relation).is_ne() && relation.channel_increment > 1);
            hold([&set, &other], relation, &lines);
        }
    }
    let found = [up, down, alone, components];
    assert!(found.iter().all(|&found| found > turns(sets) / 10), "{found:?}");
}

/// Each channel of a line; the way back of what is found is the channel that was asked.
#[test]
fn lookups_and_ways_back() {
    each(90, 800, |sets, relation, _| {
        let (tape, record) = (relation.tape.to_vec(), u64::from(relation.record));
        let trace =
            |channel: u16| Question::Trace { tape: tape.clone(), record, channel: channel.into() };
        let back = |r_line: u16, component: u8| {
            let (tape, component) = (tape.clone(), component.into());
            Question::Channel { tape, record, r_line: r_line.into(), component }
        };
        for channel in relation.from_channel..=relation.to_channel {
            let channels = [channel, other_end(relation, channel)];
            let [one, other] = [0, 1].map(|n| compare(sets[n], &trace(channels[n])));
            assert_eq!(one, other, "channels {channels:?}");
            let Answer::Trace { r_line, component, .. } = one else { panic!("{one:?}") };
            for (set, channel) in sets.into_iter().zip(channels) {
                assert_eq!(compare(set, &back(r_line, component)), Answer::Channel(channel));
            }
        }
    });
}

/// The places of each line of the record change ends; the others are as they are.
#[test]
fn spread_tables() {
    each(91, 800, |sets, relation, lines| {
        let of_record =
            |line: &&Relation| (line.tape, line.record) == (relation.tape, relation.record);
        let of_record: Vec<&Relation> = lines.iter().filter(of_record).collect();
        let highest = of_record.iter().map(|line| line.to_channel).max().unwrap_or(0);
        let question = Question::Spread {
            tape: relation.tape.to_vec(),
            record: relation.record.into(),
            lines_len: usize::from(highest) + 2,
            components_len: usize::from(highest) + 1,
        };
        let [one, other] = sets.map(|set| compare(set, &question));
        let Answer::Spread { highest, lines, components } = one else { panic!("{one:?}") };
        let (mut moved_lines, mut moved_components) = (lines.clone(), components.clone());
        for line in of_record {
            for channel in line.from_channel..=line.to_channel {
                let [from, to] = [channel, other_end(line, channel)].map(|c| usize::from(c) - 1);
                moved_lines[to] = lines[from];
                moved_components[to] = components[from];
            }
        }
        let (lines, components) = (moved_lines, moved_components);
        assert_eq!(other, Answer::Spread { highest, lines, components });
    });
}

/// The first and the last records, channels and lines of full files.
#[test]
fn full_files() {
    let set = backwards::set(two_million_traces());
    let tape = || b"100   ".to_vec();
    let last = u64::from(most()) - 1;
    for (record, channel, r_line) in [
        (0, 1, below(200)),
        (0, 200, first()),
        (last, 1, 9_999),
        (last, 100, 9_900),
        (last, 200, 9_800),
    ] {
        let trace = Question::Trace { tape: tape(), record, channel };
        assert_eq!(compare(&set, &trace).host_number(), r_line as u64 * 16 + 1);
        let back = Question::Channel { tape: tape(), record, r_line: r_line as u64, component: 1 };
        assert_eq!(compare(&set, &back).host_number(), channel);
    }
    let spread = Question::Spread { tape: tape(), record: 0, lines_len: 200, components_len: 201 };
    let Answer::Spread { highest, lines, .. } = compare(&set, &spread) else { panic!("refused") };
    assert_eq!(highest, 200);
    assert!(lines.into_iter().eq((first()..=below(200)).rev().map(|line| line as u16)));
}
