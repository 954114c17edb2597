//! Every channel near those of a relation line, every line of R, and slices of
//! every length near its last channel.

use crate::compare::compare;
use crate::tally::Kind::{self, Found, Nothing, TooShort};
use crate::tally::Tally;
use many_sets::run::{random, turns};
use many_sets::sound::sound;
use small_sets::{File, Question, Set};

/// The relation lines of a set.
fn relations(set: &Set) -> Vec<naive::Relation> {
    let lines = (1..=set.lines(File::X)).map(|line| set.line(File::X, line).0);
    lines.filter(|line| line[0] == b'X').flat_map(|line| naive::read_relation(&line)).collect()
}

/// Sets of one to eight relation lines, and what is asked of one of these: some
/// is found, and some not.
fn hold(salt: u64, sets: u64, not: Kind, ask: fn(&Set, naive::Relation) -> Vec<Question>) {
    let mut random = random(salt);
    let mut tally = Tally::default();
    for _ in 0..turns(sets) {
        let set = sound(&mut random).set;
        let relations = relations(&set);
        if (1..=8).contains(&relations.len()) {
            for question in ask(&set, random.pick(&relations)) {
                tally.count(&compare(&set, &question));
            }
        }
    }
    tally.holds(&[(Found, 500), (not, 500)]);
}

#[test]
fn each_channel() {
    hold(46, 600, Nothing, |_, relation| {
        let (tape, record) = (relation.tape.to_vec(), relation.record.into());
        let channels = relation.from_channel.max(4) - 3..=relation.to_channel.min(9_996) + 3;
        let ask = |channel| Question::Trace { tape: tape.clone(), record, channel };
        channels.map(|channel| ask(channel.into())).collect()
    });
}

#[test]
fn each_r_line() {
    hold(47, 250, Nothing, |set, relation| {
        let lines = 1..=set.lines(File::R) as u64 + 2;
        let components = 1..=u64::from(relation.channel_increment) + 1;
        let (tape, record) = (relation.tape.to_vec(), relation.record.into());
        let ask =
            |r_line, component| Question::Channel { tape: tape.clone(), record, r_line, component };
        lines
            .flat_map(|line| components.clone().map(move |component| (line, component)))
            .map(|(line, component)| ask(line, component))
            .collect()
    });
}

#[test]
fn each_length() {
    hold(49, 400, TooShort, |_, relation| {
        let (tape, record) = (relation.tape.to_vec(), relation.record.into());
        let to = usize::from(relation.to_channel);
        let lengths = to.saturating_sub(2)..=to + 2;
        let ask = |(lines_len, components_len)| Question::Spread {
            tape: tape.clone(),
            record,
            lines_len,
            components_len,
        };
        lengths
            .clone()
            .flat_map(|lines| lengths.clone().map(move |components| (lines, components)))
            .map(ask)
            .collect()
    });
}
