//! The relation lines of a set, and their channels counted from the other end.

use naive::Relation;
use small_sets::{File, Set};
use std::cmp::Ordering;

/// The relation lines of a sound disc set.
pub fn relations(set: &Set) -> Vec<Relation> {
    let lines = (1..=set.lines(File::X)).map(|line| set.line(File::X, line).0);
    lines.filter(|line| line[0] == b'X').flat_map(|line| naive::read_relation(&line)).collect()
}

/// How its receivers are counted: up is less, down is greater, one receiver is equal.
pub fn way(relation: &Relation) -> Ordering {
    relation.from_receiver.cmp(&relation.to_receiver)
}

/// The channel of a line laid out backwards that leads to what a channel of the line leads
/// to: F + (n - 1 - floor((c - F) / I)) * I + (c - F) mod I, with n receivers.
pub fn other_end(relation: &Relation, channel: u16) -> u16 {
    let (f, i) = (relation.from_channel, u16::from(relation.channel_increment));
    let n = relation.from_receiver.abs_diff(relation.to_receiver) as u16 + 1;
    f + (n - 1 - (channel - f) / i) * i + (channel - f) % i
}

/// Set A's line with three components: 1 2 3, 4 5 6, 7 8 9 become 7 8 9, 4 5 6, 1 2 3.
#[test]
fn channels_of_three_components() {
    let line = small_sets::relation().channels(1, 9).increment("3");
    let relation = naive::read_relation(&line.0).expect("a relation");
    let channels: Vec<u16> = (1..=9).map(|channel| other_end(&relation, channel)).collect();
    assert_eq!(channels, [7, 8, 9, 4, 5, 6, 1, 2, 3]);
}
