//! 16 and 17: the relation lines of one record.

use super::write::{accepted, check, refused};
use crate::line::{receiver, relation, shot, Line};
use crate::place::{below, first};
use crate::File::{R, S, X};
use crate::{set_a, Case, Set};

pub fn cases() -> Vec<Case> {
    [apart(), differing(), channels()].concat()
}

/// Set A with receivers 104 to 109.
fn nine_receivers() -> Set {
    set_a().add_all(R, (104..=109).map(receiver))
}

/// A relation line of record 11 for the next three receivers.
pub fn second() -> Line {
    relation().channels(4, 6).receivers(104, 106)
}

/// The next three after `second`.
pub fn third() -> Line {
    relation().channels(7, 9).receivers(107, 109)
}

/// Nine receivers, set A's relation line and these.
pub fn with(lines: &[Line]) -> Set {
    nine_receivers().add_all(X, lines.iter().copied())
}

/// 16, the first way: a record that comes back.
fn apart() -> Vec<Case> {
    let back = |name: &str, lines: &[Line], n| {
        check(format!("16: {name}"), with(lines), refused(16, X, below(n), 2))
    };
    let fine = |name: &str, lines: &[Line], traces| {
        let relations = 1 + lines.len() as u64;
        check(format!("16: {name}"), with(lines), accepted(9, 1, relations, traces))
    };
    let record_12 = relation().record(12);
    let tape_101 = relation().tape("101");
    vec![
        back("record 11 behind record 12", &[record_12, second()], 3),
        back("record 0011 behind record 12", &[record_12, second().at(8, "0011")], 3),
        back("record 11 two records below", &[record_12, relation().record(13), second()], 4),
        back(
            "record 12 behind record 13",
            &[record_12, relation().record(13), second().record(12)],
            4,
        ),
        back("tape 100 behind tape 101", &[tape_101, second()], 3),
        back("two lines, another record, a third", &[second(), record_12, third()], 4),
        fine("three lines of a record", &[second(), third()], 9),
        fine("record 0011 after record 11", &[second().at(8, "0011")], 6),
        fine("records falling", &[relation().record(10), relation().record(9)], 9),
        fine("the same record on another tape", &[tape_101], 6),
        fine("a tape of one column more", &[relation().tape("1000")], 6),
        fine("a tape with another blank", &[relation().tape("1 00")], 6),
        fine("a tape in lower case", &[relation().tape("A"), relation().tape("a")], 9),
        fine("a tape with a last column", &[relation().tape("100  0")], 6),
    ]
}

/// 16, the second way: neighbouring lines of a record that differ.
fn differing() -> Vec<Case> {
    let case = |name: &str, set: Set, expected| check(format!("16: {name}"), set, expected);
    let no = |n| refused(16, X, below(n), 2);
    let beside = |place: Line, line: Line| with(&[line]).add(S, place);
    let point = beside(shot(502), second().source(502));
    let index = beside(shot(501).index("2"), second().source_index("2"));
    let name = beside(shot(501).name("L2"), second().source_name("L2"));
    // The header names the other instrument, in a line of its own.
    let named = |lines: &[Line], instrument| with(lines).naming(&[instrument]);
    let in_order = named(&[second().instrument("2"), third().instrument("2")], "2");
    let all = |x: Line| x.record_increment("3").instrument("4");
    let all_alike = with(&[all(second())]).edit(X, first(), all).naming(&["4"]);
    vec![
        case("another source point", point, no(2)),
        case("another source index", index, no(2)),
        case("another source name", name, no(2)),
        case("another record increment", with(&[second().record_increment("2")]), no(2)),
        case("another instrument", named(&[second().instrument("2")], "2"), no(3)),
        case("in the third line", named(&[second(), third().instrument("9")], "9"), no(4)),
        case("the second line with the third", in_order, no(3)),
        case("all alike", all_alike, accepted(9, 1, 2, 6)),
        case(
            "blank and 1",
            with(&[second().record_increment(" ").instrument(" ").source_index(" ")]),
            accepted(9, 1, 2, 6),
        ),
        case("another point by zeros", with(&[second().at(30, "00000501")]), accepted(9, 1, 2, 6)),
        case(
            "another record may differ in all",
            with(&[all(second().record(12).source(502))]).add(S, shot(502)).naming(&["4"]),
            accepted(9, 2, 2, 6),
        ),
        case(
            "a record within the increment of another",
            with(&[second().record(12)]).edit(X, first(), |x| x.record_increment("2")),
            accepted(9, 1, 2, 6),
        ),
    ]
}

/// 17: channels of a record ascend from line to line.
fn channels() -> Vec<Case> {
    let case =
        |name: &str, lines: &[Line], expected| check(format!("17: {name}"), with(lines), expected);
    let no = |n| refused(17, X, below(n), 39);
    let fine = |relations| accepted(9, 1, relations, 3 * relations);
    vec![
        case("F is its T", &[second().channels(3, 5)], no(2)),
        case("F is its F", &[second().channels(1, 3)], no(2)),
        case("F is 0003", &[second().channels(3, 5).at(39, "0003")], no(2)),
        case("the third line", &[second(), third().channels(6, 8)], no(3)),
        case(
            "the third line, above the first",
            &[second().channels(7, 9), third().channels(4, 6)],
            no(3),
        ),
        case("F just above", &[second()], fine(2)),
        case("a gap", &[second().channels(100, 102)], fine(2)),
        case("up to the last channel", &[second().channels(9997, 9999)], fine(2)),
        case("another record starts anew", &[second().record(12).channels(1, 3)], fine(2)),
        case("another tape starts anew", &[second().tape("101").channels(1, 3)], fine(2)),
    ]
}
