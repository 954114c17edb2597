//! 6, 18 and 19 where receivers are counted downwards.

use super::{all_channels, backwards, edited, numbered, on_tape, three_components, up_and_down};
use crate::line::{relation, Line};
use crate::place::{below, first};
use crate::table::records::{second, third, with};
use crate::table::write::{accepted, check, refused};
use crate::File::{R, X};
use crate::{set_a, Case, Set};

pub fn cases() -> Vec<Case> {
    [agreements(), disagreements(), missing(), twice(), once()].concat()
}

/// 6 is not given: the numbers agree.
fn agreements() -> Vec<Case> {
    let case = |name: &str, set: Set, traces| {
        check(format!("backwards: {name}"), set, accepted(3, 1, 1, traces))
    };
    let one = |x: Line| x.channels(4, 6).increment("3").receivers(102, 102);
    vec![
        case("receivers 103-101", backwards(), 3),
        case("receivers 103-101, on tape", on_tape(backwards()), 3),
        case("receivers 103-102", edited(|x| x.channels(1, 2).receivers(103, 102)), 2),
        case("with leading zeros", edited(|x| x.at(64, "0000010300000101")), 3),
        case("three components", three_components(), 9),
        case("three components of one receiver", edited(one), 3),
        case("the lowest numbers", numbered(0), 3),
        case("the highest numbers", numbered(99_999_997), 3),
        check("backwards: all channels", all_channels(), accepted(1_111, 1, 1, 9_999)),
    ]
}

/// 6's three places, and which is tried first.
fn disagreements() -> Vec<Case> {
    let case = |name: &str, change: fn(Line) -> Line, column| {
        let set = backwards().edit(X, first(), change);
        check(format!("backwards: {name}"), set, refused(6, X, first(), column))
    };
    vec![
        case("channels 3-1", |x| x.channels(3, 1), 39),
        case("channels 9-1, receivers 109-101", |x| x.channels(9, 1).receivers(109, 101), 39),
        case("increment 2", |x| x.increment("2"), 47),
        case("channels 1-4, increment 3", |x| x.channels(1, 4).increment("3"), 47),
        case("increment 2, receivers 109-101", |x| x.increment("2").receivers(109, 101), 47),
        case("channels 1-2", |x| x.channels(1, 2), 72),
        case("channels 1-4", |x| x.channels(1, 4), 72),
        case("increment 3", |x| x.increment("3"), 72),
        case("channels 1-12, increment 3", |x| x.channels(1, 12).increment("3"), 72),
        case("receivers 102-101", |x| x.receivers(102, 101), 72),
        case("receivers 104-101", |x| x.receivers(104, 101), 72),
        case("receivers 99999999-0", |x| x.receivers(99_999_999, 0), 72),
        case("receivers 3-1 of channels 1-2", |x| x.channels(1, 2).receivers(3, 1), 72),
    ]
}

/// 18: any of the receivers that are covered.
fn missing() -> Vec<Case> {
    let case = |name: &str, set: Set, n| {
        check(format!("backwards, 18: {name}"), set, refused(18, X, below(n), 64))
    };
    let x = |from, to| backwards().edit(X, first(), |x| x.receivers(from, to));
    let r = |change: fn(Line) -> Line| backwards().edit(R, below(2), change);
    vec![
        case("the first receiver", x(104, 102), 1),
        case("the last receiver", x(102, 100), 1),
        case("the middle receiver", backwards().remove(R, below(2)), 1),
        case("the middle receiver, on tape", on_tape(backwards().remove(R, below(2))), 1),
        case("a marker standing in", r(|r| r.code("PM")), 1),
        case("index 2 in R", r(|r| r.index("2")), 1),
        case("one of 1,111", all_channels().remove(R, below(500)), 1),
        case("all but the ends", with(&[]).remove(R, below(5)).add(X, six_down()), 2),
        case("in the second relation line", set_a().add(X, second().receivers(106, 104)), 2),
        case("before 19", set_a().add(X, second().receivers(104, 102)), 2),
    ]
}

/// Receivers 109 to 104 on channels 4-9.
fn six_down() -> Line {
    relation().channels(4, 9).receivers(109, 104)
}

/// 19: receivers covered twice in a record, whichever way they are counted.
fn twice() -> Vec<Case> {
    let case = |name: &str, set: Set, n| {
        check(format!("backwards, 19: {name}"), set, refused(19, X, below(n), 64))
    };
    let down = |set: Set| set.edit(X, first(), |x| x.receivers(103, 101));
    let one = |n| relation().channels(10, 10).receivers(n, n);
    vec![
        case("a line up, then down", with(&[second().receivers(103, 101)]), 2),
        case("a line down, then up", down(with(&[second().receivers(101, 103)])), 2),
        case("a line down, then down", down(with(&[second().receivers(103, 101)])), 2),
        case("the last of both", with(&[second().receivers(105, 103)]), 2),
        case("the first of both", down(with(&[second().receivers(103, 105)])), 2),
        case("the middle", up_and_down(), 2),
        case("the middle, on tape", on_tape(up_and_down()), 2),
        case("all nine", with(&[relation().channels(4, 12).receivers(109, 101)]), 2),
        case("the first of six, by one receiver", with(&[six_down(), one(109)]), 3),
        case("the fourth of six, by one receiver", with(&[six_down(), one(106)]), 3),
        case("the last of six, by one receiver", with(&[six_down(), one(104)]), 3),
        case(
            "six, after one of them",
            with(&[one(106).channels(4, 4), six_down().channels(5, 10)]),
            3,
        ),
        case("two lines before", with(&[second(), third().receivers(103, 101)]), 3),
        case(
            "by another component count",
            with(&[relation().channels(4, 9).increment("3").receivers(104, 103)]),
            2,
        ),
    ]
}

/// 19 is not given: lines of both ways side by side, or in other records.
fn once() -> Vec<Case> {
    let case = |name: &str, lines: &[Line], traces| {
        let expected = accepted(9, 1, 1 + lines.len() as u64, traces);
        check(format!("backwards, 19: {name}"), with(lines), expected)
    };
    let (second_down, third_down) = (second().receivers(106, 104), third().receivers(109, 107));
    let low = third().receivers(106, 104);
    vec![
        case("side by side", &[second_down], 6),
        case("three side by side", &[second_down, third_down], 9),
        case("the highest before those between", &[second().receivers(109, 107), low], 9),
        case("in another record", &[relation().record(12).receivers(103, 101)], 6),
        case("on another tape", &[relation().tape("101").receivers(103, 101)], 6),
    ]
}
