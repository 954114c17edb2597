//! 18 and 19: the receivers that relation lines cover.

use super::records::{second, third, with};
use super::write::{accepted, as_a, check, refused};
use crate::line::{marker, receiver, relation, Line};
use crate::place::{below, first};
use crate::File::{R, X};
use crate::{set_a, Answer, Case, Set};

pub fn cases() -> Vec<Case> {
    [missing(), twice(), once()].concat()
}

/// 18: receivers that are not there.
fn missing() -> Vec<Case> {
    let case = |name: &str, set: Set, expected: Answer| check(format!("18: {name}"), set, expected);
    let no = || refused(18, X, first(), 64);
    let r = |line, change: fn(Line) -> Line| set_a().edit(R, line, change);
    let x = |change: fn(Line) -> Line| set_a().edit(X, first(), change);
    let marker_stands_in = r(below(2), |r| r.code("PM"));
    let other_line = r(below(2), |r| r.name("L2")).edit(R, below(3), |r| r.name("L2"));
    let split =
        set_a().insert(R, below(2), receiver(101).index("2")).insert(R, below(3), marker(R));
    vec![
        case("the first receiver", x(|x| x.receivers(100, 102)), no()),
        case("the last receiver", x(|x| x.receivers(102, 104)), no()),
        case("the middle receiver", set_a().remove(R, below(2)), no()),
        case("no receiver at all", (0..3).fold(set_a(), |set, _| set.remove(R, first())), no()),
        case("index 2 in R", r(below(2), |r| r.index("2")), no()),
        case("index 2 in X", x(|x| x.receiver_index("2")), no()),
        case("a marker standing in", marker_stands_in, no()),
        case("another line standing in", other_line, no()),
        case("a lower case name", x(|x| x.receiver_name("l1")), no()),
        case("a blank inside the name", x(|x| x.receiver_name("L 1")), no()),
        case("a longer name in X", x(|x| x.receiver_name("L1             1")), no()),
        case("a longer name in R", r(below(3), |r| r.name("L1             1")), no()),
        case("blank index in R", r(below(2), |r| r.index(" ")), as_a()),
        case("blank index in X", x(|x| x.receiver_index(" ")), as_a()),
        case("other lines between", split, accepted(4, 1, 1, 3)),
        case("in the second relation line", set_a().add(X, second()), refused(18, X, below(2), 64)),
        case(
            "in the second record",
            set_a().add(X, relation().record(12).receivers(102, 104)),
            refused(18, X, below(2), 64),
        ),
    ]
}

/// 19: receivers covered twice in a record, by any earlier line.
fn twice() -> Vec<Case> {
    let case = |name: &str, set: Set, expected| check(format!("19: {name}"), set, expected);
    let no = |n| refused(19, X, below(n), 64);
    let fourth = with(&[second(), third(), relation().channels(10, 10).receivers(101, 101)]);
    vec![
        case("all again", with(&[second().receivers(101, 103)]), no(2)),
        case("the last of the first line", with(&[second().receivers(103, 105)]), no(2)),
        case(
            "the last of the line before",
            with(&[second().receivers(104, 106), third().receivers(106, 108)]),
            no(3),
        ),
        case("two lines before", with(&[second(), third().receivers(101, 103)]), no(3)),
        case("three lines before", fourth, no(4)),
        case(
            "with a blank index",
            with(&[second().receivers(103, 105).receiver_index(" ")]),
            no(2),
        ),
        case("with leading zeros", with(&[second().at(64, "0000010300000105")]), no(2)),
        case(
            "by another component count",
            with(&[second().increment("3").receivers(102, 102)]),
            no(2),
        ),
        case(
            "in record 12 after record 11",
            with(&[relation().record(12), relation().record(12).channels(4, 6)]),
            no(3),
        ),
    ]
}

/// 19 is asked within a record, and of name, number and index.
fn once() -> Vec<Case> {
    let case = |name: &str, set: Set, expected| check(format!("19: {name}"), set, expected);
    let other_index = set_a()
        .add(R, receiver(103).index("2"))
        .add(X, relation().channels(4, 4).receivers(103, 103).receiver_index("2"));
    let other_name = set_a()
        .add(R, receiver(103).name("L2"))
        .add(X, relation().channels(4, 4).receivers(103, 103).receiver_name("L2"));
    vec![
        case("in another record", with(&[relation().record(12)]), accepted(9, 1, 2, 6)),
        case("on another tape", with(&[relation().tape("101")]), accepted(9, 1, 2, 6)),
        case("of another index", other_index, accepted(4, 1, 2, 4)),
        case("of another name", other_name, accepted(4, 1, 2, 4)),
        case(
            "lower receivers, not covered",
            with(&[third(), second().channels(10, 12)]),
            accepted(9, 1, 3, 9),
        ),
    ]
}
