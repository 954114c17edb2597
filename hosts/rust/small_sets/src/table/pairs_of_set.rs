//! Two faults in one set, at least one of them of 10 to 21: the one that is
//! looked for first is given.

use super::write::{ask, check, placeless, refused, spread, trace};
use crate::line::{marker, receiver, relation, shot, Line};
use crate::place::{below, first, last_header};
use crate::File::{R, S, X};
use crate::{set_a, Case, Set};

pub fn cases() -> Vec<Case> {
    [points(), one_relation(), relations(), far(), questions()].concat()
}

/// 10, then line by line 11 and 12, then 13.
fn points() -> Vec<Case> {
    let early = |point| shot(point).time("000000");
    let unsorted = || set_a().edit(R, below(3), |r| r.point(101));
    let unknown = |set: Set| set.edit(X, first(), |x| x.source(900));
    let with = |lines: &[Line]| set_a().add_all(S, lines.iter().copied());
    let late = |point| shot(point).time("120000");
    vec![
        check("10 and 11", unsorted().add(S, early(502)), refused(10, R, below(3), 2)),
        check("10 and 12", unsorted().add(S, shot(501)), refused(10, R, below(3), 2)),
        check("10 and 13", unknown(unsorted()), refused(10, R, below(3), 2)),
        check("11 and 12 in a line", with(&[early(501)]), refused(11, S, below(2), 72)),
        check("12 above 11", with(&[shot(501), early(502)]), refused(12, S, below(2), 2)),
        check("11 above 12", with(&[early(502), shot(501)]), refused(11, S, below(2), 72)),
        check("11 twice", with(&[late(502), shot(503), early(504)]), refused(11, S, below(3), 72)),
        check("11 and 13", unknown(with(&[early(502)])), refused(11, S, below(2), 72)),
        check("12 and 13", unknown(with(&[shot(501)])), refused(12, S, below(2), 2)),
        check("12 and 15", with(&[shot(502), shot(501)]), refused(12, S, below(3), 2)),
    ]
}

/// Shots 501 and 502, receivers 101 to 103, and these relation lines.
fn x(lines: &[Line]) -> Set {
    let set = set_a().remove(X, first()).add(S, shot(502));
    set.add_all(X, lines.iter().copied())
}

/// Of shot 502.
fn other() -> Line {
    relation().source(502).record(12)
}

/// Of a shot that is not there.
fn unknown() -> Line {
    relation().source(900).record(13)
}

/// Of shot 501 again.
fn back() -> Line {
    relation().record(14)
}

/// Below set A's line: its last channel and receiver again.
fn again() -> Line {
    relation().channels(3, 3).receivers(103, 103)
}

/// Below set A's line: its last receiver again.
fn next() -> Line {
    again().channels(4, 4)
}

/// Below set A's line: a receiver that is not there.
fn absent() -> Line {
    relation().channels(4, 4).receivers(900, 900)
}

/// 13, 14, 16, 17, 18, 19 in one line.
fn one_relation() -> Vec<Case> {
    let a = relation();
    vec![
        check(
            "13 and 16 in a line",
            x(&[a, other(), unknown().record(11)]),
            refused(13, X, below(3), 14),
        ),
        check("13 and 17 in a line", x(&[a, again().source(900)]), refused(13, X, below(2), 14)),
        check("13 and 18 in a line", x(&[unknown().receivers(1, 3)]), refused(13, X, first(), 14)),
        check("14 and 16 in a line", x(&[a, other(), a]), refused(14, X, below(3), 14)),
        check(
            "14 and 16's second way in a line",
            x(&[other(), a.record(12)]),
            refused(14, X, below(2), 14),
        ),
        check(
            "14 and 18 in a line",
            x(&[a, other(), back().receivers(1, 3)]),
            refused(14, X, below(3), 14),
        ),
        check(
            "16 and 17 in a line",
            x(&[a, again().record_increment("2")]),
            refused(16, X, below(2), 2),
        ),
        check(
            "16 and 18 in a line",
            x(&[a, absent().record_increment("2")]),
            refused(16, X, below(2), 2),
        ),
        check(
            "16 and 19 in a line",
            x(&[a, next().record_increment("2")]),
            refused(16, X, below(2), 2),
        ),
        check(
            "17 and 18 in a line",
            x(&[a, absent().channels(3, 3)]),
            refused(17, X, below(2), 39),
        ),
        check("17 and 19 in a line", x(&[a, again()]), refused(17, X, below(2), 39)),
        check(
            "18 and 19 in a line",
            x(&[a, relation().channels(4, 5).receivers(103, 104)]),
            refused(18, X, below(2), 64),
        ),
    ]
}

/// All of a relation line before the line below, and 15 last.
fn relations() -> Vec<Case> {
    let a = relation();
    vec![
        check("13 above 14", x(&[a, unknown(), other(), back()]), refused(13, X, below(2), 14)),
        check("14 above 13", x(&[a, other(), back(), unknown()]), refused(14, X, below(3), 14)),
        check("19 above 13", x(&[a, next(), unknown()]), refused(19, X, below(2), 64)),
        check("18 above 17", x(&[a, absent(), again()]), refused(18, X, below(2), 64)),
        check(
            "17 above 16",
            x(&[a, again(), next().record_increment("2")]),
            refused(17, X, below(2), 39),
        ),
        check(
            "16 above 14",
            x(&[a, a.record(12), a, other(), back()]),
            refused(16, X, below(3), 2),
        ),
        check("13 and 15", x(&[unknown()]), refused(13, X, first(), 14)),
        check("14 and 15", x(&[other(), back()]).add(S, shot(503)), refused(14, X, below(2), 14)),
        check("16 and 15", x(&[a, next().record_increment("2")]), refused(16, X, below(2), 2)),
        check("17 and 15", x(&[a, again()]).add(S, shot(503)), refused(17, X, below(2), 39)),
        check("18 and 15", x(&[a, absent()]), refused(18, X, below(2), 64)),
        check("19 and 15", x(&[a, next()]), refused(19, X, below(2), 64)),
    ]
}

/// Faults that stand far apart in the order.
fn far() -> Vec<Case> {
    let unnamed = |set: Set| set.add(S, shot(502));
    let no_receiver = || set_a().remove(R, below(2));
    vec![
        check(
            "1 in X and 10",
            set_a().edit(R, below(3), |r| r.point(1)).over(X, 1),
            refused(1, X, below(2), 0),
        ),
        check("3 in R and 1 in X", set_a().byte(R, 1, 1, 0).over(X, 1), refused(3, R, 1, 1)),
        check(
            "2 in S and 18",
            no_receiver().add_all(S, vec![marker(S); 10_000 - set_a().lines(S)]),
            refused(2, S, 10_000, 0),
        ),
        check("4 in X and 15", unnamed(set_a()).add(X, receiver(1)), refused(4, X, below(2), 1)),
        check("7 and 15", unnamed(set_a()).remove(R, 1), refused(7, R, last_header(), 0)),
        check("9 and 18", no_receiver().put(X, 1, 5, "a"), refused(9, X, 1, 5)),
        check(
            "10 and 18",
            no_receiver().edit(R, below(2), |r| r.point(1)),
            refused(10, R, below(2), 2),
        ),
        check("11 and 15", set_a().add(S, shot(502).day(1)), refused(11, S, below(2), 72)),
        check("10 and 15", unnamed(set_a()).add(R, receiver(1)), refused(10, R, below(4), 2)),
    ]
}

/// 20, then the set, then 21.
fn questions() -> Vec<Case> {
    let unnamed = || set_a().add(S, shot(502));
    let covered = || set_a().add(X, relation().channels(4, 4).receivers(103, 103));
    vec![
        ask("20 and 1", set_a().over(R, 1), trace(0), placeless(20)),
        ask("20 and 15", unnamed(), trace(0), placeless(20)),
        ask("1 and 21", set_a().over(R, 1), spread(0, 0), refused(1, R, below(4), 0)),
        ask("19 and 21", covered(), spread(0, 0), refused(19, X, below(2), 64)),
        ask("15 and 21", unnamed(), spread(2, 2), refused(15, S, below(2), 1)),
    ]
}
