//! 10 over R, 11 and 12 over S, 13 to 15 between X and S.

use super::write::{accepted, as_a, check, refused};
use crate::line::{marker, receiver, relation, shot, Line};
use crate::place::{below, first};
use crate::File::{R, S, X};
use crate::{headers_only, set_a, Answer, Case, Set};

pub fn cases() -> Vec<Case> {
    [above(), not_above(), times(), repeats(), sources(), sequence(), unnamed()].concat()
}

/// Set A with receivers added after 103.
fn with_receivers(name: &str, lines: Vec<Line>, expected: Answer) -> Case {
    check(format!("10: {name}"), set_a().add_all(R, lines), expected)
}

/// 10: the last of the added receivers is above the one before.
fn above() -> Vec<Case> {
    let r = receiver;
    let rows: [(&str, Vec<Line>); 10] = [
        ("a higher point", vec![r(104)]),
        ("a higher point of fewer digits", vec![r(9_999).at(18, "00009999"), r(10_000)]),
        ("a higher index", vec![r(103).index("2")]),
        ("a higher index than a blank one", vec![r(104).index(" "), r(104).index("2")]),
        ("a lower case name", vec![r(101).name("l1")]),
        ("a longer name", vec![r(101).name("L10")]),
        ("a name by bytes", vec![r(101).name("L10"), r(101).name("L9")]),
        ("a name above in its last column", vec![r(101).name("L1             1")]),
        ("a higher KL", vec![r(104).code("KL")]),
        ("a higher point of lower index", vec![r(104).index("9"), r(105).index("1")]),
    ];
    let case = |(name, lines): (&str, Vec<Line>)| {
        let count = 3 + lines.len() as u64;
        with_receivers(name, lines, accepted(count, 1, 1, 3))
    };
    rows.map(case).to_vec()
}

/// 10: the last of the added receivers is not above the one before.
fn not_above() -> Vec<Case> {
    let r = receiver;
    let rows: [(&str, Vec<Line>); 12] = [
        ("the same receiver", vec![r(103)]),
        ("the same with leading zeros", vec![r(103).at(18, "00000103")]),
        ("the same with a blank index", vec![r(103).index(" ")]),
        ("a lower point of higher index", vec![r(102).index("2")]),
        ("a lower index", vec![r(104).index("3"), r(104).index("2")]),
        ("a lower name of a higher point", vec![r(999).name("K1")]),
        ("an upper case name", vec![r(101).name("l1"), r(101).name("M1")]),
        ("a shorter name", vec![r(101).name("L10"), r(999)]),
        ("a name by number", vec![r(101).name("L9"), r(101).name("L10")]),
        ("a blank inside a name", vec![r(999).name("L 9")]),
        ("a lower receiver behind a marker", vec![marker(R), r(102)]),
        ("a repeated KL", vec![r(103).code("KL")]),
    ];
    let case = |(name, lines): (&str, Vec<Line>)| {
        let last = below(3 + lines.len());
        with_receivers(name, lines, refused(10, R, last, 2))
    };
    let second = set_a().edit(R, below(2), |r| r.point(101));
    let too_high = set_a().edit(R, first(), |r| r.point(109));
    let mut cases = rows.map(case).to_vec();
    cases.extend([
        check("10: the second receiver as the first", second, refused(10, R, below(2), 2)),
        check("10: the first receiver too high", too_high, refused(10, R, below(2), 2)),
    ]);
    cases
}

/// Set A with shots added, each but a killed one named by a relation line of a record of its
/// own.
fn shots(lines: &[Line]) -> Set {
    lines.iter().zip(12..).fold(set_a(), |set, (&line, record)| {
        let mut source = relation().record(record);
        source.0[13..38].copy_from_slice(&line.0[1..26]);
        let set = set.add(S, line);
        if matches!(&line.0[26..28], b"PM" | b"KL") {
            set
        } else {
            set.add(X, source)
        }
    })
}

/// 11: days, then times.
fn times() -> Vec<Case> {
    let s = shot;
    let late = |lines: &[Line], n| (shots(lines), refused(11, S, below(n), 72));
    let fine = |lines: &[Line]| (shots(lines), accepted(3, 2, 2, 6));
    let r_days = set_a().edit(R, below(3), |r| r.day(1).time("000000"));
    let rows = [
        ("equal times", fine(&[s(502)])),
        ("a later time", fine(&[s(502).time("071246")])),
        ("a later day at an earlier time", fine(&[s(502).day(114).time("000000")])),
        ("a marker of an early day between", fine(&[s(502).code("PM").day(1), s(503)])),
        ("a second earlier", late(&[s(502).time("071244")], 2)),
        ("a day earlier at a later time", late(&[s(502).day(112).time("235959")], 2)),
        ("day 99 after day 113", late(&[s(502).day(99)], 2)),
        ("a KL shot earlier", late(&[s(502).code("KL").time("071244")], 2)),
        (
            "earlier than the shot before alone",
            late(&[s(502).time("080000"), s(503).time("075959")], 3),
        ),
        ("earlier behind a marker", late(&[marker(S), s(502).time("071244")], 3)),
        ("earlier than a KL shot", late(&[s(502).code("KL").day(114), s(503)], 3)),
        ("R's days and times in any order", (r_days, as_a())),
    ];
    rows.map(|(name, (set, expected))| check(format!("11: {name}"), set, expected)).to_vec()
}

/// 12: name, point and index, of any earlier shot.
fn repeats() -> Vec<Case> {
    let s = shot;
    let again = |lines: &[Line], n| (shots(lines), refused(12, S, below(n), 2));
    let other_code = shots(&[s(501).code("E9")]).naming(&["E9"]);
    let rows = [
        ("the shot again", again(&[s(501)], 2)),
        ("the shot again on a later day", again(&[s(501).day(200)], 2)),
        ("with leading zeros", again(&[s(501).at(18, "00000501")], 2)),
        ("with a blank index", again(&[s(501).index(" ")], 2)),
        ("as KL", again(&[s(501).code("KL")], 2)),
        ("with another code", (other_code, refused(12, S, below(3), 2))),
        ("two lines below", again(&[s(502), s(501)], 3)),
        ("behind a marker", again(&[marker(S), s(501)], 3)),
        ("with another index", (shots(&[s(501).index("2")]), accepted(3, 2, 2, 6))),
        ("with another name", (shots(&[s(501).name("L 1")]), accepted(3, 2, 2, 6))),
        ("with a lower case name", (shots(&[s(501).name("l1")]), accepted(3, 2, 2, 6))),
        ("with a lower point", (shots(&[s(500)]), accepted(3, 2, 2, 6))),
    ];
    rows.map(|(name, (set, expected))| check(format!("12: {name}"), set, expected)).to_vec()
}

/// 13: the shot of a relation line.
fn sources() -> Vec<Case> {
    let none =
        |name: &str, set: Set| check(format!("13: {name}"), set, refused(13, X, first(), 14));
    let x = |change: fn(Line) -> Line| set_a().edit(X, first(), change);
    let s = |change: fn(Line) -> Line| set_a().edit(S, first(), change);
    vec![
        none("another point", x(|x| x.source(502))),
        none("another index", x(|x| x.source_index("2"))),
        none("a lower case name", x(|x| x.source_name("l1"))),
        none("a blank inside the name", x(|x| x.source_name("L 1"))),
        none("a longer name", x(|x| x.source_name("L1             1"))),
        none("a receiver's point", x(|x| x.source(101))),
        none("the shot's name one column longer", s(|s| s.name("L1             1"))),
        none("the shot is a marker", s(|s| s.code("PM"))),
        none("the shot has index 2", s(|s| s.index("2"))),
        none("no shot at all", set_a().remove(S, first())),
        check("13: blank index in X", x(|x| x.source_index(" ")), as_a()),
        check("13: blank index in S", s(|s| s.index(" ")), as_a()),
        none("the shot is KL", s(|s| s.code("KL"))),
        check(
            "13: in the second relation line",
            set_a().add(X, relation().record(12).source(502)),
            refused(13, X, below(2), 14),
        ),
    ]
}

/// 14: relation lines by the order of S; records 12 and on, one for each point.
fn sequence() -> Vec<Case> {
    let ordered = |points: &[u32]| {
        let set = headers_only().add_all(R, [101, 102, 103].map(receiver));
        let set = set.add_all(S, [501, 503, 502].map(shot));
        let lines = points.iter().zip(12..);
        set.add_all(X, lines.map(|(&point, record)| relation().source(point).record(record)))
    };
    let case = |name: &str, points: &[u32], expected| {
        check(format!("14: {name}"), ordered(points), expected)
    };
    vec![
        case("the order of S", &[501, 503, 502], accepted(3, 3, 3, 9)),
        case("a shot twice", &[501, 503, 503, 502], accepted(3, 3, 4, 12)),
        case("the order of points", &[501, 502, 503], refused(14, X, below(3), 14)),
        case("the first shot last", &[503, 502, 501], refused(14, X, below(3), 14)),
        case("the second line", &[503, 501, 502], refused(14, X, below(2), 14)),
        case("back to the first shot", &[501, 503, 501, 502], refused(14, X, below(3), 14)),
    ]
}

/// 15: shots without a relation line.
fn unnamed() -> Vec<Case> {
    let no_relation = set_a().remove(X, first());
    let before = set_a().insert(S, first(), shot(500));
    let kl = set_a().add(S, shot(502).code("KL"));
    let two = set_a().add(S, shot(502)).add(S, shot(503));
    let other_index = set_a().add(S, shot(501).index("2"));
    let behind = set_a().add(S, marker(S)).add(S, shot(502));
    let no_shot = headers_only().add(R, receiver(101));
    vec![
        check("15: no relation line", no_relation, refused(15, S, first(), 1)),
        check("15: the first shot", before, refused(15, S, first(), 1)),
        check("15: a KL shot", kl, accepted(3, 2, 1, 3)),
        check("15: two shots", two, refused(15, S, below(2), 1)),
        check("15: the shot with another index", other_index, refused(15, S, below(2), 1)),
        check("15: behind a marker", behind, refused(15, S, below(3), 1)),
        check("15: receivers alone", no_shot, accepted(1, 0, 0, 0)),
    ]
}
