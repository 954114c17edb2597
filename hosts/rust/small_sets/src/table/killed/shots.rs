//! Killed shots: none may be named (13) and none needs to be (15). They count, and 11 and 12 look
//! at them.

use super::{both, dead, killed_shot, killed_shot_named, killing};
use crate::line::{receiver, relation, shot, Line};
use crate::place::{below, first};
use crate::table::code_tables::without;
use crate::table::write::{accepted, refused};
use crate::File::{R, S, X};
use crate::{headers_only, Case, Set};

pub fn cases() -> Vec<Case> {
    [named(), not_named(), in_time(), repeated(), two_faults()].concat()
}

/// Receivers 101 to 103, and these shots and relation lines.
fn with(shots: &[Line], relations: &[Line]) -> Set {
    let set = headers_only().add_all(R, [101, 102, 103].map(receiver));
    set.add_all(S, shots.iter().copied()).add_all(X, relations.iter().copied())
}

/// A relation line of a shot, whose record has the shot's number.
fn line(point: u32) -> Line {
    relation().source(point).record(point)
}

/// 13: a relation line whose shot is killed.
fn named() -> Vec<Case> {
    let case = |name: &str, set: Set, n| both(name, set, refused(13, X, below(n), 14));
    let (s, k) = (shot, |point| dead(shot(point)));
    let index_2 = |x: Line| x.source_index("2");
    let twins = |x: Line| with(&[s(501), k(501).index("2")], &[line(501), x]);
    [
        case("the shot, named", killed_shot_named(), 1),
        case("the second shot, named", killed_shot().add(X, line(502)), 2),
        case("the first of two, named", with(&[k(501), s(502)], &[line(501), line(502)]), 1),
        case("both, named", with(&[k(501), k(502)], &[line(501), line(502)]), 1),
        case("named twice", with(&[s(501), k(502)], &[line(501), line(502), line(502)]), 2),
        case(
            "the third of three, named",
            with(&[s(501), s(502), k(503)], &[line(501), line(502), line(503)]),
            3,
        ),
        case(
            "one between, named last",
            with(&[s(501), k(502), s(503)], &[line(501), line(503), line(502)]),
            3,
        ),
        case("of index 2, named", twins(index_2(line(502).source(501))), 2),
        case("with leading zeros, named", killed_shot_named().put(X, first(), 30, "00000501"), 1),
        case("with a blank index, named", killed_shot_named().put(X, first(), 38, " "), 1),
        case(
            "in the record of another",
            killed_shot().add(X, relation().source(502).channels(4, 4).receivers(103, 103)),
            2,
        ),
        both(
            "of index 2, not named",
            with(&[s(501), k(501).index("2")], &[line(501)]),
            accepted(3, 2, 1, 3),
        ),
        both(
            "of index 1, index 2 named",
            with(&[k(501), s(501).index("2")], &[index_2(line(501))]),
            accepted(3, 2, 1, 3),
        ),
        both(
            "of another name, not named",
            with(&[s(501), k(501).name("L 1")], &[line(501)]),
            accepted(3, 2, 1, 3),
        ),
    ]
    .concat()
}

/// 15 is not given for a killed shot, and is for another.
fn not_named() -> Vec<Case> {
    let (s, k) = (shot, |point| dead(shot(point)));
    let lines = [line(501), line(502)];
    let fine = |name: &str, shots: &[Line], relations: &[Line]| {
        let counts = [shots.len(), relations.len()].map(|count| count as u64);
        both(name, with(shots, relations), accepted(3, counts[0], counts[1], 3 * counts[1]))
    };
    let no = |name: &str, shots: &[Line], relations: &[Line], n| {
        both(name, with(shots, relations), refused(15, S, below(n), 1))
    };
    let many: Vec<Line> = (1..=500).map(k).chain([s(501)]).collect();
    [
        both("the second shot", killed_shot(), accepted(3, 2, 1, 3)),
        fine("the first shot", &[k(500), s(501)], &lines[..1]),
        fine("between two shots", &[s(501), k(600), s(502)], &lines),
        fine("before, between and behind", &[k(1), s(501), k(2), s(502), k(3)], &lines),
        fine("no other shot", &[k(501)], &[]),
        fine("no other of three", &[k(501), k(502), k(503)], &[]),
        fine("500 before", &many, &lines[..1]),
        both("no shot is named, no H700", without(with(&[k(501)], &[]), 700), accepted(3, 1, 0, 0)),
        no("15: behind a killed shot", &[s(501), k(600), s(502)], &lines[..1], 3),
        no("15: before a killed shot", &[s(501), s(502), k(600)], &lines[..1], 2),
        no("15: alone with a killed shot", &[k(600), s(501)], &[], 2),
        no("15: before any killed shot", &[s(501), k(600)], &[], 1),
    ]
    .concat()
}

/// 11: a killed shot has its time.
fn in_time() -> Vec<Case> {
    let (early, late) = ("071244", "071246");
    let k = |time: &str| dead(shot(600)).time(time);
    let behind = |time: &str| with(&[shot(501), k(time)], &[line(501)]);
    let before = |time: &str| with(&[k(time), shot(501)], &[line(501)]);
    let between = |time: &str| with(&[shot(501), k(time), shot(502)], &[line(501), line(502)]);
    [
        both("11: earlier", behind(early), refused(11, S, below(2), 72)),
        both("11: later", behind(late), accepted(3, 2, 1, 3)),
        both("11: a shot earlier than it", before(late), refused(11, S, below(2), 72)),
        both("11: a shot later than it", before(early), accepted(3, 2, 1, 3)),
        both("11: earlier, between", between(early), refused(11, S, below(2), 72)),
        both("11: later, between", between(late), refused(11, S, below(3), 72)),
        both("11: at the same time, between", between("071245"), accepted(3, 3, 2, 6)),
        both(
            "11: a day earlier",
            with(&[shot(501), k("235959").day(112)], &[line(501)]),
            refused(11, S, below(2), 72),
        ),
    ]
    .concat()
}

/// 12: a killed shot has its place.
fn repeated() -> Vec<Case> {
    let (s, k) = (shot, |point| dead(shot(point)));
    let again = |name: &str, shots: &[Line], n| {
        both(&format!("12: {name}"), with(shots, &[line(501)]), refused(12, S, below(n), 2))
    };
    [
        again("a shot, killed", &[s(501), k(501)], 2),
        again("a killed shot, alive", &[k(501), s(501)], 2),
        again("a killed shot, killed", &[s(501), k(502), k(502)], 3),
        again("a killed shot, killed, far below", &[k(502), s(501), k(503), k(502)], 4),
        again("with a blank index", &[s(501), k(501).index(" ")], 2),
        again("with leading zeros", &[s(501), k(501).at(18, "00000501")], 2),
        again("on a later day", &[s(501), k(501).day(200)], 2),
    ]
    .concat()
}

/// 13 of a killed shot stands where 13 does.
fn two_faults() -> Vec<Case> {
    let (s, k) = (shot, |point| dead(shot(point)));
    let three = [s(501), k(502), s(503)];
    let refused_with = |name: &str, set: Set, number, n, column| {
        both(name, set, refused(number, X, below(n), column))
    };
    let back = with(&[k(501), s(502)], &[line(502), line(501)]);
    let beside = with(&three, &[line(501), line(503), line(501).record(1)]);
    let missing = line(502).receivers(201, 203);
    [
        refused_with("13 and 14 in a line", back, 13, 2, 14),
        refused_with("14 beside a killed shot", beside, 14, 3, 14),
        refused_with(
            "13 and 16 in a line",
            with(&three, &[line(501), line(503), line(502).record(501)]),
            13,
            3,
            14,
        ),
        refused_with(
            "13 and 17 in a line",
            with(&three, &[line(501), line(502).record(501)]),
            13,
            2,
            14,
        ),
        refused_with("13 and 18 in a line", with(&three, &[line(501), missing]), 13, 2, 14),
        refused_with("18 above 13", with(&three, &[missing.source(501), line(502)]), 18, 1, 64),
        refused_with("13 and 15", with(&three, &[line(501), line(502)]), 13, 2, 14),
        refused_with("13 above another 13", with(&three, &[line(502), line(900)]), 13, 1, 14),
        refused_with("13 above a killed one's", with(&three, &[line(900), line(502)]), 13, 1, 14),
        both(
            "12 and 13",
            with(&[s(501), k(502), k(502)], &[line(501), line(502)]),
            refused(12, S, below(3), 2),
        ),
        both(
            "25 and 13",
            killed_shot_named().put(X, first(), 13, "2"),
            refused(25, X, first(), 13),
        ),
        both(
            "10 and 13",
            killing(killed_shot_named(), &[3]).edit(R, below(3), |r| r.point(1)),
            refused(10, R, below(3), 2),
        ),
    ]
    .concat()
}
