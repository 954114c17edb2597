//! Two faults in one set, at least one of them of 1 to 9, 24 or 25: the one that is
//! looked for first is given.

use super::code_tables::with;
use super::write::{check, refused};
use crate::line::{header, header_with, marker, receiver, relation, shot};
use crate::place::{below, first, header_line, last_header};
use crate::File::{R, S, X};
use crate::{set_a, Case, Set};

pub fn cases() -> Vec<Case> {
    [form(), lines(), files(), headers(), tables(), codes()].concat()
}

/// 1 to 6 within a file, 3 to 6 in one line.
fn form() -> Vec<Case> {
    let long = || set_a().add_all(R, vec![marker(R); 10_000 - set_a().lines(R)]);
    let a = set_a;
    vec![
        check("1 and 2", long().over(R, 1), refused(1, R, 10_000, 0)),
        check("1 and 3", a().over(R, 1).byte(R, 1, 1, 0), refused(1, R, below(4), 0)),
        check("2 and 3", long().byte(R, 1, 1, 0), refused(2, R, 10_000, 0)),
        check("2 and 4", long().put(R, 1, 1, "Q"), refused(2, R, 10_000, 0)),
        check(
            "3 and 4 in a line",
            a().byte(R, below(2), 81, 0).put(R, below(2), 1, "Q"),
            refused(3, R, below(2), 81),
        ),
        check(
            "3 and 5 in a line",
            a().byte(S, first(), 82, 0).put(S, first(), 2, " "),
            refused(3, S, first(), 82),
        ),
        check(
            "3 and 6 in a line",
            a().byte(X, first(), 80, 0).put(X, first(), 39, "   9"),
            refused(3, X, first(), 80),
        ),
        check("4 and 5 in a line", a().put(R, below(2), 1, "Q "), refused(4, R, below(2), 1)),
        check(
            "4 and 5 in a late H line",
            a().add(S, header(26).at(2, "A")),
            refused(4, S, below(2), 1),
        ),
        check(
            "5 and 6 in a line",
            a().put(X, first(), 39, "   9").put(X, first(), 80, "0"),
            refused(5, X, first(), 80),
        ),
        check(
            "5 twice in a line",
            a().put(R, below(2), 75, "x").put(R, below(2), 33, "x"),
            refused(5, R, below(2), 33),
        ),
        check(
            "5 in code and point",
            a().put(R, below(2), 18, "x").put(R, below(2), 27, "V1"),
            refused(5, R, below(2), 18),
        ),
    ]
}

/// All of a line before the line below.
fn lines() -> Vec<Case> {
    let a = set_a;
    let odd_relation = || a().add(X, relation()).put(X, first(), 47, "2");
    vec![
        check(
            "4 above 3",
            a().put(R, first(), 1, "Q").byte(R, below(2), 1, 0),
            refused(4, R, first(), 1),
        ),
        check(
            "5 above 3",
            a().put(R, first(), 80, "x").byte(R, below(2), 1, 0),
            refused(5, R, first(), 75),
        ),
        check(
            "5 above 4",
            a().put(R, first(), 80, "x").put(R, below(2), 1, "Q"),
            refused(5, R, first(), 75),
        ),
        check("6 above 3", odd_relation().byte(X, below(2), 1, 0), refused(6, X, first(), 47)),
        check("6 above 5", odd_relation().put(X, below(2), 2, " "), refused(6, X, first(), 47)),
        check(
            "3 above 5",
            a().byte(R, first(), 82, 0).put(R, below(2), 2, " "),
            refused(3, R, first(), 82),
        ),
    ]
}

/// The form of R before that of S, of S before that of X, of all before 7.
fn files() -> Vec<Case> {
    let late_r = || set_a().put(R, below(3), 80, "x");
    let late_s = || set_a().put(S, first(), 80, "x");
    let odd_x = || set_a().put(X, first(), 47, "2");
    vec![
        check("5 in R, 1 in S", late_r().over(S, 1), refused(5, R, below(3), 75)),
        check("5 in R, 1 in X", late_r().over(X, 1), refused(5, R, below(3), 75)),
        check("5 in S, 1 in X", late_s().over(X, 1), refused(5, S, first(), 75)),
        check("5 in S, 3 in X", late_s().byte(X, 1, 1, 0), refused(5, S, first(), 75)),
        check("5 in R, no H00", late_r().remove(R, 1), refused(5, R, below(2), 75)),
        check("1 in X, no H00", set_a().over(X, 1).remove(R, 1), refused(1, X, below(2), 0)),
        check("6 in X, no H00", odd_x().remove(R, 1), refused(6, X, first(), 47)),
        check("6 in X, R empty", odd_x().cut(R, 0), refused(6, X, first(), 47)),
    ]
}

/// 7, 8, 9 in S, 9 in X, then 10.
fn headers() -> Vec<Case> {
    let no_projection = || set_a().put(R, header_line(18), 33, "N/A ");
    let s_differs = || set_a().put(S, last_header(), 80, "a");
    let x_differs = || set_a().put(X, 1, 5, "a");
    let unsorted = |set: Set| set.edit(R, below(2), |r| r.point(101));
    vec![
        check(
            "7 and 8",
            no_projection().remove(R, header_line(20)),
            refused(7, R, last_header(), 0),
        ),
        check("7 and 9", s_differs().remove(R, 1), refused(7, R, last_header(), 0)),
        check("8 and 9", no_projection(), refused(8, R, header_line(18), 33)),
        check(
            "8 and 9 in an earlier line",
            no_projection().put(S, 1, 5, "a"),
            refused(8, R, header_line(18), 33),
        ),
        check("9 in S and in X", s_differs().put(X, 1, 5, "a"), refused(9, S, last_header(), 80)),
        check(
            "9 in S's length and in X",
            x_differs().remove(S, last_header()),
            refused(9, S, last_header(), 0),
        ),
        check("9 in S and 10", unsorted(s_differs()), refused(9, S, last_header(), 80)),
        check("9 in X and 10", unsorted(x_differs()), refused(9, X, 1, 5)),
        check("8 and 10", unsorted(no_projection()), refused(8, R, header_line(18), 33)),
        check("7 and 10", unsorted(set_a()).remove(R, 1), refused(7, R, last_header(), 0)),
    ]
}

/// 24 after 7 to 9, and before all that uses the codes.
fn tables() -> Vec<Case> {
    let again = |set: Set| with(set, &[header_with(690, "G1")]);
    let a = set_a;
    let case = |name: &str, set: Set, number, file, line, column| {
        check(format!("24 and {name}"), set, refused(number, file, line, column))
    };
    let h20 = |set: Set| set.each(|set, file| set.remove(file, header_line(20)));
    let h18 = |set: Set| set.each(|set, file| set.put(file, header_line(18), 33, "N/A "));
    let r_alone = a().insert(R, first(), header_with(690, "G1"));
    let early = again(a()).add(S, shot(502).day(1));
    let line = first() + 1;
    vec![
        case("5", again(a().put(X, first(), 80, "0")), 5, X, line, 80),
        case("6", again(a().edit(X, first(), |x| x.channels(1, 4))), 6, X, line, 72),
        case("7", h20(again(a())), 7, R, first(), 0),
        case("8", h18(again(a())), 8, R, header_line(18), 33),
        case("9 of S", again(a()).put(S, 1, 5, "a"), 9, S, 1, 5),
        case("9 of X", again(a()).put(X, first(), 80, "a"), 9, X, first(), 80),
        case("9, in R alone", r_alone, 9, S, first(), 0),
        case("25 of R", again(a().edit(R, first(), |r| r.code("G2"))), 24, R, first(), 33),
        case("25 of S", again(a().edit(S, first(), |s| s.code("V2"))), 24, R, first(), 33),
        case("25 of X", again(a().edit(X, first(), |x| x.instrument("2"))), 24, R, first(), 33),
        case("10", again(a().add(R, receiver(1))), 24, R, first(), 33),
        case("11", early, 24, R, first(), 33),
        case("15", again(a().add(S, shot(502))), 24, R, first(), 33),
        case("18", again(a()).remove(R, line), 24, R, first(), 33),
    ]
}

/// 25 over R, then S, then X, then 10.
fn codes() -> Vec<Case> {
    let r = |set: Set| set.edit(R, below(3), |r| r.code("G2"));
    let s = |set: Set| set.edit(S, first(), |s| s.code("V2"));
    let x = |set: Set| set.edit(X, first(), |x| x.instrument("2"));
    let of_r = |name: &str, set| check(name, set, refused(25, R, below(3), 27));
    let of_s = |name: &str, set| check(name, set, refused(25, S, first(), 27));
    let of_x = |name: &str, set| check(name, set, refused(25, X, first(), 13));
    let a = set_a;
    let unsorted = |set: Set| set.edit(R, below(2), |r| r.point(101));
    let covered_twice = a().add(X, relation().channels(4, 4).receivers(103, 103));
    vec![
        of_r("25 of R and S", s(r(a()))),
        of_r("25 of R and X", x(r(a()))),
        of_s("25 of S and X", x(s(a()))),
        of_r("25 of all", x(s(r(a())))),
        check("9 and 25", r(a()).put(X, 1, 5, "a"), refused(9, X, 1, 5)),
        check("6 and 25", r(a()).put(X, first(), 47, "2"), refused(6, X, first(), 47)),
        of_r("25 of R and 10", unsorted(r(a()))),
        of_s("25 of S and 10", unsorted(s(a()))),
        of_x("25 of X and 10", unsorted(x(a()))),
        of_x("25 of X and 11", x(a()).add(S, shot(502).day(1))),
        of_x("25 of X and 12", x(a()).add(S, shot(501))),
        of_x("25 of X and 13", x(a()).edit(X, first(), |x| x.source(900))),
        of_x("25 of X and 15", x(a()).add(S, shot(502))),
        of_x("25 of X and 18", x(a()).remove(R, below(2))),
        of_x("25 of X and 19", x(covered_twice)),
        check(
            "25 of X and 16 in a line",
            a().add(X, relation().channels(4, 4).receivers(103, 103).instrument("2")),
            refused(25, X, below(2), 13),
        ),
    ]
}
