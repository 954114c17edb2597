//! Marker lines (PM): what is checked in them, and that they are no points. `decimals` has
//! their columns 47 to 71.

use super::write::{accepted, as_a, check, refused};
use crate::line::{marker, receiver, shot};
use crate::place::{after, below, first};
use crate::File::{self, R, S, X};
use crate::{headers_only, set_a, Case, Line};

pub fn cases() -> Vec<Case> {
    [checked(), near(), free(), no_points()].concat()
}

/// Columns 2 and 26, and values other than those of set A.
fn checked() -> Vec<Case> {
    let bad = [(2, " "), (26, "0"), (26, "x")];
    let mut cases = Vec::new();
    for file in [R, S] {
        for (column, text) in bad {
            cases.push(check(
                format!("a marker in {file:?} with {column} `{text}`"),
                set_a().add(file, marker(file).at(column, text)),
                refused(5, file, after(file), column),
            ));
        }
        let good =
            marker(file).index(" ").at(47, "-123456.7").at(56, "-1234567.8").at(66, "-999.9");
        let name = format!("a marker in {file:?} with other values");
        cases.push(check(name, set_a().add(file, good), as_a()));
    }
    cases
}

/// Lines near to markers.
fn near() -> Vec<Case> {
    let with_code = |code| set_a().add(R, marker(R).code(code));
    vec![
        check("free text in a line of code `pm`", with_code("pm"), refused(5, R, after(R), 18)),
        check("free text in a line of code `P1`", with_code("P1"), refused(5, R, after(R), 18)),
        check("free text in a KL line", with_code("KL"), refused(5, R, after(R), 18)),
        check(
            "two faults in a marker",
            set_a().add(R, marker(R).index("0").at(66, "      ")),
            refused(5, R, after(R), 26),
        ),
        check(
            "PM in columns 27-28 of a relation line",
            set_a().put(X, first(), 27, "PM"),
            refused(13, X, first(), 14),
        ),
    ]
}

/// Columns 18 to 25, 29 to 46 and 72 to 80.
fn free() -> Vec<Case> {
    let fill = |file, letter: &str| {
        marker(file).at(18, &letter.repeat(8)).at(29, &letter.repeat(18)).at(72, &letter.repeat(9))
    };
    let mut cases = Vec::new();
    for file in [R, S] {
        for letter in [" ", "~", "-", "9", "+"] {
            cases.push(check(
                format!("a marker in {file:?} full of `{letter}`"),
                set_a().add(file, fill(file, letter)),
                as_a(),
            ));
        }
    }
    cases
}

/// The file's point line of set A turned into a marker of the same place.
fn turned(line: Line) -> Line {
    line.code("PM")
}

/// Markers are neither counted, sorted, dated, looked up nor named.
fn no_points() -> Vec<Case> {
    let at = |file: File, line| set_a().insert(file, line, marker(file));
    let only = headers_only().add(R, marker(R)).add(S, marker(S));
    let low_name = set_a().add(R, marker(R).name("A1"));
    let same_place = set_a().add(R, turned(receiver(101)));
    let same_shot = set_a().add(S, turned(shot(501)));
    let early = set_a().add(S, turned(shot(502)).day(1));
    let low_before = set_a().insert(R, below(2), turned(receiver(1)));
    let high_before = set_a().insert(R, below(2), turned(receiver(900)));
    vec![
        check("a marker before the receivers", at(R, first()), as_a()),
        check("a marker between the receivers", at(R, below(2)), as_a()),
        check("a marker after the receivers", at(R, after(R)), as_a()),
        check("a marker before the shot", at(S, first()), as_a()),
        check("a marker after the shot", at(S, after(S)), as_a()),
        check("markers only", only, accepted(0, 0, 0, 0)),
        check("a marker of a low name at the end", low_name, as_a()),
        check("a marker of a receiver's place", same_place, as_a()),
        check("a marker of a shot's place", same_shot, as_a()),
        check("a marker of an early day after the shot", early, as_a()),
        check("a marker of a low point between", low_before, as_a()),
        check("a marker of a high point between", high_before, as_a()),
    ]
}
