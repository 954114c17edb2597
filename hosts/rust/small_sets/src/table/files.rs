//! 1 to 4: lengths, limits, bytes and letters.

use super::write::{accepted, as_a, check, refused};
use crate::line::{header, marker, receiver, relation, shot};
use crate::place::{after, below, first, most_below};
use crate::File::{self, R, S, X};
use crate::{headers_only, set_a, Case, Set};

pub fn cases() -> Vec<Case> {
    [lengths(), empty(), limits(), bytes(), letters()].concat()
}

/// 1: every length that is no multiple of 82.
fn lengths() -> Vec<Case> {
    let mut cases = Vec::new();
    for file in File::ALL {
        let letter = file.letter();
        for bytes in 1..=81 {
            cases.push(check(
                format!("{letter} with {bytes} bytes over"),
                set_a().over(file, bytes),
                refused(1, file, after(file), 0),
            ));
        }
        for (bytes, line) in [(1, 1), (81, 1), (83, 2), (163, 2), (165, 3)] {
            cases.push(check(
                format!("{letter} cut to {bytes} bytes"),
                set_a().cut(file, bytes),
                refused(1, file, line, 0),
            ));
        }
    }
    cases
}

/// Files of no line are well formed.
fn empty() -> Vec<Case> {
    let all = set_a().each(|set, file| set.cut(file, 0));
    vec![
        check("R empty", set_a().cut(R, 0), refused(7, R, 1, 0)),
        check("S empty", set_a().cut(S, 0), refused(9, S, 1, 0)),
        check("X empty", set_a().cut(X, 0), refused(9, X, 1, 0)),
        check("all empty", all, refused(7, R, 1, 0)),
    ]
}

/// Set A with markers or receivers added up to a number of lines of one file.
pub fn long(file: File, lines: usize) -> Set {
    let set = set_a();
    let missing = lines - set.lines(file);
    match file {
        R => set.add_all(R, (104..).map(receiver).take(missing)),
        S => set.add_all(S, vec![marker(S); missing]),
        X => set.add_all(X, (12..).map(|n| relation().record(n)).take(missing)),
    }
}

/// Header blocks alone, of a number of lines each.
fn long_headers(lines: usize) -> Set {
    headers_only().each(|set, file| {
        let missing = lines - set.lines(file);
        set.add_all(file, vec![header(26); missing])
    })
}

/// 2, and 1 near and beyond the limit.
fn limits() -> Vec<Case> {
    let most = most_below() as u64;
    let mut cases = vec![
        check("R of 9999 lines", long(R, 9_999), accepted(most, 1, 1, 3)),
        check("S of 9999 lines", long(S, 9_999), as_a()),
        check("X of 9999 lines", long(X, 9_999), accepted(3, 1, most, 3 * most)),
        check("9999 header lines", long_headers(9_999), accepted(0, 0, 0, 0)),
        check("10000 header lines", long_headers(10_000), refused(2, R, 10_000, 0)),
        check("R of 9998 lines and a byte", long(R, 9_998).over(R, 1), refused(1, R, 9_999, 0)),
    ];
    for file in [R, S] {
        let letter = file.letter();
        for lines in [10_000, 10_001] {
            cases.push(check(
                format!("{letter} of {lines} lines"),
                long(file, lines),
                refused(2, file, 10_000, 0),
            ));
        }
        for lines in [9_999, 10_000, 10_001] {
            cases.push(check(
                format!("{letter} of {lines} lines and 81 bytes"),
                long(file, lines).over(file, 81),
                refused(1, file, 10_000, 0),
            ));
        }
    }
    let x = long(X, 10_000);
    cases.push(check("X of 10000 lines", x.clone(), refused(2, X, 10_000, 0)));
    cases.push(check("X of 10000 lines and a byte", x.over(X, 1), refused(1, X, 10_000, 0)));
    cases
}

/// 3: the lowest bad column of 1 to 82.
fn bytes() -> Vec<Case> {
    let mut cases = Vec::new();
    for column in 1..=82 {
        for (file, line) in [(R, below(2)), (S, first()), (X, first()), (X, 1)] {
            let letter = file.letter();
            cases.push(check(
                format!("byte 127 in {letter} {line} {column}"),
                set_a().byte(file, line, column, 127),
                refused(3, file, line, column),
            ));
        }
    }
    for byte in [0, 9, 10, 13, 31, 127, 128, 160, 255] {
        cases.push(check(
            format!("byte {byte} in a header's free columns"),
            set_a().byte(R, 2, 60, byte),
            refused(3, R, 2, 60),
        ));
        cases.push(check(
            format!("byte {byte} in a marker's free columns"),
            set_a().add(R, marker(R)).byte(R, after(R), 20, byte),
            refused(3, R, after(R), 20),
        ));
    }
    let ends = set_a().each(|set, file| set.put(file, 5, 40, " ~").put(file, 5, 80, "~"));
    let two = set_a().byte(S, first(), 40, 31).byte(S, first(), 39, 127);
    let swapped = set_a().byte(R, below(3), 81, 10).byte(R, below(3), 82, 13);
    cases.extend([
        check("bytes 32 and 126 in a header", ends, as_a()),
        check("two bad bytes in a line", two, refused(3, S, first(), 39)),
        check("LF before CR", swapped, refused(3, R, below(3), 81)),
        check("blank for CR", set_a().byte(X, first(), 81, 32), refused(3, X, first(), 81)),
        check("blank for LF", set_a().byte(X, first(), 82, 32), refused(3, X, first(), 82)),
        check("CR twice", set_a().byte(X, first(), 82, 13), refused(3, X, first(), 82)),
    ]);
    cases
}

/// 4: column 1.
fn letters() -> Vec<Case> {
    let mut cases = Vec::new();
    for (file, line) in [(R, below(2)), (S, first()), (X, first())] {
        for letter in ["R", "S", "X", "C", "h", "r", "s", "x", " ", "1"] {
            if letter != file.letter() {
                cases.push(check(
                    format!("letter `{letter}` in {file:?}"),
                    set_a().put(file, line, 1, letter),
                    refused(4, file, line, 1),
                ));
            }
        }
        cases.push(check(
            format!("an H line at the end of {file:?}"),
            set_a().add(file, header(26)),
            refused(4, file, after(file), 1),
        ));
    }
    let data_first = set_a().insert(S, 1, shot(501));
    let between = set_a().insert(R, below(3), header(21));
    let after_marker = headers_only().add(R, marker(R)).add(R, header(26));
    let letter_in_block = set_a().put(X, 1, 1, "E");
    let Set { medium, r, s, x } = set_a();
    let exchanged = Set { medium, r: s, s: r, x };
    cases.extend([
        check("data before the header", data_first, refused(4, S, 2, 1)),
        check("an H line between receivers", between, refused(4, R, below(3), 1)),
        check("an H line after a marker", after_marker, refused(4, R, below(2), 1)),
        check("another letter in the header block", letter_in_block, refused(4, X, 1, 1)),
        check("R and S exchanged", exchanged, refused(4, R, first(), 1)),
    ]);
    cases
}
