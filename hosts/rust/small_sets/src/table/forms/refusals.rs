//! The first breach of 1 to 6 and 29, in the kind's file.

use super::form;
use crate::line::{header, receiver, shot};
use crate::place::{after, below, first};
use crate::table::files::long;
use crate::table::tapes::tape;
use crate::table::write::refused;
use crate::tape::end;
use crate::File::{self, R, S, X};
use crate::{set_a, Answer, Case, Medium, Set};

pub fn cases() -> Vec<Case> {
    [lengths(), lines(), of_another_kind(), ends(), of_another_medium()].concat()
}

/// 1 and 2.
fn lengths() -> Vec<Case> {
    let mut cases = Vec::new();
    for file in File::ALL {
        let case = |name, set, expected| form(name, set, file, file, expected);
        let many = long(file, 10_000);
        cases.extend([
            case("81 bytes", set_a().cut(file, 81), refused(1, file, 1, 0)),
            case("a byte over", set_a().over(file, 1), refused(1, file, after(file), 0)),
            case("9999 lines", long(file, 9_999), Answer::Formed),
            case("10000 lines", many.clone(), refused(2, file, 10_000, 0)),
            case("10000 lines and a byte", many.over(file, 1), refused(1, file, 10_000, 0)),
        ]);
    }
    cases
}

/// 3 to 6, line by line.
fn lines() -> Vec<Case> {
    let a = set_a;
    let own = |name, set, file, (number, line, column)| {
        form(name, set, file, file, refused(number, file, line, column))
    };
    let no_cr = a().put(R, below(2), 1, "Q").byte(R, below(2), 81, 0);
    vec![
        own("no LF", a().byte(R, below(2), 82, 13), R, (3, below(2), 82)),
        own("a byte", a().byte(S, first(), 40, 127), S, (3, first(), 40)),
        own("a byte in the header", a().byte(X, 2, 60, 0), X, (3, 2, 60)),
        own("a late H line", a().add(R, header(26)), R, (4, after(R), 1)),
        own("a shot among receivers", a().add(R, shot(104)), R, (4, after(R), 1)),
        own("a receiver among shots", a().add(S, receiver(502)), S, (4, after(S), 1)),
        own("a shot among relations", a().insert(X, first(), shot(501)), X, (4, first(), 1)),
        own("a source's code", a().put(R, below(2), 27, "V1"), R, (5, below(2), 27)),
        own("a receiver's code", a().put(S, first(), 27, "G1"), S, (5, first(), 27)),
        own("a blank name", a().put(X, first(), 14, " L1"), X, (5, first(), 14)),
        own("a header type", a().put(S, 4, 2, "A1"), S, (5, 4, 2)),
        own("channels 1-4", a().put(X, first(), 43, "   4"), X, (6, first(), 72)),
        own("increment 2", a().put(X, first(), 47, "2"), X, (6, first(), 47)),
        own("channels 3-1", a().put(X, first(), 39, "   3   1"), X, (6, first(), 39)),
        own("1 before 3", a().byte(X, 1, 1, 0).over(X, 1), X, (1, after(X), 0)),
        own("3 before 4", no_cr, R, (3, below(2), 81)),
        own("5 above 3", a().put(S, 4, 2, "A1").byte(S, first(), 1, 0), S, (5, 4, 2)),
    ]
}

/// Breaches before the 4 of the first line with another letter, and after it.
fn of_another_kind() -> Vec<Case> {
    let a = set_a;
    let (in_first, in_second) = (a().byte(R, first(), 40, 0), a().byte(R, below(2), 40, 0));
    vec![
        form("81 bytes", a().cut(R, 81), R, S, refused(1, S, 1, 0)),
        form("81 bytes", a().cut(S, 81), S, X, refused(1, X, 1, 0)),
        form("10000 lines", long(X, 10_000), X, R, refused(2, R, 10_000, 0)),
        form("a byte in the header", a().byte(R, 2, 60, 0), R, X, refused(3, X, 2, 60)),
        form("a byte in the first line", in_first, R, S, refused(3, S, first(), 40)),
        form("a byte in the second line", in_second, R, S, refused(4, S, first(), 1)),
        form("a header type", a().put(X, 4, 2, "A1"), X, S, refused(5, S, 4, 2)),
        form("a receiver's code", a().put(S, first(), 27, "G1"), S, R, refused(4, R, first(), 1)),
        form("channels 1-4", a().put(X, first(), 43, "   4"), X, R, refused(4, R, first(), 1)),
    ]
}

/// 29 after 1 and before 3 to 6, on tape.
fn ends() -> Vec<Case> {
    let a = || tape(set_a());
    let mut cases = Vec::new();
    for file in File::ALL {
        let last = after(file);
        let garbled = a().remove(file, last).byte(file, 1, 1, 0);
        for kind in [file, if file == R { S } else { R }] {
            cases.extend([
                form("79 bytes on tape", a().cut(file, 79), file, kind, refused(1, kind, 1, 0)),
                form("no EOF", a().remove(file, last), file, kind, refused(29, kind, last, 0)),
                form("two EOF", a().add(file, end()), file, kind, refused(29, kind, last + 1, 0)),
                form("a byte and no EOF", garbled.clone(), file, kind, refused(29, kind, last, 0)),
            ]);
        }
    }
    cases
}

/// A disc as a tape, and a tape as a disc.
fn of_another_medium() -> Vec<Case> {
    let mut cases = Vec::new();
    for (name, set, medium) in [
        ("a disc as a tape", set_a(), Medium::Tape),
        ("a tape as a disc", tape(set_a()), Medium::Disc),
    ] {
        let line = set.r.len() / medium.width() + 1;
        cases.push(form(name, Set { medium, ..set }, R, R, refused(1, R, line, 0)));
    }
    cases
}
