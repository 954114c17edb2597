//! 24: first records that name a code again, and lines that name none.

use super::{begin_none, kinds, with};
use crate::line::{header_with, Line};
use crate::place::{first, header_line};
use crate::table::write::{as_a, check, refused};
use crate::File::R;
use crate::{header, set_a, Case};

pub fn cases() -> Vec<Case> {
    [again(), others(), no_codes(), beside(), first_repeat()].concat()
}

/// Set A's codes again, by each of the first records.
fn again() -> Vec<Case> {
    let mut cases = Vec::new();
    for kind in kinds() {
        for &number in &kind.first_records {
            cases.push(check(
                format!("24: {} again in H{number}", kind.code),
                with(set_a(), &[header_with(number, kind.code)]),
                refused(24, R, first(), 33),
            ));
        }
    }
    cases
}

/// The same codes in lines that begin no table of their kind, and other codes in those that do.
fn others() -> Vec<Case> {
    let mut cases = Vec::new();
    for kind in kinds() {
        for line in begin_none(&kind) {
            let start = String::from_utf8_lossy(&line.0[..4]).into_owned();
            let name = format!("24: {} in `{start}`", kind.code);
            cases.push(check(name, with(set_a(), &[line]), as_a()));
        }
        for &number in &kind.first_records {
            let name = format!("24: {} in H{number}", kind.other);
            cases.push(check(name, with(set_a(), &[header_with(number, kind.other)]), as_a()));
        }
    }
    cases
}

/// What is no code of the kind names nothing, so that it is not named twice.
fn no_codes() -> Vec<Case> {
    let texts = [
        (400, "  | 1|1 |1.|0,|,1|11|a,|:,|/,|PM|KL|G1|V1"),
        (600, "  | G|G |G0|g1|1G|GG|G:|G/|F1|I1|Q1|S1|PM|KL|pm|P1|K1|V1|1,"),
        (700, "  | V|V |V0|v1|1V|VV|V:|V/|B1|D1|T1|X1|R1|PM|KL|kl|L1|M1|G1|1,"),
    ];
    let mut cases = Vec::new();
    for (number, texts) in texts {
        for text in texts.split('|') {
            let line = header(number).at(33, text);
            let name = format!("24: `{text}` twice in H{number}");
            cases.push(check(name, with(set_a(), &[line, line]), as_a()));
        }
    }
    cases
}

/// Columns 5 to 32 and 35 to 80 are not read, and no other column holds the code.
fn beside() -> Vec<Case> {
    let full = |line: Line| line.at(5, &"G".repeat(28)).at(35, &"1".repeat(46));
    let again = |name: &str, line| {
        check(format!("24: {name}"), with(set_a(), &[line]), refused(24, R, first(), 33))
    };
    let none =
        |name: &str, line: Line| check(format!("24: {name}"), with(set_a(), &[line]), as_a());
    vec![
        again("G1 among text", full(header_with(600, "G1"))),
        again("V1 among text", full(header_with(740, "V1"))),
        again("1 among text", full(header_with(420, "1"))),
        again("G1 before a comma", header_with(630, "G1,SM4;")),
        none("G1 in column 32", header(600).at(32, "G1")),
        none("G1 in column 34", header(600).at(34, "G1")),
        none("G1 in column 35", header(600).at(33, "  G1")),
        none("V1 in column 5", header(700).at(5, "V1")),
        none("1 in column 34", header(400).at(34, "1,")),
    ]
}

/// The first header line that names a code of an earlier one, used or not.
fn first_repeat() -> Vec<Case> {
    let line = header_with;
    let case = |name: &str, lines: &[Line], at: usize| {
        check(format!("24: {name}"), with(set_a(), lines), refused(24, R, first() + at, 33))
    };
    let at_the_top = |text: Line, below| {
        set_a().each(|set, file| set.insert(file, 1, text).insert(file, 1, below))
    };
    let before = |number, code| at_the_top(line(number, code), header(26));
    let [of_400, of_600, of_700] = [400, 600, 700].map(header_line);
    vec![
        case("a code that is not used", &[line(610, "G2"), line(620, "G2")], 1),
        case("a code that is not used, in one table", &[line(610, "H9"), line(610, "H9")], 1),
        case("a source that is not used", &[line(720, "W3"), line(860, "W3")], 1),
        case("an instrument that is not used", &[line(420, "9"), line(400, "9")], 1),
        case("three times", &[line(610, "G2"), line(610, "G2"), line(610, "G2")], 1),
        case("two codes", &[line(610, "G2"), line(720, "V2"), line(740, "V2"), line(620, "G2")], 2),
        case("lines between", &[line(610, "G2"), header(611), header(26), line(690, "G2")], 3),
        check("24: G1 above set A's", before(650, "G1"), refused(24, R, of_600 + 2, 33)),
        check("24: V1 above set A's", before(700, "V1"), refused(24, R, of_700 + 2, 33)),
        check("24: 1 above set A's", before(560, "1"), refused(24, R, of_400 + 2, 33)),
        check(
            "24: the same digits of all kinds",
            with(set_a(), &[line(600, "R2"), line(700, "S2"), line(400, "2"), line(600, "G2")]),
            as_a(),
        ),
    ]
}
