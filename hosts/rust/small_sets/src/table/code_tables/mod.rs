//! The code tables of the header: what their first records name (24), that they name what is
//! used (25), and the line of a code.

mod asked;
mod names;
mod uses;

use crate::line::{header_with, relation, shot, Line};
use crate::place::{below, first, header_line};
use crate::File::{R, S, X};
use crate::{header, set_a, Case, Set};

pub fn cases() -> Vec<Case> {
    [names::cases(), uses::cases(), asked::cases()].concat()
}

/// A set with header lines put in below set A's own, in each of the three files.
pub fn with(set: Set, lines: &[Line]) -> Set {
    set.each(|set, file| lines.iter().rev().fold(set, |set, &line| set.insert(file, first(), line)))
}

/// A set without one of the header lines of set A, in each of the three files.
pub fn without(set: Set, number: usize) -> Set {
    set.each(|set, file| set.remove(file, header_line(number)))
}

/// A kind of codes: its letter, the numbers of its first records, the code that set A names,
/// and another one.
struct Kind {
    letter: char,
    first_records: Vec<usize>,
    code: &'static str,
    other: &'static str,
}

fn kinds() -> [Kind; 3] {
    let kind = |letter, first_records: &[usize], code, other| {
        let first_records = first_records.to_vec();
        Kind { letter, first_records, code, other }
    };
    [
        kind('R', &[600, 610, 620, 630, 640, 650, 660, 670, 680, 690], "G1", "R9"),
        kind('S', &[700, 720, 740, 760, 780, 800, 820, 840, 860, 880], "V1", "S9"),
        kind('X', &[400, 420, 440, 460, 480, 500, 520, 540, 560], "1", "9"),
    ]
}

/// Numbers of header lines near to those of first records, two digits with a blank after them
/// among them.
const NEAR: [usize; 36] = [
    40, 42, 56, 60, 61, 69, 70, 72, 88, 380, 390, 399, 400, 401, 410, 419, 430, 550, 561, 570, 580,
    590, 600, 601, 605, 609, 611, 691, 700, 701, 710, 719, 730, 881, 890, 900,
];

/// Header lines with set A's code of a kind that begin no table of it.
fn begin_none(kind: &Kind) -> impl Iterator<Item = Line> + '_ {
    let others = NEAR.into_iter().filter(|number| !kind.first_records.contains(number));
    others.map(|number| header_with(number, kind.code))
}

/// Set A with G2 for receiver 103, and a shot 502 of code E1 on instrument 2; the tables have
/// more lines, and one names a code that is not used.
pub fn code_tables() -> Set {
    let named = |number, code, text: &str| header_with(number, code).at(35, text);
    let set = set_a()
        .edit(R, below(3), |r| r.code("G2"))
        .add(S, shot(502).code("E1"))
        .add(X, relation().source(502).record(12).instrument("2"));
    let lines = [
        header(401).at(5, "Instrument").at(33, "1,24 bit;"),
        named(420, "2", "16 bit;"),
        header(601).at(5, "Receiver").at(33, "G1,string of 12;"),
        named(610, "G2", ",marsh case;"),
        named(620, "H1", ",deep water;"),
        header(701).at(5, "Source").at(33, "V1,4 vibrators;"),
        named(720, "E1", ",2 kg;"),
    ];
    with(set, &lines)
}

/// Set A with a code that no table names.
pub fn unnamed_code() -> Set {
    set_a().edit(R, below(3), |r| r.code("G2"))
}
