//! 25: codes and instruments that are used, and named or not.

use super::{begin_none, code_tables, kinds, unnamed_code, with, without};
use crate::line::{header_with, marker, receiver, relation, shot, Line};
use crate::place::{below, first};
use crate::table::write::{accepted, as_a, check, refused, with_dead};
use crate::File::{self, R, S, X};
use crate::{codes, header, headers_only, set_a, Answer, Case, Set};

pub fn cases() -> Vec<Case> {
    [each_code(), each_table(), nothing_named(), which(), none_used(), whole()].concat()
}

/// Every code but set A's, at each place that it may stand: not named, and named.
fn each_code() -> Vec<Case> {
    let instruments = (b'2'..=b'9').map(|digit| char::from(digit).to_string());
    let of = |file| {
        let text = |code: [u8; 2]| String::from_utf8_lossy(&code).into_owned();
        let named = |code: &String| !["G1", "V1", "PM", "KL"].contains(&code.as_str());
        codes(file).into_iter().map(text).filter(named).collect::<Vec<_>>()
    };
    let mut cases = Vec::new();
    for (file, line, column, codes) in
        [(R, below(3), 27, of(R)), (S, first(), 27, of(S)), (X, first(), 13, instruments.collect())]
    {
        for code in &codes {
            let set = set_a().put(file, line, column, code);
            let no = refused(25, file, line, column);
            cases.push(check(format!("25: {code} in {file:?}"), set.clone(), no));
            cases.push(check(
                format!("25: {code} in {file:?}, named"),
                set.naming(&[code]),
                as_a(),
            ));
        }
    }
    cases
}

/// What set A uses, named by each of the first records in place of its own, and by lines that
/// are none.
fn each_table() -> Vec<Case> {
    let mut cases = Vec::new();
    let places = [(R, 600, 27), (S, 700, 27), (X, 400, 13)];
    for (kind, (file, own, column)) in kinds().iter().zip(places) {
        let instead = |line: Line| {
            set_a().each(|set, of| {
                let at = crate::place::header_line(own);
                set.edit(of, at, |_| line)
            })
        };
        for &number in &kind.first_records {
            let name = format!("25: {} in H{number}", kind.code);
            cases.push(check(name, instead(header_with(number, kind.code)), as_a()));
        }
        for line in begin_none(kind) {
            let start = String::from_utf8_lossy(&line.0[..4]).into_owned();
            let name = format!("25: {} in `{start}`", kind.code);
            cases.push(check(name, instead(line), refused(25, file, first(), column)));
        }
        for text in ["PM", "KL", kind.other, "  ", "G2", "V2", "2,"] {
            let line = header_with(own, text);
            let name = format!("25: `{text}` in H{own}");
            cases.push(check(name, instead(line), refused(25, file, first(), column)));
        }
    }
    cases
}

/// Tables that are not there; a line less stands above the files' own.
fn nothing_named() -> Vec<Case> {
    let (line, none) = (first() - 1, |number| without(set_a(), number));
    let blank = |set: Set| set.edit(X, first(), |x| x.instrument(" "));
    let two_alone = without(blank(set_a()), 400)
        .each(|set, file| set.insert(file, line, header_with(400, "2")));
    vec![
        check("25: no H600", none(600), refused(25, R, line, 27)),
        check("25: no H700", none(700), refused(25, S, line, 27)),
        check("25: no H400", none(400), refused(25, X, line, 13)),
        check(
            "25: no H400, a blank instrument",
            without(blank(set_a()), 400),
            refused(25, X, line, 13),
        ),
        check("25: H400 of 2, a blank instrument", two_alone, refused(25, X, first(), 13)),
        check("25: H400 of 1, a blank instrument", blank(set_a()), as_a()),
        check("25: no H600, no receiver", without(headers_only(), 600), accepted(0, 0, 0, 0)),
        check("25: no H700, no shot", without(headers_only(), 700), accepted(0, 0, 0, 0)),
        check("25: no H400, no relation", without(headers_only(), 400), accepted(0, 0, 0, 0)),
        check(
            "25: no H400 and no H700, receivers alone",
            without(without(headers_only(), 700), 400).add(R, receiver(101)),
            accepted(1, 0, 0, 0),
        ),
    ]
}

/// The first of the lines that use what is not named; also receivers that no line covers.
fn which() -> Vec<Case> {
    let code = |set: Set, file, line, code: &str| set.put(file, line, 27, code);
    let r = |line| code(set_a(), R, line, "G2");
    let two = r(below(3)).edit(R, below(2), |r| r.code("H1"));
    let second_shot =
        set_a().add(S, shot(502).code("E1")).add(X, relation().source(502).record(12));
    let second_line = set_a().add(X, relation().record(12).instrument("2"));
    let of_record = set_a()
        .edit(X, first(), |x| x.channels(1, 1).receivers(101, 101).instrument("7"))
        .add(X, relation().channels(2, 3).receivers(102, 103));
    let uncovered = set_a().add(R, receiver(104).code("G2"));
    vec![
        check("25: the first receiver", r(first()), refused(25, R, first(), 27)),
        check("25: the second receiver", r(below(2)), refused(25, R, below(2), 27)),
        check("25: two receivers", two, refused(25, R, below(2), 27)),
        check("25: an uncovered receiver", uncovered.clone(), refused(25, R, below(4), 27)),
        check("25: an uncovered receiver, named", uncovered.naming(&["G2"]), accepted(4, 1, 1, 3)),
        check("25: the second shot", second_shot.clone(), refused(25, S, below(2), 27)),
        check("25: the second shot, named", second_shot.naming(&["E1"]), accepted(3, 2, 2, 6)),
        check("25: the second relation line", second_line.clone(), refused(25, X, below(2), 13)),
        check("25: both instruments, named", second_line.naming(&["2"]), accepted(3, 1, 2, 6)),
        check("25: the first line of a record", of_record, refused(25, X, first(), 13)),
    ]
}

/// Markers and killed points use no code.
fn none_used() -> Vec<Case> {
    let all = |set: Set, file: File, code: &str| {
        (first()..=set.lines(file)).fold(set, |set, line| set.put(file, line, 27, code))
    };
    let killed_r = all(set_a(), R, "KL");
    let killed_s = all(set_a(), S, "KL").remove(X, first());
    let markers = headers_only().add(R, marker(R)).add(S, marker(S));
    let no_points = without(without(markers, 700), 600);
    let named = |code: &str| with(set_a(), &[600, 700].map(|number| header(number).at(33, code)));
    vec![
        check("25: killed receivers, no H600", without(killed_r, 600), with_dead([3, 1, 1, 3], 3)),
        check("25: a killed shot, no H700", without(killed_s, 700), accepted(3, 1, 0, 0)),
        check("25: markers, no H600 and no H700", no_points, accepted(0, 0, 0, 0)),
        check("25: H600 and H700 of PM", named("PM"), as_a()),
        check("25: H600 and H700 of KL", named("KL"), as_a()),
    ]
}

/// A second H600 names its code too; on tape the same.
fn whole() -> Vec<Case> {
    let tape = |set: Set| set.on_tape().expect("characters of a tape");
    let second = || with(unnamed_code(), &[header_with(600, "G2")]);
    let case = |name: &str, set: Set, expected: Answer| {
        let on_tape = check(format!("25: {name}, on tape"), tape(set.clone()), expected.clone());
        [check(format!("25: {name}"), set, expected), on_tape]
    };
    let no_comma = set_a().each(|set, file| set.put(file, crate::place::header_line(400), 34, ";"));
    let again = with(set_a(), &[header_with(690, "G1")]);
    [
        case("G2 beside G1", unnamed_code(), refused(25, R, below(3), 27)),
        case("G2 in a second H600", second(), as_a()),
        case("no comma after 1", no_comma, refused(25, X, first(), 13)),
        case("two of each kind", code_tables(), accepted(3, 2, 2, 6)),
        case(
            "24 before it",
            with(unnamed_code(), &[header_with(690, "G1")]),
            refused(24, R, first(), 33),
        ),
        case("24 without it", again, refused(24, R, first(), 33)),
    ]
    .concat()
}
