//! Tapes: 29, and what differs from the disc in 1, 2, 3 and 10.

use super::write::{
    accepted, as_a, ask, channel, check, comes_from, filled, placeless, refused, spread, trace,
    trace_of,
};
use crate::line::{header, marker, receiver, relation, Line};
use crate::place::{after, below, first, header_line, last_header};
use crate::tape::{bytes_of, end};
use crate::File::{self, R, S, X};
use crate::{headers_only, set_a, Answer, Case, Set};

pub fn cases() -> Vec<Case> {
    [
        whole(),
        ends(),
        ends_of_files(),
        free_columns(),
        lengths(),
        limits(),
        bytes(),
        order(),
        questions(),
    ]
    .concat()
}

/// A set of the disc on tape.
pub fn tape(set: Set) -> Set {
    set.on_tape().expect("characters of a tape")
}

/// Set A on tape.
fn a() -> Set {
    tape(set_a())
}

/// Sets that are judged as their translation.
fn whole() -> Vec<Case> {
    let small_letters = set_a().each(|set, file| {
        let text = "abcdefghijklmnopqrstuvwxyz .,;:()-+/&'%*=?_<>";
        set.put(file, 1, 33, text).put(file, 2, 33, &text.to_uppercase())
    });
    let Set { medium, r, s, x } = a();
    let exchanged = Set { medium, r: s, s: r, x };
    let odd = set_a().edit(X, first(), |x| x.channels(1, 4));
    let no_h05 = set_a().each(|set, file| set.remove(file, header_line(5)));
    vec![
        check("tape: set A", a(), as_a()),
        check("tape: headers only", tape(headers_only()), accepted(0, 0, 0, 0)),
        check("tape: every character in headers", tape(small_letters), as_a()),
        check("tape: an odd channel", tape(odd), refused(6, X, first(), 72)),
        check("tape: no H05", tape(no_h05), refused(7, R, last_header(), 0)),
        check(
            "tape: S has a header line more",
            tape(set_a().insert(S, first(), header(26))),
            refused(9, S, first(), 0),
        ),
        check("tape: R and S exchanged", exchanged, refused(4, R, first(), 1)),
    ]
}

/// 29: no EOF record, or records after the first.
fn ends() -> Vec<Case> {
    let mut cases = Vec::new();
    for file in File::ALL {
        let (letter, last) = (file.letter(), after(file));
        let case = |(name, set, line): (&str, Set, usize)| {
            check(format!("tape: {letter} {name}"), set, refused(29, file, line, 0))
        };
        let instead = |line: Line| a().edit(file, last, |_| line);
        let text = |column| Line([b' '; 80]).at(column, "EOF");
        let moved = text(2).on_tape().expect("characters of a tape");
        let rows = [
            ("without its EOF", a().remove(file, last), last),
            ("empty", a().cut(file, 0), 1),
            ("of one record", a().cut(file, 80), 2),
            ("with a second EOF", a().add(file, end()), last + 1),
            ("with three EOF", a().add_all(file, [end(); 2]), last + 1),
            ("with a blank record behind", a().over(file, 80), last + 1),
            ("with its last line behind", moved_end(file), last),
            ("with EOF first", a().insert(file, 1, end()), 2),
            ("with EOF in ASCII", instead(text(1)), last + 1),
            ("with EOF one column right", instead(moved), last + 1),
            ("with a small letter in EOF", a().byte(file, last, 1, 0x85), last + 1),
            ("with EOX", a().byte(file, last, 3, 0xE7), last + 1),
            ("of a byte 0 and no EOF", a().remove(file, last).byte(file, 1, 9, 0), last),
            ("of a byte 0 and two EOF", a().add(file, end()).byte(file, 1, 9, 0), last + 1),
        ];
        cases.extend(rows.map(case));
    }
    cases
}

/// 29 among the other rules of form, and in more than one file.
fn ends_of_files() -> Vec<Case> {
    let (late_r, late_x) = (moved_end(R).byte(S, 1, 1, 0), moved_end(X).byte(S, 1, 1, 0));
    let on_disc = Set { s: set_a().s, ..a() };
    let bytes = set_a().s.len();
    assert_ne!(bytes % 80, 0);
    let ends = a().each(|set, file| set.cut(file, 0).add(file, end()));
    vec![
        check("tape: S on disc", on_disc, refused(1, S, bytes / 80 + 1, 0)),
        check("tape: R empty and S cut", a().cut(R, 0).cut(S, 1), refused(29, R, 1, 0)),
        check("tape: R's EOF before S's byte", late_r, refused(29, R, after(R), 0)),
        check("tape: S's byte before X's EOF", late_x, refused(3, S, 1, 1)),
        check("tape: all empty", a().each(|set, file| set.cut(file, 0)), refused(29, R, 1, 0)),
        check("tape: EOF records alone", ends, refused(7, R, 1, 0)),
    ]
}

/// Set A on tape with the last two records of a file exchanged.
fn moved_end(file: File) -> Set {
    let last = after(file) - 1;
    a().remove(file, last + 1).insert(file, last, end())
}

/// Columns 4 to 80 of the EOF record hold any bytes.
fn free_columns() -> Vec<Case> {
    let fill = |byte: u8| {
        a().each(|set, file| {
            set.edit(file, after(file), |Line(mut line)| {
                line[3..].fill(byte);
                Line(line)
            })
        })
    };
    let case = |byte| check(format!("tape: byte {byte} behind EOF"), fill(byte), as_a());
    [0, 13, 32, 0xC5, 0xFF].map(case).to_vec()
}

/// 1: lengths that are no multiple of 80.
fn lengths() -> Vec<Case> {
    let mut cases = Vec::new();
    for file in File::ALL {
        let letter = file.letter();
        for bytes in [1, 2, 40, 78, 79] {
            cases.push(check(
                format!("tape: {letter} with {bytes} bytes over"),
                a().over(file, bytes),
                refused(1, file, after(file) + 1, 0),
            ));
        }
        for (bytes, line) in [(1, 1), (79, 1), (81, 2), (82, 2), (159, 2), (161, 3)] {
            cases.push(check(
                format!("tape: {letter} cut to {bytes} bytes"),
                a().cut(file, bytes),
                refused(1, file, line, 0),
            ));
        }
    }
    cases
}

/// Set A on tape, R of so many records before its EOF.
fn long(lines: usize) -> Set {
    let missing = lines - set_a().lines(R);
    tape(set_a().add_all(R, (104..).map(receiver).take(missing)))
}

/// 2: 9,998 lines and EOF at most, wherever EOF stands.
fn limits() -> Vec<Case> {
    let most = (9_998 - last_header()) as u64;
    let early = |set: Set| set.edit(R, 5, |_| end());
    let without = |set: Set| {
        let last = set.lines(R);
        set.remove(R, last)
    };
    let case = |name: &str, set, number, line| {
        check(format!("tape: R of {name}"), set, refused(number, R, line, 0))
    };
    vec![
        check("tape: R of 9998 lines and EOF", long(9_998), accepted(most, 1, 1, 3)),
        case("9999 lines and EOF", long(9_999), 2, 10_000),
        case("10000 lines and EOF", long(10_000), 2, 10_000),
        case("9999 lines", without(long(9_999)), 29, 10_000),
        case("10000 lines", without(long(10_000)), 2, 10_000),
        case("9999 records, EOF in line 5", early(long(9_998)), 29, 6),
        case("10000 records, EOF in line 5", early(long(9_999)), 2, 10_000),
        case("9998 lines, EOF and a byte", long(9_998).over(R, 1), 1, 10_000),
        case("9998 lines and a byte", without(long(9_998)).over(R, 1), 1, 9_999),
        case("10001 records and a byte", long(10_000).over(R, 1), 1, 10_000),
    ]
}

/// 3: the lowest column of 1 to 80 whose byte is not taken, of the lines before EOF.
fn bytes() -> Vec<Case> {
    let mut cases = Vec::new();
    for column in 1..=80 {
        for (file, line) in [(S, first()), (X, first()), (R, 1)] {
            let letter = file.letter();
            cases.push(check(
                format!("tape: a blank of ASCII in {letter} {line} {column}"),
                a().byte(file, line, column, b' '),
                refused(3, file, line, column),
            ));
        }
    }
    // What the code page has for ! " # $ @ [ \ ] ^ ` { | } ~, and its control bytes.
    let others = *b"\x5A\x7F\x7B\x5B\x7C\xBA\xE0\xBB\xB0\x79\xC0\x4F\xD0\xA1\x00\x0D\x25\x15\xFF";
    for byte in others {
        cases.push(check(
            format!("tape: byte {byte} in a header's free columns"),
            a().byte(R, 2, 60, byte),
            refused(3, R, 2, 60),
        ));
        let line = Line(marker(R).0.map(|text| if text == b'~' { b'_' } else { text }));
        cases.push(check(
            format!("tape: byte {byte} in a marker's free columns"),
            tape(set_a().add(R, line)).byte(R, after(R), 20, byte),
            refused(3, R, after(R), 20),
        ));
    }
    let two = a().byte(S, first(), 40, 0).byte(S, first(), 39, 0xFF);
    cases.push(check("tape: two bad bytes in a line", two, refused(3, S, first(), 39)));
    cases
}

/// Two names, and whether they are in order on disc and on tape.
const NAMES: [(&str, &str, bool, bool); 14] = [
    ("1A", "A1", true, false),
    ("A1", "1A", false, true),
    ("L9", "LA", true, false),
    ("LA", "L9", false, true),
    ("LZ", "La", true, false),
    ("Lz", "LA", false, true),
    ("L9", "L:", true, false),
    ("LZ", "L_", true, false),
    ("L&", "L+", true, false),
    ("L(", "L+", true, true),
    ("L<", "L=", true, true),
    ("L1 1", "L11", true, true),
    ("L2", "L10", false, false),
    ("L1", "L1", false, false),
];

/// 10: names by the medium's own bytes, point and index by value.
fn order() -> Vec<Case> {
    let mut cases = Vec::new();
    for (one, other, on_disc, on_tape) in NAMES {
        let set = headers_only().add_all(R, [one, other].map(|name| receiver(101).name(name)));
        let answer = |in_order| match in_order {
            true => accepted(2, 0, 0, 0),
            false => refused(10, R, below(2), 2),
        };
        cases.extend([
            check(format!("disc: `{one}`, `{other}`"), set.clone(), answer(on_disc)),
            check(format!("tape: `{one}`, `{other}`"), tape(set), answer(on_tape)),
        ]);
    }
    let zeros = set_a().put(R, below(2), 18, "00000102");
    let index = set_a().add_all(R, ["3", "2"].map(|index| receiver(104).index(index)));
    cases.extend([
        check("tape: a point with leading zeros", tape(zeros), as_a()),
        check("tape: a lower index", tape(index), refused(10, R, below(5), 2)),
    ]);
    cases
}

/// Questions, their tapes and all answers are in ASCII.
fn questions() -> Vec<Case> {
    let own = bytes_of(b"100   ").expect("characters of a tape");
    let named = || tape(set_a().edit(X, first(), |x| x.tape("a_9")));
    let second = || tape(set_a().add(X, relation().record(12).channels(5, 6).receivers(102, 103)));
    let places = [(first(), 1), (below(2), 1), (below(3), 1)];
    vec![
        ask("tape: channel 2", a(), trace(2), comes_from(below(2), 1)),
        ask("tape: channel 4", a(), trace(4), Answer::NoTrace),
        ask("tape: the second receiver", a(), channel(below(2), 1), Answer::Channel(2)),
        ask("tape: the R line of EOF", a(), channel(after(R), 1), Answer::NoTrace),
        ask("tape: the R line after EOF", a(), channel(after(R) + 1, 1), Answer::NoTrace),
        ask("tape: a spread table", a(), spread(4, 5), filled(3, &places, 4, 5)),
        ask("tape: a slice too short", a(), spread(2, 3), placeless(21)),
        ask("tape: a question in EBCDIC", a(), trace_of(own, 11, 2), placeless(20)),
        ask("tape: a question of `~`", a(), trace_of("10~   ", 11, 2), Answer::NoTrace),
        ask("tape: small letters", named(), trace_of("a_9   ", 11, 3), comes_from(below(3), 1)),
        ask("tape: capitals for small ones", named(), trace_of("A_9   ", 11, 3), Answer::NoTrace),
        ask("tape: a second record", second(), trace_of("100   ", 12, 6), comes_from(below(3), 1)),
        ask("tape: channel 0 of a cut tape", a().cut(R, 81), trace(0), placeless(20)),
        ask("tape: channel 2 of a cut tape", a().cut(R, 81), trace(2), refused(1, R, 2, 0)),
        ask(
            "tape: a trace without EOF",
            a().remove(X, after(X)),
            trace(2),
            refused(29, X, after(X), 0),
        ),
    ]
}
