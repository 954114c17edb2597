//! The header line of a code: found, not there, and out of range.

use super::{code_tables, kinds, unnamed_code, with};
use crate::line::header_with;
use crate::place::{below, first, header_line, last_header};
use crate::table::answers::of;
use crate::table::write::{ask, placeless, refused, table_line, table_line_of};
use crate::Answer::{self, NotNamed};
use crate::File::R;
use crate::{headers_only, set_a, tape, Case, Question, Set};

pub fn cases() -> Vec<Case> {
    [lines(), other_kinds(), other_codes(), before_the_set()].concat()
}

/// A header line of R.
fn line(number: usize) -> Answer {
    Answer::TableLine(number as u16)
}

fn on_tape(set: &Set) -> Set {
    set.on_tape().expect("characters of a tape")
}

/// Codes that are named, used or not, and codes that are not.
fn lines() -> Vec<Case> {
    let rows = || {
        vec![
            (table_line('X', "1"), line(header_line(400))),
            (table_line('X', "2"), line(below(2))),
            (table_line('X', "3"), NotNamed),
            (table_line('R', "G1"), line(header_line(600))),
            (table_line('R', "G2"), line(below(4))),
            (table_line('R', "H1"), line(below(5))),
            (table_line('R', "H2"), NotNamed),
            (table_line('R', "R1"), NotNamed),
            (table_line('S', "V1"), line(header_line(700))),
            (table_line('S', "E1"), line(below(7))),
            (table_line('S', "V2"), NotNamed),
            (table_line('S', "S1"), NotNamed),
        ]
    };
    let none = kinds().map(|kind| (table_line(kind.letter, kind.code), NotNamed)).to_vec();
    let bare = [400, 600, 700].into_iter().rev().fold(headers_only(), super::without);
    let first_line = set_a().each(|set, file| set.insert(file, 1, header_with(690, "H7")));
    let near =
        with(set_a(), &[header_with(601, "G2"), header_with(60, "G2"), header_with(700, "G2")]);
    [
        of("code tables", code_tables(), rows()),
        of("code tables, on tape", on_tape(&code_tables()), rows()),
        of("no code tables", bare, none),
        of("a table in line 1", first_line, vec![(table_line('R', "H7"), line(1))]),
        of("lines near to a table", near, vec![(table_line('R', "G2"), NotNamed)]),
        each_code(),
    ]
    .concat()
}

/// Each code, all named in turn.
fn each_code() -> Vec<Case> {
    let letters = [('R', "GHR"), ('S', "VEAWS"), ('X', "")];
    let codes = letters.into_iter().flat_map(|(kind, letters)| {
        let digits = |letter: String| (1..=9).map(move |digit| format!("{letter}{digit}"));
        let letters: Vec<String> = match letters {
            "" => vec![String::new()],
            letters => letters.chars().map(String::from).collect(),
        };
        letters.into_iter().flat_map(digits).map(move |code| (kind, code))
    });
    let codes: Vec<(char, String)> = codes.collect();
    let others = |(_, code): &&(char, String)| !["G1", "V1", "1"].contains(&code.as_str());
    let added: Vec<&str> = codes.iter().filter(others).map(|(_, code)| code.as_str()).collect();
    let set = set_a().naming(&added);
    let own = |code: &str| match code {
        "1" => header_line(400),
        "G1" => header_line(600),
        "V1" => header_line(700),
        _ => first() + added.iter().position(|of| *of == code).expect("an added code"),
    };
    let rows = codes.iter().map(|(kind, code)| (table_line(*kind, code), line(own(code))));
    assert_eq!(last_header() + 1, first());
    of("all codes", set, rows.collect())
}

fn out_of_range(name: &str, questions: impl IntoIterator<Item = Question>) -> Vec<Case> {
    of(name, set_a(), questions.into_iter().map(|question| (question, placeless(20))).collect())
}

/// Kinds that are none, also where fewer bits would be one.
fn other_kinds() -> Vec<Case> {
    let kinds = [0, 1, 2, 3, 32, 71, 72, 81, 84, 86, 87, 89, 114, 115, 120, 217, 226, 231, 255];
    let wide = [256 + 82, (1 << 16) + 83, (1 << 32) + 82, (1 << 63) + 88, u64::MAX];
    let asked = kinds.into_iter().chain(wide);
    out_of_range(
        "another kind",
        asked.flat_map(|kind| ["G1", "V1", "1"].map(|code| table_line_of(kind, code))),
    )
}

/// Codes that are none of their kind.
fn other_codes() -> Vec<Case> {
    let points =
        ["", "1", "G", "G1 ", " G1", "G1G1", "PM", "KL", "pm", "kl", "K1", "P1", "Q1", "11"];
    let near = |letter: char| {
        let small = letter.to_ascii_lowercase();
        [
            format!("{letter}0"),
            format!("{letter}:"),
            format!("{letter}/"),
            format!("{letter} "),
            format!("{letter}{letter}"),
            format!("1{letter}"),
            format!("{small}1"),
        ]
    };
    let of_points = |kind, letters: &str, others: &str| {
        let near = letters.chars().flat_map(near);
        let others = others.chars().map(|letter| format!("{letter}1"));
        let all = points.iter().map(|code| code.to_string()).chain(near).chain(others);
        all.map(|code| table_line(kind, &code)).collect::<Vec<_>>()
    };
    let instruments = ["", "0", ":", "/", " ", "a", "1,", "11", " 1", "G1", "V1", "PM", "KL"];
    let bytes: [&[u8]; 6] = [b"\0\0", b"G\0", b"G\xB1", b"\xC71", b"V\xFF", b"\r\n"];
    let ebcdic = ["G1", "V1"].map(|code| tape::bytes_of(code.as_bytes()).expect("characters"));
    let one = tape::bytes_of(b"1").expect("a character");
    let strange = bytes.into_iter().map(<[u8]>::to_vec).chain(ebcdic).chain([one]);
    [
        out_of_range("kind R", of_points('R', "GHR", "VEAWSFIX")),
        out_of_range("kind S", of_points('S', "VEAWS", "GHRBDTUX")),
        out_of_range("kind X", instruments.map(|code| table_line('X', code))),
        out_of_range(
            "strange codes",
            strange.flat_map(|code| ['R', 'S', 'X'].map(|kind| table_line_of(kind.into(), &code))),
        ),
    ]
    .concat()
}

/// 20, then the set's own refusals, then the line.
fn before_the_set() -> Vec<Case> {
    let broken = || set_a().cut(R, 81);
    let again = || with(set_a(), &[header_with(600, "G1")]);
    let unsorted = || set_a().edit(R, below(3), |r| r.point(1));
    let unnamed = || set_a().add(crate::File::S, crate::shot(502));
    let tape = on_tape(&set_a()).cut(R, 81);
    let g1 = || table_line('R', "G1");
    vec![
        ask("kind 0 of a broken set", broken(), table_line_of(0, "G1"), placeless(20)),
        ask("code PM of a broken set", broken(), table_line('R', "PM"), placeless(20)),
        ask("code G1 of a broken set", broken(), g1(), refused(1, R, 1, 0)),
        ask("code G0 of a broken tape", tape.clone(), table_line('R', "G0"), placeless(20)),
        ask("code G1 of a broken tape", tape, g1(), refused(1, R, 2, 0)),
        ask("code G1 named again", again(), g1(), refused(24, R, first(), 33)),
        ask(
            "code G9 where G1 is named again",
            again(),
            table_line('R', "G9"),
            refused(24, R, first(), 33),
        ),
        ask(
            "code G2 used and not named",
            unnamed_code(),
            table_line('R', "G2"),
            refused(25, R, below(3), 27),
        ),
        ask("code G1 where G2 is not named", unnamed_code(), g1(), refused(25, R, below(3), 27)),
        ask("code G0 where G2 is not named", unnamed_code(), table_line('R', "G0"), placeless(20)),
        ask("code G1 of unsorted receivers", unsorted(), g1(), refused(10, R, below(3), 2)),
        ask(
            "code G1 and a shot not named",
            unnamed(),
            g1(),
            refused(15, crate::File::S, below(2), 1),
        ),
    ]
}
