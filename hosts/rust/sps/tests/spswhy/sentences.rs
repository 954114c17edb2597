//! Each sentence of the table is told of some set.

use crate::claims::made::{made, said_of, Refused};
use crate::message::{Message, Row};
use crate::reasons::refused;
use small_sets::place::first;
use small_sets::{set_a, File, Medium, Set};
use std::collections::BTreeSet;

/// Set A with other bytes for R.
fn of_r(bytes: impl Into<Vec<u8>>) -> Set {
    Set { r: bytes.into(), ..set_a() }
}

/// Bytes, and blanks up to a length.
fn padded(bytes: &[u8], length: usize) -> Vec<u8> {
    let blanks = vec![b' '; length - bytes.len()];
    [bytes, &blanks].concat()
}

/// R whose length is no multiple of a line's.
fn lengths() -> Vec<Set> {
    let r = set_a().r;
    let unix: Vec<u8> = r.iter().copied().filter(|byte| *byte != b'\r').collect();
    vec![
        of_r(b"\x1F\x8B\x08"),
        Set { medium: Medium::Tape, ..of_r(b"\x1F\x8B\x08") },
        of_r([b"\xEF\xBB\xBF", &r[..]].concat()),
        of_r(unix),
        of_r([b"H00\r\n", &r[82..]].concat()),
        of_r([&r[..80], b" \r\n", &r[82..]].concat()),
        of_r([&r[..], b"\x1A"].concat()),
    ]
}

/// R with a byte that is not taken, of so many lines.
fn bytes() -> Vec<Set> {
    let line = padded(b"H00", 80);
    let r = set_a().r;
    let ended = [&r[..r.len() - 1], b"\x1A"].concat();
    vec![
        of_r(padded(b"\x1F\x8B", 82)),
        of_r(padded(b"\xEF\xBB\xBFH00", 82)),
        of_r(padded(b"H00\r", 82)),
        of_r(padded(b"H00\r\n", 82)),
        of_r(padded(b"H00 \r\n", 82)),
        of_r(ended.clone()).byte(File::R, 1, 1, 0),
        of_r(padded(&[&line[..], b"7\r"].concat(), 164)),
        of_r(padded(&[&line[..], b"7\r\n"].concat(), 164)),
        of_r(padded(&line, 82)),
        of_r([&line[..], b" \x1A"].concat()),
        of_r(ended),
    ]
}

/// Sets for sentences that few sets are told.
pub fn rare() -> Vec<Refused> {
    let fields =
        [set_a().put(File::R, first(), 66, "-99999"), set_a().put(File::R, first(), 27, "V1")];
    let sets = lengths().into_iter().chain(bytes()).chain(fields);
    sets.map(|set| Refused::of(set).expect("a set that is refused")).collect()
}

/// Of the sets of the table, made ones and the rare ones.
#[test]
fn each_sentence() {
    let rows = Row::all();
    let sets: Vec<Refused> = refused().into_iter().chain(made()).chain(rare()).collect();
    let mut told = BTreeSet::new();
    for said in said_of("each_sentence", &sets) {
        let (message, ..) = Message::read(&said);
        let row = Row::of_message(&rows, &message);
        told.extend(row.hold(&message).into_iter().map(|words| (row.number, &row.rule, words)));
    }
    let of_rows = rows.iter().filter(|row| !(20..=23).contains(&row.number)).flat_map(|row| {
        let words = row.found.iter().chain(&row.others);
        words.map(|words| (row.number, &row.rule, words.clone()))
    });
    let untold: Vec<_> = of_rows.filter(|words| !told.contains(words)).collect();
    assert!(untold.is_empty(), "{untold:#?}");
}
