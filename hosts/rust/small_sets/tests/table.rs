//! The table itself: names, and which refusals it has.

use small_sets::place::{below, first, last_header};
use small_sets::{set_a, table, Answer, File, Question};
use std::collections::HashSet;

#[test]
fn names_differ() {
    let mut names = HashSet::new();
    for case in table() {
        assert!(names.insert(case.name.clone()), "twice: {}", case.name);
    }
}

#[test]
fn every_refusal_is_asked_for() {
    let mut numbers: Vec<u8> = table()
        .iter()
        .filter_map(|case| match case.expected {
            Answer::Refused { number, .. } => Some(number),
            _ => None,
        })
        .collect();
    numbers.sort_unstable();
    numbers.dedup();
    assert!(numbers.into_iter().eq((1..=21).chain([24, 25, 29])));
}

/// Every case of the cross-check has a line, and so has one of a file whose kind has a letter.
#[test]
fn checks_have_verdicts() {
    let (mut forms, mut sets) = (0, 0);
    for case in table() {
        match case.question {
            Question::Cross => sets += 1,
            Question::Form { kind, .. } if File::of_kind(kind).is_some() => forms += 1,
            _ => continue,
        }
        assert!(case.expected.verdict().is_some(), "{}", case.name);
    }
    assert!(forms > 100 && sets > 1_000, "{forms} files, {sets} sets");
}

/// Set A field by field, each with all its columns.
#[test]
fn set_a_is_as_described() {
    let set = set_a();
    let line = |file, number: usize| {
        let bytes = &set.file(file)[(number - 1) * 82..number * 82];
        String::from_utf8_lossy(bytes).into_owned()
    };
    assert_eq!(last_header(), 24);
    assert_eq!([3, 1, 1], File::ALL.map(|file| set.lines(file) - last_header()));
    for (n, point) in [(1, "     101"), (2, "     102"), (3, "     103")] {
        let start = ["R", "L1              ", point, "1", "G1"].concat();
        assert_eq!(line(File::R, below(n)), start + &REST.concat());
    }
    let start = ["S", "L1              ", "     501", "1", "V1"].concat();
    assert_eq!(line(File::S, first()), start + &REST.concat());
    assert_eq!(line(File::X, first()), RELATION.concat());
    for file in File::ALL {
        for number in 0..=20 {
            let text = if number == 18 { "UTM;" } else { "" };
            let expected = format!("H{number:02}{:29}{text:48}\r\n", "");
            assert_eq!(line(file, number + 1), expected);
        }
        for (at, start, code) in [(22, "H400", "1,"), (23, "H600", "G1"), (24, "H700", "V1")] {
            assert_eq!(line(file, at), format!("{start}{:28}{code}{:46}\r\n", "", ""));
        }
    }
}

/// Columns 29 to 82 of each point line.
const REST: [&str; 11] = [
    "    ",
    " 0.0",
    "   0",
    "  ",
    "    ",
    "      0.0",
    "       0.0",
    "   0.0",
    "113",
    "071245",
    "\r\n",
];

const RELATION: [&str; 16] = [
    "X",
    "100   ",
    "  11",
    "1",
    "1",
    "L1              ",
    "     501",
    "1",
    "   1",
    "   3",
    "1",
    "L1              ",
    "     101",
    "     103",
    "1",
    "\r\n",
];
