//! Verdicts and reasons.

use crate::claims::made::{said_of, Refused};
use crate::message::{shown, Message, Other, Row};
use crate::{folder, of, said, spswhy, write, NAMES};
use small_sets::place::{below, first};
use small_sets::{set_a, table, File, Question};
use std::collections::BTreeMap;

#[test]
fn accepted() {
    let expected = (Some(0), "ACCEPTED 3 1 1 3 0\n".to_owned(), String::new());
    assert_eq!(of("accepted", &set_a()), expected);
}

/// That receivers are counted down is no breach, and each rule of 6 marks its column.
#[test]
fn channels_and_receivers() {
    for (from, to) in [(101, 103), (103, 101)] {
        let set = set_a().edit(File::X, first(), |x| x.receivers(from, to));
        let expected = (Some(0), "ACCEPTED 3 1 1 3 0\n".to_owned(), String::new());
        assert_eq!(of("channels_and_receivers", &set), expected);
        for (at, text, column) in [(39, "   3   1", 39), (47, "2", 47), (43, "   4", 72)] {
            let set = set.clone().put(File::X, first(), at, text);
            let (_, verdict, reason) = of("channels_and_receivers", &set);
            assert_eq!(verdict, format!("REFUSED 6 X {} {column}\n", first()));
            assert_eq!(last_two(&reason)[1], format!("{:>column$}", '^'));
        }
    }
}

/// A mark below CR and LF, and bytes that are no characters.
#[test]
fn strange_bytes() {
    let set = set_a().byte(File::R, below(2), 82, b'\r').byte(File::S, first(), 3, 0xC3);
    let (_, verdict, reason) = of("strange_bytes", &set);
    assert_eq!(verdict, format!("REFUSED 3 R {} 82\n", below(2)));
    let [line, mark] = last_two(&reason);
    assert_eq!((line.len(), &line[78..]), (82, "45??"));
    assert_eq!(mark, format!("{:>82}", '^'));
    let (_, verdict, reason) = of("strange_bytes", &set.byte(File::R, below(2), 82, b'\n'));
    assert_eq!(verdict, format!("REFUSED 3 S {} 3\n", first()));
    assert_eq!(last_two(&reason).map(|line| &line[..3]), ["SL?", "  ^"]);
}

pub fn last_two(text: &str) -> [&str; 2] {
    let lines: Vec<&str> = text.lines().collect();
    let [.., line, mark] = lines[..] else { panic!("{text}") };
    [line, mark]
}

/// The refused sets of the table: some of each number, medium and column, one that is large.
pub fn refused() -> Vec<Refused> {
    let cases = table().into_iter().filter(|case| case.question == Question::Cross);
    let mut turns = BTreeMap::new();
    let taken = cases.filter_map(|case| Refused::of(case.set)).filter(|of| {
        let is_large = of.set.lines(of.file) > 1_000;
        let turn = turns.entry((of.number, of.set.medium as u8, of.column)).or_insert(0);
        *turn += 1;
        *turn <= if is_large { 1 } else { 20 }
    });
    taken.collect()
}

/// Of every number that a set is refused for: the place, one of its rules in the table with its
/// sentences, and the line with its mark where there is one; the other lines likewise.
#[test]
fn each_number() {
    let (rows, refused) = (Row::all(), refused());
    for (refused, said) in refused.iter().zip(said_of("each_number", &refused)) {
        let Refused { set, number, file, line, column } = refused;
        let (message, path, at, mark) = Message::read(&said);
        assert!(path.ends_with(refused.name()), "{said}");
        assert_eq!((message.number, at, mark), (*number, *line, *column));
        Row::of_message(&rows, &message).hold(&message);
        let own = (*column > 0).then(|| cut(shown(set, *file as u8, *line)));
        assert_eq!(message.text.map(cut), own);
        for Other { path, line, text, .. } in message.others {
            let file =
                NAMES.iter().position(|name| path.ends_with(name)).expect("a file") as u8 + 1;
            assert_eq!(cut(text), cut(shown(set, file, line)), "{said}");
        }
    }
}

/// The columns of a line without CR and LF.
fn cut(text: String) -> String {
    text.chars().take(80).collect()
}

/// A file is named as it is given.
#[test]
fn other_names() {
    let above = folder("other_names");
    let set = set_a().cut(File::R, 81);
    write(&above, &set);
    let names = NAMES.map(|name| format!("../other_names/{name}"));
    let (status, verdict, reason) = said(spswhy(&above, &names.each_ref().map(|name| &name[..])));
    assert_eq!((status, verdict.as_str()), (Some(1), "REFUSED 1 R 1 0\n"));
    assert!(reason.starts_with("../other_names/set.r01:1:0: refused with 1: "), "{reason}");
}
