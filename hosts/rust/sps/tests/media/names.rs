//! Names in the order of the tape's bytes.

use crate::compare::compare;
use crate::stated::hold;
use small_sets::place::below;
use small_sets::{headers_only, receiver, File, Question, Set};

/// "blank, `. < ( + & * ) ; - / , % _ > ? : ' =`, small letters, capitals, digits"
const LOWEST_FIRST: &str = " .<(+&*);-/,%_>?:'=\
abcdefghijklmnopqrstuvwxyzABCDEFGHIJKLMNOPQRSTUVWXYZ0123456789";

/// Two receivers whose names differ in one column.
fn two(column: usize, one: char, other: char) -> Set {
    let line =
        |character: char| receiver(101).name("LLLLLLLLLLLLLLLL").at(column, &character.to_string());
    headers_only().add_all(File::R, [one, other].map(line))
}

/// Every two characters, in each column of a name in turn.
#[test]
fn every_two_characters() {
    let (mut column, mut differ) = (3, 0);
    for (at, one) in LOWEST_FIRST.chars().enumerate() {
        for (before, other) in LOWEST_FIRST.chars().enumerate() {
            let set = two(column, one, other);
            let answer = hold(&set, &Question::Cross, "two names").expect("a tape");
            let verdict = answer.verdict().expect("of a cross-check");
            let expected = match at < before {
                true => "ACCEPTED 2 0 0 0 0\n".to_owned(),
                false => format!("REFUSED 10 R {} 2\n", below(2)),
            };
            assert_eq!(verdict, expected, "`{one}` and `{other}` in column {column}");
            differ += usize::from(compare(&set, &Question::Cross) != answer);
            column = if column == 17 { 3 } else { column + 1 };
        }
    }
    assert!(differ > 1_000, "{differ} pairs differ between the media");
}
