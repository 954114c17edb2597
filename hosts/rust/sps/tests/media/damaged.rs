//! Tapes that are cut, end nowhere, go on or hold other bytes.

use crate::compare::compare;
use many_sets::faults::damage;
use many_sets::media::plain;
use many_sets::run::{random, turns};
use small_sets::place::{after, first};
use small_sets::tape::end;
use small_sets::{set_a, Answer, File, Question, Set};
use std::collections::BTreeMap;

fn a() -> Set {
    set_a().on_tape().expect("characters of a tape")
}

fn refused(number: u8, file: File, line: usize) -> Answer {
    Answer::Refused { number, file: file as u8, line: line as u32, column: 0 }
}

/// Each length: 1 within a record, 29 behind any but the last.
#[test]
fn each_length() {
    for file in File::ALL {
        let length = a().file(file).len();
        for cut in 0..length {
            let number = if cut % 80 > 0 { 1 } else { 29 };
            let answer = compare(&a().cut(file, cut), &Question::Cross);
            assert_eq!(answer, refused(number, file, cut / 80 + 1), "{cut} bytes");
            if cut > 0 && cut <= 160 {
                let answer = compare(&a().over(file, cut), &Question::Cross);
                let line = if cut % 80 > 0 { (length + cut) / 80 } else { length / 80 };
                assert_eq!(answer, refused(number, file, line + 1), "{cut} bytes more");
            }
        }
    }
}

/// An EOF record in place of each record, and put in before it.
#[test]
fn each_end() {
    for file in File::ALL {
        for record in 1..=after(file) {
            let early = compare(&a().edit(file, record, |_| end()), &Question::Cross);
            let second = compare(&a().insert(file, record, end()), &Question::Cross);
            assert_eq!(second, refused(29, file, record + 1));
            if record < after(file) {
                assert_eq!(early, refused(29, file, record + 1));
            }
        }
    }
}

/// Each byte in each column of the record that ends a tape: 29 where EOF is no longer
/// there, and nothing else.
#[test]
fn each_byte_of_the_end() {
    let whole = compare(&a(), &Question::Cross);
    let eof = end().0;
    for column in 1..=80 {
        for byte in 0..=255 {
            let set = a().byte(File::S, after(File::S), column, byte);
            let answer = compare(&set, &Question::Cross);
            if column > 3 || byte == eof[column - 1] {
                assert_eq!(answer, whole);
            } else {
                assert_eq!(answer, refused(29, File::S, first() + 2));
            }
        }
    }
}

/// One change to three.
#[test]
fn changed() {
    let mut random = random(74);
    let mut numbers = BTreeMap::<u8, u64>::new();
    for turn in 0..turns(9_000) {
        let mut set = plain(&mut random).on_tape().expect("characters of a tape");
        for _ in 0..=turn % 3 {
            (set, _) = damage(&mut random, set);
        }
        if let Answer::Refused { number, .. } = compare(&set, &Question::Cross) {
            *numbers.entry(number).or_default() += 1;
        }
    }
    for number in [1, 2, 3, 4, 5, 7, 9, 10, 29] {
        assert!(numbers.get(&number) > Some(&10), "too few of {number}: {numbers:?}");
    }
}
