//! Each of the 256 bytes in each class of field.

use crate::compare::compare;
use crate::stated::hold;
use small_sets::place::{after, below, first, header_line};
use small_sets::tape::{byte_of, characters};
use small_sets::File::{R, S, X};
use small_sets::{marker, set_a, Answer, File, Question, Set};
use std::collections::HashMap;

/// Set A with a marker.
fn with_marker() -> Set {
    set_a().add(R, marker(R)).plain()
}

/// Columns of header lines, of points, of a marker and of relation lines: one of each
/// kind of field, and the first of those that are read as a whole.
fn places() -> Vec<(File, usize, &'static [usize])> {
    const HEADER: [usize; 5] = [1, 2, 3, 4, 40];
    const POINT: [usize; 18] =
        [1, 2, 3, 17, 18, 25, 26, 27, 28, 32, 35, 40, 42, 46, 54, 71, 74, 80];
    const MARKER: [usize; 9] = [1, 2, 3, 20, 26, 28, 40, 65, 77];
    const RELATION: [usize; 18] =
        [1, 2, 5, 8, 11, 12, 13, 14, 20, 37, 38, 42, 46, 47, 48, 60, 71, 80];
    vec![
        (R, 2, &HEADER),
        (X, header_line(20), &HEADER),
        (R, header_line(18), &[33, 36, 80]),
        (R, below(2), &POINT),
        (S, first(), &POINT),
        (R, after(R), &MARKER),
        (X, first(), &RELATION),
    ]
}

/// A byte that is taken is judged as its character, every other is 3 at its column.
#[test]
fn each_byte_of_each_field() {
    let texts: HashMap<u8, u8> =
        characters().filter_map(|text| Some((byte_of(text)?, text))).collect();
    let disc = with_marker();
    let tape = disc.on_tape().expect("characters of a tape");
    let mut refused = 0;
    for (file, line, columns) in places() {
        for &column in columns {
            for byte in 0..=255 {
                let how = format!("byte {byte} in {file:?} {line} {column}");
                let set = tape.clone().byte(file, line, column, byte);
                let answer = compare(&set, &Question::Cross);
                let Some(&text) = texts.get(&byte) else {
                    let (file, line, column) = (file as u8, line as u32, column as u8);
                    assert_eq!(answer, Answer::Refused { number: 3, file, line, column }, "{how}");
                    refused += 1;
                    continue;
                };
                let disc = disc.clone().byte(file, line, column, text);
                assert_eq!(disc.on_tape(), Some(set), "{how}");
                assert_eq!(hold(&disc, &Question::Cross, &how), Some(answer), "{how}");
            }
        }
    }
    // 175 bytes are not taken.
    let columns: usize = places().iter().map(|(_, _, columns)| columns.len()).sum();
    assert_eq!(refused, 175 * columns);
}
