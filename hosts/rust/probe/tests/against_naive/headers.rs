//! Header lines, which every file has.

use crate::compare::compare;
use crate::run::{damaged, first_columns, valid};
use many_sets::lines::{header, OF_HEADERS};
use naive::File;

/// H alone makes a header line: below any other letter this one lacks a number.
#[test]
fn letters() {
    for file in [File::R, File::S, File::X] {
        for letter in 0..=255 {
            let mut line = small_sets::header(0);
            line.0[0] = letter;
            assert_eq!(compare(file, line).is_ok(), letter == b'H', "{file:?} {letter}");
        }
    }
}

#[test]
fn headers() {
    for (file, salt) in [(File::R, 8), (File::S, 9), (File::X, 10)] {
        valid(file, salt, header);
        damaged(file, salt, header, OF_HEADERS, &first_columns(OF_HEADERS));
    }
}
