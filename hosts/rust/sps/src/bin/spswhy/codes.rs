//! The codes of points: one row a family, in the order of the standard's lists at H600 and
//! H700.

use crate::rows::form::FAMILY;
use sps::File::{self, R, S};

/// The codes of a family, what they say of a point, and the files that may have them.
type Family = (&'static str, &'static str, &'static [File]);

const FAMILIES: [Family; 10] = [
    ("G1 to G9", "geophones", &[R]),
    ("H1 to H9", "hydrophones", &[R]),
    ("R1 to R9", "multi-component and other receivers", &[R]),
    ("V1 to V9", "vibroseis", &[S]),
    ("E1 to E9", "explosive", &[S]),
    ("A1 to A9", "air gun", &[S]),
    ("W1 to W9", "water gun", &[S]),
    ("S1 to S9", "other sources", &[S]),
    ("PM", "permanent marker", &[R, S]),
    ("KL", "killed or omitted", &[R, S]),
];

/// The rows that a file may have, one a sentence.
pub fn rows(file: File) -> impl Iterator<Item = String> {
    let of = FAMILIES.iter().filter(move |(_, _, files)| files.contains(&file));
    of.map(|(codes, what, _)| FAMILY.with(&[codes, what]))
}

/// Whether a code of a file is one with a digit.
pub fn is_numbered(file: File, code: &[u8]) -> bool {
    let [letter, b'1'..=b'9'] = code else { return false };
    let mut families = FAMILIES.iter().filter(|(_, _, files)| files.contains(&file));
    families.any(|(codes, _, _)| codes.ends_with('9') && codes.as_bytes()[0] == *letter)
}
