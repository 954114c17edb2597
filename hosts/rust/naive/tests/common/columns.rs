//! Names and whole lines by their columns.

use small_sets::Line;

/// A name of 16 columns.
pub fn name(text: &str) -> [u8; 16] {
    let mut name = [b' '; 16];
    name[..text.len()].copy_from_slice(text.as_bytes());
    name
}

/// The fields of a line, each with all its columns.
pub fn line_of(fields: &[&str]) -> Line {
    let text = fields.concat();
    Line(text.as_bytes().try_into().expect("80 columns"))
}
