//! Where the lines of set A stand. Lines count from 1, and all files have the same
//! header block.

use crate::{headers_only, set_a, File};

/// The last header line.
pub fn last_header() -> usize {
    headers_only().lines(File::R)
}

/// The header line of a type, or of a table by its three digits.
pub fn header_line(number: usize) -> usize {
    let (set, kind) = (headers_only(), format!("{:4}", format!("H{number:02}")));
    let stands = |&line: &usize| set.line(File::R, line).0.starts_with(kind.as_bytes());
    (1..=last_header()).find(stands).expect("a type of set A's header")
}

/// The line below the header: the first receiver, the shot, the relation line.
pub fn first() -> usize {
    below(1)
}

/// The line so many below the last header line.
pub fn below(lines: usize) -> usize {
    last_header() + lines
}

/// The line after set A's last.
pub fn after(file: File) -> usize {
    set_a().lines(file) + 1
}

/// How many lines a file may have below the header.
pub fn most_below() -> usize {
    9_999 - last_header()
}
