//! Header lines: their two fields (5), and the blocks of the three files (7, 8, 9).

use crate::fields::field;
use crate::{refusal, Fault, File, Line, Refusal};

/// Rule 5 in a header line: two digits, then a blank or a digit.
pub fn read(line: &Line) -> Result<(), Fault> {
    let fault = |column| Err(Fault { number: 5, column });
    let [_, tens, units, modifier, ..] = line;
    if !tens.is_ascii_digit() || !units.is_ascii_digit() {
        return fault(2);
    }
    if *modifier != b' ' && !modifier.is_ascii_digit() {
        return fault(4);
    }
    Ok(())
}

/// 7, 8, then 9 in S and in X.
pub fn check(r: &[Line], s: &[Line], x: &[Line]) -> Result<(), Refusal> {
    all_types(r)?;
    projections(r)?;
    same(r, File::S, s)?;
    same(r, File::X, x)
}

/// The type of a header line, which counts only where column 4 is blank.
fn kind(line: &Line) -> Option<i64> {
    if !field(line, 4, 4).is(b" ") {
        return None;
    }
    field(line, 2, 3).whole(0..=99).ok()
}

/// 7: each of the types 00 to 20 stands in R.
fn all_types(r: &[Line]) -> Result<(), Refusal> {
    let stands = |number| r.iter().any(|line| kind(line) == Some(number));
    if (0..=20).all(stands) {
        Ok(())
    } else {
        Err(refusal(7, File::R, r.len() as u32 + 1, 0))
    }
}

/// 8: no H18 is empty or N/A.
fn projections(r: &[Line]) -> Result<(), Refusal> {
    for (number, line) in (1..).zip(r) {
        if kind(line) == Some(18) && matches!(projection(line), b"" | b"N/A") {
            return Err(refusal(8, File::R, number, 33));
        }
    }
    Ok(())
}

/// Columns 33 to 80, cut before the first semicolon and freed of outer blanks.
fn projection(line: &Line) -> &[u8] {
    let mut text = &line[32..80];
    if let Some(semicolon) = text.iter().position(|&byte| byte == b';') {
        text = &text[..semicolon];
    }
    while let [b' ', rest @ ..] | [rest @ .., b' '] = text {
        text = rest;
    }
    text
}

/// 9: a header block is R's, line by line over 80 columns, then by length.
fn same(r: &[Line], file: File, other: &[Line]) -> Result<(), Refusal> {
    for (number, (ours, theirs)) in (1..).zip(r.iter().zip(other)) {
        let pairs = (1..).zip(ours.iter().zip(theirs));
        for (column, (our, their)) in pairs {
            if our != their {
                return Err(refusal(9, file, number, column));
            }
        }
    }
    if r.len() == other.len() {
        return Ok(());
    }
    let shorter = r.len().min(other.len());
    Err(refusal(9, file, shorter as u32 + 1, 0))
}
