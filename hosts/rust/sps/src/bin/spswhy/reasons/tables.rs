//! 24 and 25: the codes that the tables of R's header name, with their lines.

use super::{Case, Told};
use crate::codes;
use crate::files::Judged;
use crate::rows::set::*;
use crate::words::name;
use sps::File::{self, R, S, X};

/// A line that names a code: its number, its four columns, and the code.
struct Naming {
    line: u64,
    header: String,
    code: String,
}

/// What the codes that a file uses are called, and the tables that name them.
fn what(file: File) -> (&'static str, &'static str) {
    match file {
        R => ("receiver codes", "H600, H610, .. H690"),
        S => ("source codes", "H700, H720, .. H880"),
        X => ("instruments", "H400, H420, .. H560"),
    }
}

/// The first records of the tables for the codes of a file: the first, the last, and how far
/// they are apart.
fn first_records(file: File) -> (usize, usize, usize) {
    match file {
        R => (600, 690, 10),
        S => (700, 880, 20),
        X => (400, 560, 20),
    }
}

/// The code of a header line, where it names one of those that a file uses.
fn named(file: File, text: &[u8]) -> Option<(String, String)> {
    let (first, last, step) = first_records(file);
    let header = text.get(..4)?;
    let is_it = |number: usize| header == format!("H{number}").as_bytes();
    let code = text.get(32..34)?;
    let is_code = match file {
        X => matches!(code, [b'1'..=b'9', b',']),
        R | S => codes::is_numbered(file, code),
    };
    let code = code.strip_suffix(b",").unwrap_or(code);
    ((first..=last).step_by(step).any(is_it) && is_code).then(|| (name(header), name(code)))
}

/// The lines of R's header that name codes of those that a file uses.
fn naming(r: &Judged, file: File) -> Vec<Naming> {
    let named = r.headers().into_iter().filter_map(|(line, text)| {
        let (header, code) = named(file, &text)?;
        Some(Naming { line, header, code })
    });
    named.collect()
}

/// 24: the line that names the code first.
pub fn named_twice<'a>(case: &Case<'a>) -> Option<Told<'a>> {
    [R, S, X].into_iter().find_map(|file| {
        let named = naming(case.judged, file);
        let again = named.iter().find(|naming| naming.line == case.line())?;
        let Naming { line, header, code } = named.iter().find(|of| of.code == again.code)?;
        let told = Told::of(NAMED_TWICE, [NAMED_BEFORE.with(&[line, header, code])]);
        Some(told.beside(case.judged, *line, 33, FIRST_NAME))
    })
}

/// 25: the code, and those that are named.
pub fn not_named<'a>(case: &Case<'a>) -> Option<Told<'a>> {
    let [r, ..] = case.set()?;
    let (file, text) = (case.judged.kind, case.text()?);
    let code = match file {
        R | S => name(text.get(26..28)?),
        X => name(text.get(12..13)?),
    };
    let code = if code.is_empty() { "a blank, which is 1".to_owned() } else { code };
    let (codes, tables) = what(file);
    let named = naming(r, file);
    let words = if named.is_empty() { NONE_NAMED } else { THESE_NAMED };
    let rows = named.iter().map(|of| NAMED.with(&[&of.code, &of.line, &of.header]));
    let tables = match file {
        R | S => TABLES.with(&[&codes, &tables]),
        X => TABLES_OF_X.with(&[&codes, &tables]),
    };
    let mut found = vec![tables, words.with(&[&code, &codes])];
    found.extend(rows);
    Some(Told::of(CODE_NOT_NAMED, found))
}
