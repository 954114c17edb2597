//! 4: the letter in column 1, and what the files look like by their letters.

use super::{Case, Told};
use crate::files::Judged;
use crate::rows::form::*;
use crate::words::{list, quoted};
use sps::Medium;

/// The lines that are no header lines, with their letters, up to the record that ends a tape.
fn data(file: &Judged) -> impl Iterator<Item = (u64, char)> + '_ {
    let ends = |text: &[u8]| file.medium == Medium::Tape && text.starts_with(b"EOF");
    let lines = file.texts().take_while(move |(_, text)| !ends(text));
    lines.map(|(line, text)| (line, char::from(text[0]))).filter(|(_, letter)| *letter != 'H')
}

pub fn letter<'a>(case: &Case<'a>) -> Option<Told<'a>> {
    let (line, first) = data(case.judged).next()?;
    let text = case.text()?;
    let kind = case.judged.kind;
    if text.starts_with(b"H") {
        let found = NEEDS_OWN.with(&[&line, &kind]);
        return Some(Told::of(LATE_HEADER, [found]).beside(case.judged, line, 1, FIRST_DATA));
    }
    let letters = match line == case.line() {
        true => format!("H or {kind}"),
        false => kind.to_string(),
    };
    let mut found = vec![NEEDS_LETTER.with(&[&quoted(&text[..1]), &letters])];
    let has_own = data(case.judged).any(|(_, letter)| kind.to_string().starts_with(letter));
    if !has_own && "RSX".contains(first) {
        found.push(LOOKS_LIKE.with(&[&first]));
        found.extend(order_of_files(case));
    }
    Some(Told::of(OTHER_LETTER, found))
}

/// The letters of the three files.
fn order_of_files(case: &Case) -> Option<String> {
    let letter = |file| match data(file).next() {
        Some((_, letter)) => letter.to_string(),
        None => "nothing".to_owned(),
    };
    Some(ORDER_OF_FILES.with(&[&list(&case.set()?.map(letter))]))
}
