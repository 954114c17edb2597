//! 7 to 9: the header of R, and those of S and X beside it.

use super::{Case, Told};
use crate::rows::set::*;
use crate::words::{counted, list, name, quoted, Words};

/// 7: the types that are missing, and lines that look like one of them.
pub fn missing<'a>(case: &Case<'a>) -> Option<Told<'a>> {
    let headers = case.judged.headers();
    let stands = |kind: &String| {
        headers.iter().any(|(_, text)| text[1..3] == *kind.as_bytes() && text[3] == b' ')
    };
    let types = (0..=20).map(|number| format!("{number:02}"));
    let missing: Vec<String> = types.filter(|kind| !stands(kind)).collect();
    let near = headers.iter().filter_map(|(line, text)| {
        let kind = missing.iter().find(|kind| text[1..3] == *kind.as_bytes())?;
        Some(DOES_NOT_COUNT.with(&[line, &name(&text[..4]), &format!("H{kind}")]))
    });
    let types: Vec<String> = missing.iter().map(|kind| format!("H{kind}")).collect();
    let found = (!types.is_empty()).then(|| MISSING.with(&[&list(&types)]))?;
    Some(Told::of(TYPE_MISSING, [found].into_iter().chain(near)))
}

/// 8: what stands where the projection is named.
pub fn projection<'a>(case: &Case<'a>) -> Option<Told<'a>> {
    let text = quoted(name(case.text()?.get(32..80)?).as_bytes());
    Some(Told::of(NO_PROJECTION, [PROJECTION.with(&[&text])]))
}

/// 9: R's line beside that of S or X, or which of the headers ends first.
pub fn differs<'a>(case: &Case<'a>) -> Option<Told<'a>> {
    let [r, ..] = case.set()?;
    let (line, column) = (case.line(), case.refusal.column);
    if let Some(at) = (column as usize).checked_sub(1) {
        let [own, of_r] = [case.text()?, r.text(line)?];
        let [own, of_r] = [quoted(own.get(at..=at)?), quoted(of_r.get(at..=at)?)];
        let found = COLUMN_OF_R.with(&[&column, &own, &of_r]);
        return Some(Told::of(HEADER_DIFFERS, [found]).beside(r, line, column, LINE_OF_R));
    }
    let [own, of_r] = [case.judged, r].map(|file| file.headers().len() as u64);
    let lines = [own, of_r].map(|lines| counted(lines, "line"));
    let told = |words: Words| {
        Told::of(HEADER_DIFFERS, [words.with(&[&case.judged.kind, &lines[0], &lines[1]])])
    };
    Some(match own < of_r {
        true => told(HEADER_ENDS).beside(r, line, 1, LACKING),
        false => told(HEADER_GOES_ON).beside(case.judged, line, 1, NOT_IN_HEADER_OF_R),
    })
}
