//! 5: the field as it stands, and what is wrong with it.

use super::{Case, Told};
use crate::codes;
use crate::fields::{starts_at, tenths, Rule};
use crate::rows::form::*;
use crate::words::quoted;
use sps::File;

pub fn field<'a>(case: &Case<'a>) -> Option<Told<'a>> {
    let (kind, text) = (case.judged.kind, case.text()?);
    let field = starts_at(kind, &text, case.refusal.column as usize)?;
    let columns = text.get(field.first - 1..field.last)?;
    let wrong = wrong(field.rule, kind, std::str::from_utf8(columns).ok()?)?;
    let found = WRONG.with(&[&field.name, &field.columns(), &quoted(columns), &wrong]);
    let mut told = Told::of(BROKEN_FIELD, [found, TAKES.with(&[&field.name, &field.rule])]);
    if field.rule == Rule::Code {
        told.found.extend(codes::rows(kind));
    }
    Some(told)
}

/// What is wrong with a text under a rule; nothing where it cannot be told.
fn wrong(rule: Rule, file: File, text: &str) -> Option<String> {
    match rule {
        Rule::WholeOrBlank { .. } | Rule::WaterDepth if text.trim_start().is_empty() => None,
        Rule::Name if text.trim_start().is_empty() => Some(BLANK.plain()),
        Rule::Name => text.starts_with(' ').then(|| FIRST_BLANK.plain()),
        Rule::Whole { least, most } => number(text, least, most, Spelling::Whole),
        Rule::WholeOrBlank { least, most } => number(text, least, most, Spelling::Whole),
        Rule::Decimal { least, most } => number(text, least, most, Spelling::Either),
        Rule::Coordinate => number(text, i64::MIN, i64::MAX, Spelling::Either),
        Rule::WaterDepth if text.contains('.') => number(text, 0, 999, Spelling::Pointed),
        Rule::WaterDepth => number(text, 0, 999, Spelling::Whole),
        Rule::OneToNine => Some(NOT_1_TO_9.plain()),
        Rule::Code => Some(code(file, text)),
        Rule::Time => time(text),
        Rule::HeaderType => Some(TWO_DIGITS.plain()),
        Rule::AfterType => Some(BLANK_OR_DIGIT.plain()),
    }
}

/// How a number is written: digits, digits that count tenths or have a point, or a point.
#[derive(Clone, Copy, PartialEq, Eq)]
enum Spelling {
    Whole,
    Either,
    Pointed,
}

/// What is wrong with a number, its spelling before its range.
fn number(text: &str, least: i64, most: i64, spelling: Spelling) -> Option<String> {
    let size = match misspelled(text, least < 0, spelling) {
        Ok(size) => size,
        Err(wrong) => return Some(wrong),
    };
    let digits: String = size.chars().filter(char::is_ascii_digit).collect();
    let size_in_units: i64 = digits.parse().ok()?;
    let value = if text.contains('-') { -size_in_units } else { size_in_units };
    let counts_tenths = spelling == Spelling::Either && !size.contains('.');
    let (words, limit) = match counts_tenths {
        _ if (least..=most).contains(&value) => return None,
        false if value > most => (ABOVE, most),
        false => (BELOW, least),
        true if value > most => (TENTHS_ABOVE, most),
        true => (TENTHS_BELOW, least),
    };
    Some(match spelling {
        Spelling::Whole => words.with(&[&value, &limit]),
        Spelling::Either | Spelling::Pointed => words.with(&[&tenths(value), &tenths(limit)]),
    })
}

/// The digits and the point of a number, or what is wrong with its spelling.
fn misspelled(text: &str, has_negatives: bool, spelling: Spelling) -> Result<&str, String> {
    let body = text.trim_start_matches(' ');
    let size = body.strip_prefix('-').unwrap_or(body);
    let other = |of: &char| !of.is_ascii_digit() && *of != '.';
    let words = match size.chars().find(other) {
        _ if body.is_empty() => BLANK,
        _ if body.ends_with(' ') => NOT_LAST,
        _ if body.contains('+') => PLUS,
        Some(' ') => BLANK_INSIDE,
        Some(character) => return Err(NO_DIGIT.with(&[&quoted(&[character as u8])])),
        None if size.len() < body.len() && !has_negatives => MINUS,
        None if size.is_empty() => NO_DIGITS,
        None => match (size.split_once('.'), spelling) {
            (None, _) => return Ok(size),
            (Some(_), Spelling::Whole) => POINT,
            (Some(("", _)), _) => BEFORE_POINT,
            (Some((_, after)), _) if after.len() != 1 || after == "." => AFTER_POINT,
            (Some(_), _) => return Ok(size),
        },
    };
    Err(words.plain())
}

/// A code of the other file, or none of either.
fn code(file: File, text: &str) -> String {
    let other = if file == File::R { File::S } else { File::R };
    match codes::is_numbered(other, text.as_bytes()) {
        true => OTHER_CODE.with(&[&other, &file]),
        false => NO_CODE.with(&[&file]),
    }
}

/// The part of a time that is above its limit.
fn time(text: &str) -> Option<String> {
    if text.len() != 6 || !text.bytes().all(|byte| byte.is_ascii_digit()) {
        return Some(SIX_DIGITS.plain());
    }
    let parts = [("hour", 0, "23"), ("minute", 2, "59"), ("second", 4, "59")];
    let above = parts.into_iter().find(|(_, at, limit)| text[*at..at + 2] > **limit);
    above.map(|(part, at, limit)| TIME_PART.with(&[&part, &&text[at..at + 2], &limit]))
}
