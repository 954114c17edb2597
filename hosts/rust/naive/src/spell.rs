//! The one spelling of a value. There is none for a value that its rule forbids or that its
//! columns cannot hold.

use crate::codes::is_code;
use crate::fields::is_name;
use crate::File;
use std::ops::RangeInclusive;

/// A name or a tape, as it stands.
pub fn name(bytes: &[u8]) -> Option<String> {
    is_name(bytes).then(|| text(bytes))
}

/// A code of the file.
pub fn code(file: File, bytes: &[u8]) -> Option<String> {
    is_code(file, bytes).then(|| text(bytes))
}

fn text(bytes: &[u8]) -> String {
    bytes.iter().copied().map(char::from).collect()
}

/// A whole number within a range.
pub fn whole(number: impl TryInto<i64>, range: RangeInclusive<i64>) -> Option<String> {
    let number = number.try_into().ok()?;
    range.contains(&number).then(|| number.to_string())
}

/// A decimal within a range, both in tenths.
pub fn decimal(tenths: i64, range: RangeInclusive<i64>) -> Option<String> {
    range.contains(&tenths).then(|| pointed(tenths))
}

/// Easting or northing: with its point where so many columns have room for it, otherwise
/// digits alone, which count tenths.
pub fn coordinate(tenths: i64, columns: usize) -> Option<String> {
    [pointed(tenths), tenths.to_string()].into_iter().find(|text| text.len() <= columns)
}

/// Up to 99.9 with a point, above it whole metres up to 999.
pub fn water_depth(tenths: i64) -> Option<String> {
    match tenths {
        0..=999 => Some(pointed(tenths)),
        1_000..=9_990 if tenths % 10 == 0 => Some((tenths / 10).to_string()),
        _ => None,
    }
}

/// Six digits hhmmss, the zeros before them too.
pub fn time(time: u64) -> Option<String> {
    let (hours, minutes, seconds) = (time / 10_000, time / 100 % 100, time % 100);
    let exists = hours < 24 && minutes < 60 && seconds < 60;
    exists.then(|| format!("{time:06}"))
}

/// Nothing for an absent value.
pub fn or_blank(value: Option<i64>, spell: impl FnOnce(i64) -> Option<String>) -> Option<String> {
    value.map_or(Some(String::new()), spell)
}

/// A sign where it is negative, digits, a point, and one digit.
fn pointed(tenths: i64) -> String {
    let (sign, size) = (if tenths < 0 { "-" } else { "" }, tenths.unsigned_abs());
    format!("{sign}{}.{}", size / 10, size % 10)
}
