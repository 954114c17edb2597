//! Random fields that obey their rules.

use small_sets::Random;
use std::ops::RangeInclusive;

/// A number of a range: its ends, 0 and small ones more often.
pub fn value(random: &mut Random, range: &RangeInclusive<i64>) -> i64 {
    let (low, high) = (*range.start(), *range.end());
    match random.below(8) {
        0 => low,
        1 => high,
        2 => 0.clamp(low, high),
        3 => (random.below(25) as i64 - 12).clamp(low, high),
        _ => low + random.below((high - low + 1) as usize) as i64,
    }
}

/// Blanks, a sign, zeros and digits to the last of so many columns. Where the
/// range has negatives 0 has a minus too at times.
fn right(
    random: &mut Random,
    width: usize,
    range: RangeInclusive<i64>,
    digits: fn(i64) -> String,
) -> String {
    let value = value(random, &range);
    let minus = value < 0 || value == 0 && *range.start() < 0 && random.below(2) == 0;
    let sign = if minus { "-" } else { "" };
    let digits = digits(value.abs());
    let room = width - sign.len() - digits.len();
    let zeros = random.below(2) * random.below(room + 1);
    format!("{:>width$}", format!("{sign}{}{digits}", "0".repeat(zeros)))
}

/// A whole number.
pub fn whole(random: &mut Random, width: usize, range: RangeInclusive<i64>) -> String {
    right(random, width, range, |size| size.to_string())
}

/// A decimal of a range in tenths, with its point.
pub fn pointed(random: &mut Random, width: usize, range: RangeInclusive<i64>) -> String {
    right(random, width, range, |size| format!("{}.{}", size / 10, size % 10))
}

/// A decimal of a range in tenths: as often with a point as without one, where digits
/// count tenths.
pub fn decimal(random: &mut Random, width: usize, range: RangeInclusive<i64>) -> String {
    match random.below(2) {
        0 => pointed(random, width, range),
        _ => whole(random, width, range),
    }
}

/// A decimal of any size that its columns hold; seldom one that they hold without a point
/// alone.
pub fn coordinate(random: &mut Random, width: usize) -> String {
    let most = |columns: usize| 10_i64.pow(columns as u32) - 1;
    match random.below(32) {
        0 => whole(random, width, -most(width - 1)..=most(width)),
        _ => decimal(random, width, -most(width - 2)..=most(width - 1)),
    }
}

/// What may be blank, blank at times.
pub fn or_blank(random: &mut Random, field: String) -> String {
    match random.below(4) {
        0 => " ".repeat(field.len()),
        _ => field,
    }
}

/// Text of bytes 32 to 126.
pub fn text(random: &mut Random, width: usize) -> String {
    (0..width).map(|_| char::from(32 + random.below(95) as u8)).collect()
}

/// A name or a tape: text whose first column is not blank, blanks at its end at times.
pub fn name(random: &mut Random, width: usize) -> String {
    let length = random.below(width);
    let first = char::from(33 + random.below(94) as u8);
    format!("{:width$}", format!("{first}{}", text(random, length)))
}

/// One column 1 to 9, or blank.
pub fn index(random: &mut Random) -> String {
    char::from(random.pick(b" 123456789")).to_string()
}
