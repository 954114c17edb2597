//! One field of a line: what it may hold and what it is worth. A field that
//! breaks its rule is fault 5 at its first column.

use crate::codes::is_code;
use crate::{Fault, File, Line};
use std::ops::RangeInclusive;

/// The columns of a field, and the first of them.
#[derive(Clone, Copy)]
pub struct Field<'a> {
    first: u8,
    bytes: &'a [u8],
}

/// Columns `first` to `last` of a line, as the paper counts them.
pub fn field(line: &Line, first: u8, last: u8) -> Field<'_> {
    let bytes = &line[usize::from(first) - 1..usize::from(last)];
    Field { first, bytes }
}

impl Field<'_> {
    /// A whole number within a range.
    pub fn whole(self, range: RangeInclusive<i64>) -> Result<i64, Fault> {
        self.number(range, digits)
    }

    /// A decimal within a range, both in tenths: with a point, or digits alone, which
    /// count tenths.
    pub fn decimal(self, range: RangeInclusive<i64>) -> Result<i64, Fault> {
        self.number(range, tenths)
    }

    /// A decimal as large as its columns hold, of either sign.
    pub fn any_decimal(self) -> Result<i64, Fault> {
        self.decimal(i64::MIN..=i64::MAX)
    }

    /// Nothing where all columns are blank, otherwise what `read` makes of them.
    pub fn or_blank(
        self,
        read: impl FnOnce(Self) -> Result<i64, Fault>,
    ) -> Result<Option<i64>, Fault> {
        if self.bytes.iter().all(|&byte| byte == b' ') {
            return Ok(None);
        }
        read(self).map(Some)
    }

    /// With a point a decimal up to 99.9, without one whole metres up to 999; in tenths.
    pub fn water_depth(self) -> Result<i64, Fault> {
        if self.bytes.contains(&b'.') {
            self.number(0..=999, pointed)
        } else {
            self.whole(0..=999).map(|metres| metres * 10)
        }
    }

    /// One column, 1 to 9, where blank is 1: an index, an increment, an instrument.
    pub fn one_to_nine(self) -> Result<u8, Fault> {
        match self.bytes {
            b" " => Ok(1),
            &[digit @ b'1'..=b'9'] => Ok(digit - b'0'),
            _ => Err(self.fault()),
        }
    }

    /// A name or tape as it stands, its first column not blank.
    pub fn name<const N: usize>(self) -> Result<[u8; N], Fault> {
        match <[u8; N]>::try_from(self.bytes) {
            Ok(name) if name[0] != b' ' => Ok(name),
            _ => Err(self.fault()),
        }
    }

    /// A point number.
    pub fn point(self) -> Result<u32, Fault> {
        self.whole(0..=99_999_999).map(|point| point as u32)
    }

    /// Six digits hhmmss, 000000 to 235959, minutes and seconds below 60.
    pub fn time(self) -> Result<u32, Fault> {
        match digits(self.bytes) {
            Some(time) if time <= 235_959 && time / 100 % 100 < 60 && time % 100 < 60 => {
                Ok(time as u32)
            }
            _ => Err(self.fault()),
        }
    }

    /// The two bytes of a code of the file.
    pub fn code(self, file: File) -> Result<[u8; 2], Fault> {
        match *self.bytes {
            [first, second] if is_code(file, self.bytes) => Ok([first, second]),
            _ => Err(self.fault()),
        }
    }

    /// Whether the field holds exactly this text.
    pub fn is(self, text: &[u8]) -> bool {
        self.bytes == text
    }

    /// Blanks, an optional minus where the range has negatives, then what `read`
    /// takes up to the last column.
    fn number(
        self,
        range: RangeInclusive<i64>,
        read: fn(&[u8]) -> Option<i64>,
    ) -> Result<i64, Fault> {
        let blanks = self.bytes.iter().take_while(|&&byte| byte == b' ').count();
        let value = match &self.bytes[blanks..] {
            [b'-', size @ ..] if *range.start() < 0 => read(size).map(|size| -size),
            size => read(size),
        };
        value.filter(|value| range.contains(value)).ok_or(self.fault())
    }

    fn fault(self) -> Fault {
        Fault { number: 5, column: self.first }
    }
}

/// Whether the bytes that a caller gives are a name or a tape: bytes 32 to 126, the first of
/// them not blank.
pub fn is_name(bytes: &[u8]) -> bool {
    bytes.iter().all(|byte| (32..=126).contains(byte)) && bytes.first() != Some(&b' ')
}

/// One digit or more, and nothing else. A field has at most 16 columns.
fn digits(bytes: &[u8]) -> Option<i64> {
    if bytes.is_empty() || !bytes.iter().all(u8::is_ascii_digit) {
        return None;
    }
    let value = bytes.iter().fold(0, |value, digit| value * 10 + i64::from(digit - b'0'));
    Some(value)
}

/// Digits, a point and exactly one digit, in tenths.
fn pointed(bytes: &[u8]) -> Option<i64> {
    match bytes {
        [whole @ .., b'.', tenth] => Some(digits(whole)? * 10 + digits(&[*tenth])?),
        _ => None,
    }
}

/// A decimal of either spelling, in tenths.
fn tenths(bytes: &[u8]) -> Option<i64> {
    pointed(bytes).or_else(|| digits(bytes))
}
