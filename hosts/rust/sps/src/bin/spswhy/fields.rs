//! The fields of a line with their rules, as the paper's tables have them.

use sps::File;
use std::fmt;

/// First and last column, name, and rule.
pub struct Field {
    pub first: usize,
    pub last: usize,
    pub name: &'static str,
    pub rule: Rule,
}

/// What a field holds. The ends of decimals are in tenths.
#[derive(Clone, Copy, PartialEq, Eq)]
pub enum Rule {
    Name,
    Whole {
        least: i64,
        most: i64,
    },
    WholeOrBlank {
        least: i64,
        most: i64,
    },
    Decimal {
        least: i64,
        most: i64,
    },
    Coordinate,
    WaterDepth,
    OneToNine,
    /// `codes` has the families that a file may have.
    Code,
    Time,
    HeaderType,
    AfterType,
}

use Rule::*;

const POINT_NUMBER: Rule = Whole { least: 0, most: 99_999_999 };
const CHANNEL: Rule = Whole { least: 1, most: 9_999 };

const fn field(first: usize, last: usize, name: &'static str, rule: Rule) -> Field {
    Field { first, last, name, rule }
}

const HEADER: [Field; 2] = [
    field(2, 3, "header type", HeaderType),
    field(4, 4, "column after the header type", AfterType),
];

const POINT: [Field; 14] = [
    field(2, 17, "line name", Name),
    field(18, 25, "point number", POINT_NUMBER),
    field(26, 26, "point index", OneToNine),
    field(27, 28, "point code", Code),
    field(29, 32, "static", WholeOrBlank { least: -999, most: 999 }),
    field(33, 36, "depth", Decimal { least: 0, most: 999 }),
    field(37, 40, "seismic datum", Whole { least: -999, most: 9_999 }),
    field(41, 42, "uphole", WholeOrBlank { least: 0, most: 99 }),
    field(43, 46, "water depth", WaterDepth),
    field(47, 55, "easting", Coordinate),
    field(56, 65, "northing", Coordinate),
    field(66, 71, "elevation", Decimal { least: -9_999, most: 99_999 }),
    field(72, 74, "day", Whole { least: 1, most: 999 }),
    field(75, 80, "time", Time),
];

const RELATION: [Field; 14] = [
    field(2, 7, "tape", Name),
    field(8, 11, "field record", Whole { least: 0, most: 9_999 }),
    field(12, 12, "record increment", OneToNine),
    field(13, 13, "instrument", OneToNine),
    field(14, 29, "source line name", Name),
    field(30, 37, "source point", POINT_NUMBER),
    field(38, 38, "source index", OneToNine),
    field(39, 42, "from channel", CHANNEL),
    field(43, 46, "to channel", CHANNEL),
    field(47, 47, "channel increment", OneToNine),
    field(48, 63, "receiver line name", Name),
    field(64, 71, "from receiver", POINT_NUMBER),
    field(72, 79, "to receiver", POINT_NUMBER),
    field(80, 80, "receiver index", OneToNine),
];

/// The field that starts at a column of a line.
pub fn starts_at(file: File, line: &[u8], column: usize) -> Option<&'static Field> {
    let fields: &[Field] = match (line.first(), file) {
        (Some(b'H'), _) => &HEADER,
        (_, File::X) => &RELATION,
        (_, File::R | File::S) => &POINT,
    };
    fields.iter().find(|field| field.first == column)
}

impl Field {
    /// Its columns in words.
    pub fn columns(&self) -> String {
        match (self.first, self.last) {
            (first, last) if first == last => format!("column {first}"),
            (first, last) => format!("columns {first} to {last}"),
        }
    }
}

/// Tenths with their point.
pub fn tenths(number: i64) -> String {
    let (minus, size) = (if number < 0 { "-" } else { "" }, number.unsigned_abs());
    format!("{minus}{}.{}", size / 10, size % 10)
}

/// What the field takes.
impl fmt::Display for Rule {
    fn fmt(&self, f: &mut fmt::Formatter) -> fmt::Result {
        match *self {
            Name => f.write_str("text whose first column is not blank"),
            Whole { least, most } => write!(f, "whole number, {least} to {most}"),
            WholeOrBlank { least, most } => {
                write!(f, "whole number, {least} to {most}, may be blank")
            }
            Decimal { least, most } => {
                let ends = [tenths(least), tenths(most)];
                write!(f, "decimal, {} to {}, ", ends[0], ends[1])?;
                write!(f, "or tenths {least} to {most} without a point")
            }
            Coordinate => f.write_str("decimal, or tenths without a point"),
            WaterDepth => f.write_str("0.0 to 99.9, or whole metres 0 to 999, may be blank"),
            OneToNine => f.write_str("1 to 9, blank is 1"),
            Code => f.write_str("one of these codes"),
            Time => f.write_str("hhmmss, 000000 to 235959, minutes and seconds below 60"),
            HeaderType => f.write_str("two digits"),
            AfterType => f.write_str("a blank or a digit"),
        }
    }
}
