//! The one spelling in which lines are written, made from the text of a line in any.

use crate::damage::Fields;
use crate::lines::{OF_POINTS, OF_RELATIONS};
use crate::spellings::Spelling;
use small_sets::Line;

/// What is written for the text of a field, without the blanks before either.
type Way = fn(&str) -> String;

const POINT: [Way; 14] = [
    as_it_stands, // line name
    whole,        // point number
    index,        // point index
    as_it_stands, // point code
    whole,        // static
    decimal,      // depth
    whole,        // seismic datum
    whole,        // uphole
    water_depth,  // water depth
    decimal,      // easting
    decimal,      // northing
    decimal,      // elevation
    whole,        // day
    as_it_stands, // time
];

const RELATION: [Way; 14] = [
    as_it_stands, // tape
    whole,        // field record
    index,        // record increment
    index,        // instrument
    as_it_stands, // source line name
    whole,        // source point
    index,        // source index
    whole,        // from channel
    whole,        // to channel
    index,        // channel increment
    as_it_stands, // receiver line name
    whole,        // from receiver
    whole,        // to receiver
    index,        // receiver index
];

/// A well-formed line of R or S that is no marker.
pub fn point(line: Line) -> Line {
    each(Spelling::Pointed.line(line), OF_POINTS, POINT)
}

/// A well-formed line of X.
pub fn relation(line: Line) -> Line {
    each(line, OF_RELATIONS, RELATION)
}

fn each(mut line: Line, fields: Fields, ways: [Way; 14]) -> Line {
    for (&(first, last), way) in fields.iter().zip(ways) {
        let field = &mut line.0[first - 1..last];
        let text = way(String::from_utf8_lossy(field).trim_start());
        field.copy_from_slice(format!("{text:>width$}", width = field.len()).as_bytes());
    }
    line
}

fn as_it_stands(text: &str) -> String {
    text.to_owned()
}

/// No zeros before it, and no minus before 0; blank where it was.
fn whole(text: &str) -> String {
    let (sign, digits) = match text.strip_prefix('-') {
        Some(digits) => ("-", digits),
        None => ("", text),
    };
    match (digits, digits.trim_start_matches('0')) {
        ("", _) => String::new(),
        (_, "") => "0".to_owned(),
        (_, digits) => format!("{sign}{digits}"),
    }
}

/// 1 where it was blank.
fn index(text: &str) -> String {
    if text.is_empty() { "1" } else { text }.to_owned()
}

/// It has its point or no room for it; no minus before 0.
fn decimal(text: &str) -> String {
    if text == "-0.0" { "0.0" } else { text }.to_owned()
}

/// Whole metres of one or two digits get a point.
fn water_depth(text: &str) -> String {
    match text.split_once('.') {
        Some((metres, tenth)) => format!("{}.{tenth}", whole(metres)),
        None => match whole(text) {
            metres if (1..=2).contains(&metres.len()) => metres + ".0",
            metres => metres,
        },
    }
}
