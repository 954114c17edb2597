//! The fields by the tables of the paper: each broken once, with its name, its columns and what it
//! takes.

use crate::claims::made::{said_of, Refused};
use crate::media;
use crate::message::Message;
use small_sets::place::first;
use small_sets::File::{self, R, S, X};
use small_sets::{set_a, Set};

/// A text that breaks the field, its first and last column, its name, and its rule.
type Field = (&'static str, usize, usize, &'static str, &'static str);

const NAME: &str = "text whose first column is not blank";
const POINT: &str = "whole number, 0 to 99999999";
const ONE_TO_NINE: &str = "1 to 9, blank is 1";
const CHANNEL: &str = "whole number, 1 to 9999";

const HEADER: [Field; 2] = [
    ("0A", 2, 3, "header type", "two digits"),
    ("A", 4, 4, "column after the header type", "a blank or a digit"),
];

const POINTS: [Field; 14] = [
    (" L1             ", 2, 17, "line name", NAME),
    ("     1.0", 18, 25, "point number", POINT),
    ("0", 26, 26, "point index", ONE_TO_NINE),
    ("Q1", 27, 28, "point code", "one of these codes"),
    ("1000", 29, 32, "static", "whole number, -999 to 999, may be blank"),
    ("1000", 33, 36, "depth", "decimal, 0.0 to 99.9, or tenths 0 to 999 without a point"),
    ("   A", 37, 40, "seismic datum", "whole number, -999 to 9999"),
    ("-1", 41, 42, "uphole", "whole number, 0 to 99, may be blank"),
    ("1000", 43, 46, "water depth", "0.0 to 99.9, or whole metres 0 to 999, may be blank"),
    ("     1.00", 47, 55, "easting", "decimal, or tenths without a point"),
    ("         -", 56, 65, "northing", "decimal, or tenths without a point"),
    (
        "-10000",
        66,
        71,
        "elevation",
        "decimal, -999.9 to 9999.9, or tenths -9999 to 99999 without a point",
    ),
    ("  0", 72, 74, "day", "whole number, 1 to 999"),
    ("236000", 75, 80, "time", "hhmmss, 000000 to 235959, minutes and seconds below 60"),
];

const RELATION: [Field; 14] = [
    (" 100  ", 2, 7, "tape", NAME),
    ("  -1", 8, 11, "field record", "whole number, 0 to 9999"),
    ("0", 12, 12, "record increment", ONE_TO_NINE),
    ("A", 13, 13, "instrument", ONE_TO_NINE),
    (" L1             ", 14, 29, "source line name", NAME),
    ("      + ", 30, 37, "source point", POINT),
    ("0", 38, 38, "source index", ONE_TO_NINE),
    ("   0", 39, 42, "from channel", CHANNEL),
    ("   0", 43, 46, "to channel", CHANNEL),
    ("-", 47, 47, "channel increment", ONE_TO_NINE),
    (" L1             ", 48, 63, "receiver line name", NAME),
    ("        ", 64, 71, "from receiver", POINT),
    ("     1 3", 72, 79, "to receiver", POINT),
    ("0", 80, 80, "receiver index", ONE_TO_NINE),
];

/// The fields of a line of a file, each broken in set A, on disc and on tape.
fn broken(file: File, line: usize, fields: &[Field]) -> Vec<(Set, Field)> {
    let put = |field: &Field| {
        let sets = media(&set_a().put(file, line, field.1, field.0));
        sets.map(|set| (set, *field))
    };
    fields.iter().flat_map(put).collect()
}

#[test]
fn each_field() {
    let points = [R, S].into_iter().flat_map(|file| broken(file, first(), &POINTS));
    let sets = broken(R, 3, &HEADER).into_iter().chain(points);
    let (sets, fields): (Vec<Set>, Vec<Field>) = sets.chain(broken(X, first(), &RELATION)).unzip();
    let refused: Vec<Refused> = sets.into_iter().filter_map(Refused::of).collect();
    assert_eq!(refused.len(), 2 * (2 + 2 * 14 + 14));
    let said = said_of("each_field", &refused);
    for (said, (text, from, to, name, takes)) in said.iter().zip(fields) {
        let (message, _, _, column) = Message::read(said);
        assert_eq!((message.number, usize::from(column), text.len()), (5, from, to + 1 - from));
        let columns = match from == to {
            true => format!("column {from}"),
            false => format!("columns {from} to {to}"),
        };
        let found = format!("{name}, {columns}: found \"{text}\"; ");
        assert!(message.found[0].starts_with(&found), "{said}");
        assert_eq!(message.found[1], format!("{name} takes: {takes}"));
    }
}
