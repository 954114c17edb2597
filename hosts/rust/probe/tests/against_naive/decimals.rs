//! Depth, easting, northing and elevation: both spellings of a value are that value to both
//! readers.

use crate::compare::compare;
use many_sets::lines::{marker, point};
use many_sets::run::{random, turns};
use many_sets::spellings::Spelling::{Bare, Pointed};
use naive::{read_point, Fault, File};
use probe::Point;
use small_sets::{receiver, Line};

/// A field: its first column, its width, and its value.
type Field = (usize, usize, fn(Point) -> i64);

const DEPTH: Field = (33, 4, |point| point.depth);
const WATER_DEPTH: Field = (43, 4, |point| point.water_depth.expect("a water depth"));
const EASTING: Field = (47, 9, |point| point.easting);
const NORTHING: Field = (56, 10, |point| point.northing);
const ELEVATION: Field = (66, 6, |point| point.elevation);

/// What a text on the right of a field is worth to both readers, or why it is refused.
fn read((column, width, value): Field, text: &str) -> Result<i64, Fault> {
    let line = receiver(101).at(column, &format!("{text:>width$}"));
    compare(File::R, line).map(|()| value(probe::point(&line.0)))
}

/// Holds a value in each spelling that has room.
fn hold(field: Field, tenths: i64) {
    for text in [Pointed, Bare].map(|spelling| spelling.text(tenths)) {
        if text.len() <= field.1 {
            assert_eq!(read(field, &text), Ok(tenths), "`{text}`");
        }
    }
}

fn refused(field: Field, tenths: i64) {
    let (text, fault) = (Bare.text(tenths), Fault { number: 5, column: field.0 as u8 });
    assert_eq!(read(field, &text), Err(fault), "`{text}`");
}

#[test]
fn each_depth() {
    (0..=999).for_each(|tenths| hold(DEPTH, tenths));
    (1_000..=9_999).for_each(|tenths| refused(DEPTH, tenths));
    (-999..=-1).for_each(|tenths| refused(DEPTH, tenths));
}

#[test]
fn each_elevation() {
    (-9_999..=99_999).for_each(|tenths| hold(ELEVATION, tenths));
    (-10_100..=-10_000).for_each(|tenths| refused(ELEVATION, tenths));
    (100_000..=100_100).for_each(|tenths| refused(ELEVATION, tenths));
    [-99_999, 999_999].into_iter().for_each(|tenths| refused(ELEVATION, tenths));
}

/// All that the columns hold: the ends of each number of digits, and some between.
#[test]
fn eastings_and_northings() {
    let mut random = random(12);
    for field in [EASTING, NORTHING] {
        hold(field, 0);
        for digits in 1..=field.1 {
            let (low, next) = (10_i64.pow(digits as u32 - 1), 10_i64.pow(digits as u32));
            let between = (0..turns(500)).map(|_| low + random.below((next - low) as usize) as i64);
            for tenths in [low, next - 1].into_iter().chain(between) {
                hold(field, tenths);
                if digits < field.1 {
                    hold(field, -tenths);
                }
            }
        }
    }
}

/// Without a point it counts metres.
#[test]
fn water_depths() {
    for number in 0..=999 {
        assert_eq!(read(WATER_DEPTH, &Bare.text(number)), Ok(10 * number));
        assert_eq!(read(WATER_DEPTH, &Pointed.text(number)), Ok(number));
    }
    (1_000..=9_999).for_each(|number| refused(WATER_DEPTH, number));
}

/// Lines made from a seed, with points and without: the same values.
#[test]
fn made_lines() {
    let mut random = random(13);
    for (file, letter) in [(File::R, small_sets::File::R), (File::S, small_sets::File::S)] {
        for turn in 0..turns(4_000) {
            let line = if turn % 8 == 0 { marker } else { point }(&mut random, letter);
            let values = |line: Line| {
                assert_eq!(compare(file, line), Ok(()), "{}", line.0.escape_ascii());
                read_point(file, &line.0)
            };
            let made = values(line);
            assert_eq!(values(Pointed.line(line)), made, "{}", line.0.escape_ascii());
            assert_eq!(values(Bare.line(line)), made, "{}", line.0.escape_ascii());
        }
    }
}
