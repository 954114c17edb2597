//! One reading of a line: the call, the wrapper and the naive reader.

use crate::carried::{self, bytes_of, Numbers, FREE};
use crate::lent::lent;
use crate::told::refused;
use crate::{archive, wrapped};
use naive::{HostNumber, PointValues};
use small_sets::{File, Medium, STAYS};
use sps::{Point, PointState};
use std::fmt;

/// A line of a file on a medium, as a host asks for it.
#[derive(Clone, Copy, Debug)]
pub struct Asked<'a> {
    pub medium: u64,
    pub file: &'a [u8],
    pub line: u64,
}

impl Asked<'_> {
    /// The medium, where it has a name.
    fn named(&self) -> Option<sps::Medium> {
        let media = [Medium::Disc, Medium::Tape];
        media.into_iter().find(|medium| *medium as u64 == self.medium).map(wrapped::medium)
    }
}

/// The line that is asked for, as it stands in the file.
impl fmt::Display for Asked<'_> {
    fn fmt(&self, f: &mut fmt::Formatter) -> fmt::Result {
        let width = if self.medium == Medium::Tape as u64 { 80 } else { 82 };
        let above = usize::try_from(self.line).map_or(usize::MAX, |line| line.wrapping_sub(1));
        let line = self.file.chunks_exact(width).nth(above).unwrap_or(b"");
        write!(f, "medium {}, line {}: {}", self.medium, self.line, line.escape_ascii())
    }
}

/// Holds the readers together on a line of R or S, by its letter, in every byte that is lent, and
/// returns the number of the call.
pub fn point(asked: Asked, letter: u64) -> u64 {
    let Asked { medium, file, line } = asked;
    let read = naive::medium(medium).and_then(|of| naive::point_at(of, letter, file, line));
    let (number, bytes) =
        lent(STAYS, 128, |values| archive::read_point(medium, letter, file, line, values));
    assert_eq!(number, read.host_number(), "letter {letter}, {asked}");
    let told = read.map(|values| told(&values, &bytes));
    assert_eq!(bytes, places(told.ok()), "letter {letter}, {asked}");
    if let (Some(medium), Some(kind)) = (asked.named(), File::of_kind(letter)) {
        let found = sps::read_point(medium, wrapped::file(kind), file, line);
        let expected = read.ok().and_then(|values| carried::point(&values)).map(|(_, point)| point);
        match (found, expected) {
            (Ok(found), Some(expected)) => assert_eq!(found, named(expected, found)),
            (found, _) => assert_eq!(found.map_err(refused), Err(number)),
        }
    }
    number
}

/// The same on a line of X.
pub fn relation(asked: Asked) -> u64 {
    let Asked { medium, file, line } = asked;
    let read = naive::medium(medium).and_then(|of| naive::relation_at(of, file, line));
    let (number, bytes) =
        lent(STAYS, 128, |values| archive::read_relation(medium, file, line, values));
    assert_eq!(number, read.host_number(), "X, {asked}");
    let told = read.map(|values| carried::of_relation(&values));
    assert_eq!(bytes, places(told.ok()), "X, {asked}");
    if let Some(medium) = asked.named() {
        let found = sps::read_relation(medium, file, line).map_err(refused);
        let expected = read.map(|values| carried::relation(&values));
        assert_eq!(found, expected.map_err(|refusal| refusal.host_number()));
    }
    number
}

/// All that is lent, of a line that is read or of a refusal.
fn places(numbers: Option<Numbers>) -> Vec<u8> {
    numbers.map_or(vec![STAYS; 128], bytes_of)
}

/// The numbers of a point; those of a marker's free columns are as they are found.
fn told(values: &PointValues, found: &[u8]) -> Numbers {
    let mut numbers = carried::of_point(values);
    if values.state == PointValues::MARKER {
        for place in FREE {
            let (places, _) = found.as_chunks();
            numbers[place] = u64::from_le_bytes(places[place]);
        }
    }
    numbers
}

/// The same by name.
fn named(expected: Point, found: Point) -> Point {
    let Point { name, index, code, state, easting, northing, elevation, .. } = expected;
    match state {
        PointState::Marker => {
            Point { name, index, code, state, easting, northing, elevation, ..found }
        }
        PointState::Live | PointState::Killed => expected,
    }
}
