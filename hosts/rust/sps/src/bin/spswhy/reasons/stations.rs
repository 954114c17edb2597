//! Points by line name, number and index: what a shot or a receiver is found by.

use crate::files::Judged;
use crate::words::{clear, list, name, quoted};
use sps::{Point, PointState, Relation};
use std::collections::BTreeSet;
use std::fmt;

/// Line name, point number and index, by value.
#[derive(Clone, Copy, PartialEq, Eq, Hash)]
pub struct Place {
    pub name: [u8; 16],
    pub number: u64,
    pub index: u64,
}

impl Place {
    pub fn of(point: &Point) -> Place {
        Place { name: point.name, number: point.number, index: point.index }
    }

    /// The source of a relation line.
    pub fn source(of: &Relation) -> Place {
        Place { name: of.source_name, number: of.source_number, index: of.source_index }
    }
}

impl fmt::Display for Place {
    fn fmt(&self, f: &mut fmt::Formatter) -> fmt::Result {
        write!(f, "{} {} index {}", clear(&self.name), self.number, self.index)
    }
}

/// A whole number in some columns, blanks before it.
pub fn number(columns: &[u8]) -> Option<u64> {
    std::str::from_utf8(columns).ok()?.trim_ascii_start().parse().ok()
}

/// The receivers of R or the shots of S, killed or not, with their lines.
pub fn stations(file: &Judged) -> Vec<(u64, Point)> {
    file.points().filter(|(_, point)| point.state != PointState::Marker).collect()
}

/// The line of a marker that stands as if it were a point. Its number is free text.
pub fn marker(file: &Judged, place: Place) -> Option<u64> {
    let mut markers = file.points().filter(|(_, point)| {
        let same = point.name == place.name && point.index == place.index;
        same && point.state == PointState::Marker
    });
    let is_it = |line| number(file.text(line)?.get(17..25)?);
    markers.find(|(line, _)| is_it(*line) == Some(place.number)).map(|(line, _)| line)
}

/// How many names are told at most.
const TOLD: usize = 3;

/// The line names of some points, the first ones in quotes.
pub fn names(of: &[(u64, Point)]) -> String {
    let all: BTreeSet<[u8; 16]> = of.iter().map(|(_, point)| point.name).collect();
    let told = all.iter().take(TOLD).map(|of| quoted(name(of).as_bytes()));
    let more = all.len().checked_sub(TOLD).filter(|more| *more > 0);
    let more = more.map(|more| format!("{more} more"));
    let names: Vec<String> = told.chain(more).collect();
    if names.is_empty() {
        return "none at all".to_owned();
    }
    list(&names)
}
