//! A well-formed line, read and written, comes back in the one spelling; a line that is in it
//! comes back byte for byte.

use crate::written::{point, relation, values_of_point, values_of_relation};
use many_sets::run::{random, turns};
use many_sets::sound::sound;
use many_sets::{lines, written};
use naive::File;
use small_sets::{table, Line, Medium, Set};
use std::collections::BTreeSet;

/// The lines that were in the one spelling, the others, and the markers.
#[derive(Debug, Default)]
struct Tally {
    same: usize,
    other: usize,
    markers: usize,
}

impl Tally {
    /// Holds a line to what comes back of it, and that to itself.
    fn hold(&mut self, file: File, line: Line) {
        if file != File::X && line.0[26..28] == *b"PM" {
            self.markers += 1;
            return assert_eq!(back(file, line), Err(22), "{}", line.0.escape_ascii());
        }
        let expected = match file {
            File::X => written::relation(line),
            File::R | File::S => written::point(line),
        };
        assert_eq!(back(file, line), Ok(expected), "{}", line.0.escape_ascii());
        assert_eq!(back(file, expected), Ok(expected));
        match line == expected {
            true => self.same += 1,
            false => self.other += 1,
        }
    }
}

/// A line, read and written.
fn back(file: File, line: Line) -> Result<Line, u8> {
    match file {
        File::X => relation(&values_of_relation(&line).expect("a relation")),
        File::R | File::S => point(&values_of_point(file, &line).expect("a point")),
    }
}

#[test]
fn made_lines() {
    let mut random = random(108);
    let mut tally = Tally::default();
    for _ in 0..turns(8_000) {
        let line = lines::point(&mut random, small_sets::File::R);
        tally.hold(File::R, line);
        let line = lines::point(&mut random, small_sets::File::S);
        tally.hold(File::S, line);
        let line = lines::relation(&mut random);
        tally.hold(File::X, line);
    }
    assert!(tally.same > 100 && tally.other > 10_000, "{tally:?}");
}

/// The own lines of a disc set that are well formed.
fn own_lines(set: &Set) -> Vec<(File, Line)> {
    let mut lines = Vec::new();
    for (file, of) in [File::R, File::S, File::X].into_iter().zip(small_sets::File::ALL) {
        for line in (1..=set.lines(of)).map(|line| set.line(of, line)) {
            let own = line.0.starts_with(of.letter().as_bytes());
            let printed = line.0.iter().all(|byte| (32..=126).contains(byte));
            let read = match file {
                File::X => values_of_relation(&line).is_ok(),
                File::R | File::S => values_of_point(file, &line).is_ok(),
            };
            if own && printed && read {
                lines.push((file, line));
            }
        }
    }
    lines
}

#[test]
fn lines_of_made_sets() {
    let mut random = random(109);
    let mut tally = Tally::default();
    for _ in 0..turns(500) {
        for (file, line) in own_lines(&sound(&mut random).set) {
            tally.hold(file, line);
        }
    }
    assert!(tally.same > 20 && tally.other > 1_000 && tally.markers > 100, "{tally:?}");
}

#[test]
fn lines_of_the_table() {
    let mut tally = Tally::default();
    let mut seen = BTreeSet::new();
    for case in table().iter().filter(|case| case.set.medium == Medium::Disc) {
        for (file, line) in own_lines(&case.set) {
            if seen.insert(line.0) {
                tally.hold(file, line);
            }
        }
    }
    assert!(tally.same > 100 && tally.other > 100 && tally.markers > 10, "{tally:?}");
}
