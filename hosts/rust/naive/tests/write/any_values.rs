//! Values made from a seed: what a line has is written and read again, all else is 22.

use crate::written::{point, relation, values_of_point, values_of_relation};
use many_sets::run::{random, turns};
use many_sets::values::{at_borders, wide, wrong, Case, Values};
use naive::{File, PointValues, RelationValues};
use small_sets::Line;
use std::collections::BTreeSet;
use std::fmt::Debug;

/// Values that can be written, and read again.
trait Written: Values + Debug + PartialEq {
    fn write(&self) -> Result<Line, u8>;
    fn read(line: &Line) -> Self;
}

impl Written for PointValues {
    fn write(&self) -> Result<Line, u8> {
        point(self)
    }

    fn read(line: &Line) -> Self {
        let file = if line.0[0] == b'R' { File::R } else { File::S };
        values_of_point(file, line).expect("a point")
    }
}

impl Written for RelationValues {
    fn write(&self) -> Result<Line, u8> {
        relation(self)
    }

    fn read(line: &Line) -> Self {
        values_of_relation(line).expect("a relation")
    }
}

/// Whether the values are written; then the line has them.
fn hold<V: Written>(values: V) -> bool {
    match values.write() {
        Ok(line) => {
            assert_eq!(V::read(&line), values, "{}", line.0.escape_ascii());
            true
        }
        Err(number) => {
            assert_eq!(number, 22, "{values:?}");
            false
        }
    }
}

fn legal_values<V: Written>(salt: u64) {
    let mut random = random(salt);
    for _ in 0..turns(20_000) {
        let values = V::legal(&mut random);
        assert!(hold(values), "{values:?}");
    }
}

#[test]
fn legal_points() {
    legal_values::<PointValues>(100);
}

#[test]
fn legal_relations() {
    legal_values::<RelationValues>(101);
}

/// Each field has both, values that are written and values that are not.
fn borders<V: Written>(salt: u64) {
    let mut random = random(salt);
    let mut seen = BTreeSet::new();
    for _ in 0..turns(4) {
        for Case { values, field, legal } in at_borders::<V>(&mut random) {
            assert_eq!(hold(values), legal, "{field} of {values:?}");
            seen.insert((field, legal));
        }
    }
    let numbers = V::NUMBERS.iter().map(|(field, ..)| *field);
    let fields: Vec<&str> = numbers.chain(V::NAMES.iter().map(|(field, _)| *field)).collect();
    for field in fields {
        assert!(seen.contains(&(field, true)) && seen.contains(&(field, false)), "{field}");
    }
}

#[test]
fn points_at_borders() {
    borders::<PointValues>(102);
}

#[test]
fn relations_at_borders() {
    borders::<RelationValues>(103);
}

/// Every field is wrong at some time.
fn wrong_values<V: Written>(salt: u64, fields: usize) {
    let mut random = random(salt);
    let mut seen = BTreeSet::new();
    for _ in 0..turns(20_000) {
        let (values, field) = wrong::<V>(&mut random);
        assert_eq!(values.write(), Err(22), "{field} of {values:?}");
        seen.insert(field);
    }
    assert_eq!(seen.len(), fields, "{seen:?}");
}

#[test]
fn wrong_points() {
    wrong_values::<PointValues>(104, 16);
}

#[test]
fn wrong_relations() {
    wrong_values::<RelationValues>(105, 15);
}

/// Some are written, most are not.
fn wide_values<V: Written>(salt: u64) {
    let mut random = random(salt);
    let written = (0..turns(20_000)).filter(|_| hold(wide::<V>(&mut random))).count() as u64;
    assert!((turns(500)..turns(15_000)).contains(&written), "{written} are written");
}

#[test]
fn wide_points() {
    wide_values::<PointValues>(106);
}

#[test]
fn wide_relations() {
    wide_values::<RelationValues>(107);
}
