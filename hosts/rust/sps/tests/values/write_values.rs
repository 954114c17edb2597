//! Values made from a seed: legal ones, each field at its borders, wrong ones, and numbers of any
//! size.

use crate::write::{hold, Written};
use many_sets::run::{random, turns};
use many_sets::values::{at_borders, wide, wrong};
use naive::{PointValues, RelationValues};
use std::collections::BTreeSet;

/// What no line has.
const NO_VALUE: u64 = 22 << 40;

/// A line, and some bytes more.
const LENGTH: usize = 90;

fn legal_values<V: Written>(salt: u64) {
    let mut random = random(salt);
    for _ in 0..turns(20_000) {
        assert_eq!(hold(&V::legal(&mut random), LENGTH), 0);
    }
}

#[test]
fn legal_points() {
    legal_values::<PointValues>(120);
}

#[test]
fn legal_relations() {
    legal_values::<RelationValues>(121);
}

/// The number for values of which one may be wrong. The lowest number is not: in the place of a
/// value that may be absent it says so.
fn expected<V: Written>(values: &V, legal: bool) -> u64 {
    match legal || values.as_carried() != *values {
        true => 0,
        false => NO_VALUE,
    }
}

/// Each field has values that are written and values that are not.
fn borders<V: Written>(salt: u64) {
    let mut random = random(salt);
    let mut seen = BTreeSet::new();
    for _ in 0..turns(4) {
        for case in at_borders::<V>(&mut random) {
            let number = hold(&case.values, LENGTH);
            let expected = expected(&case.values, case.legal);
            assert_eq!(number, expected, "{} of {:?}", case.field, case.values);
            seen.insert((case.field, number));
        }
    }
    let numbers = V::NUMBERS.iter().map(|(field, ..)| *field);
    for field in numbers.chain(V::NAMES.iter().map(|(field, _)| *field)) {
        assert!([0, NO_VALUE].iter().all(|number| seen.contains(&(field, *number))), "{field}");
    }
}

#[test]
fn points_at_borders() {
    borders::<PointValues>(122);
}

#[test]
fn relations_at_borders() {
    borders::<RelationValues>(123);
}

/// Every field is wrong at some time.
fn wrong_values<V: Written>(salt: u64, fields: usize) {
    let (mut random, mut seen) = (random(salt), BTreeSet::new());
    for _ in 0..turns(20_000) {
        let (values, field) = wrong::<V>(&mut random);
        assert_eq!(hold(&values, LENGTH), expected(&values, false), "{field} of {values:?}");
        seen.insert(field);
    }
    assert_eq!(seen.len(), fields, "{seen:?}");
}

#[test]
fn wrong_points() {
    wrong_values::<PointValues>(124, 16);
}

#[test]
fn wrong_relations() {
    wrong_values::<RelationValues>(125, 15);
}

/// Some are written, most are not.
fn wide_values<V: Written>(salt: u64) {
    let mut random = random(salt);
    let written = |_: &u64| hold(&wide::<V>(&mut random), LENGTH) == 0;
    let written = (0..turns(20_000)).filter(written).count() as u64;
    assert!((turns(500)..turns(15_000)).contains(&written), "{written} are written");
}

#[test]
fn wide_points() {
    wide_values::<PointValues>(126);
}

#[test]
fn wide_relations() {
    wide_values::<RelationValues>(127);
}
