//! Slices of every length. For a line: 22 before 23, which write nothing, and nothing after its
//! 82 bytes. For the values that are written: 128 bytes or 22. For those that are read: as many
//! places as are whole.

use crate::archive;
use crate::carried::{bytes_of, of_point, of_relation, Numbers};
use crate::lent::lent;
use crate::write::{hold, Written};
use many_sets::run::{random, turns};
use many_sets::values::wrong;
use naive::{PointValues, RelationValues};
use small_sets::place::{first, last_header};
use small_sets::{set_a, File, STAYS};

const NO_VALUE: u64 = 22 << 40;
const TOO_SHORT: u64 = 23 << 40;

fn lines<V: Written>(salt: u64) {
    let mut random = random(salt);
    for _ in 0..turns(10) {
        let legal = V::legal(&mut random);
        let wrong = loop {
            let (values, _) = wrong::<V>(&mut random);
            if values.as_carried() == values {
                break values;
            }
        };
        for length in 0..=90 {
            let expected = if length < 82 { TOO_SHORT } else { 0 };
            assert_eq!(hold(&legal, length), expected, "{length} bytes");
            assert_eq!(hold(&wrong, length), NO_VALUE, "{length} bytes");
        }
        assert_eq!(hold(&legal, 1_000), 0);
    }
}

#[test]
fn lines_of_points() {
    lines::<PointValues>(128);
}

#[test]
fn lines_of_relations() {
    lines::<RelationValues>(129);
}

/// Legal values in slices of any other length, which may hold more: 22 before 23.
fn values<V: Written>(salt: u64) {
    let legal = V::legal(&mut random(salt));
    let mut places = bytes_of(legal.numbers());
    places.resize(300, STAYS);
    for length in (0..=300).filter(|length| *length != 128) {
        for line in [0, 81, 82, 90] {
            let (number, bytes) = lent(STAYS, line, |line| legal.call(&places[..length], line));
            assert_eq!((number, bytes), (NO_VALUE, vec![STAYS; line]), "{length} bytes");
        }
    }
    let (number, _) = lent(STAYS, 82, |line| legal.call(&places[..128], line));
    assert_eq!(number, 0);
}

#[test]
fn values_of_points() {
    values::<PointValues>(130);
}

#[test]
fn values_of_relations() {
    values::<RelationValues>(131);
}

/// What stands in so many bytes once these numbers are there.
fn placed(numbers: Numbers, length: usize) -> Vec<u8> {
    let whole = length.min(128) / 8 * 8;
    let mut bytes = bytes_of(numbers);
    bytes.truncate(whole);
    bytes.resize(length, STAYS);
    bytes
}

/// What a call reads into slices of every length of a line, and of a header line, of which nothing
/// is read.
fn hold_places(numbers: Numbers, call: impl Fn(usize, &mut [u8]) -> u64) {
    for length in 0..=300 {
        let read = lent(STAYS, length, |values| call(first(), values));
        assert_eq!(read, (0, placed(numbers, length)), "{length} bytes");
        let refused = lent(STAYS, length, |values| call(last_header(), values));
        assert_eq!(refused, (20 << 40, vec![STAYS; length]), "{length} bytes");
    }
}

#[test]
fn places() {
    for set in [set_a(), set_a().on_tape().expect("characters of a tape")] {
        let (number, line) = (set.medium as u64, first() as u64);
        let medium = naive::medium(number).expect("a medium");
        for kind in [File::R, File::S] {
            let (letter, file) = (kind.kind(), set.file(kind));
            let values = naive::point_at(medium, letter, file, line).expect("a point");
            hold_places(of_point(&values), |line, values| {
                archive::read_point(number, letter, file, line as u64, values)
            });
        }
        let values = naive::relation_at(medium, &set.x, line).expect("a relation");
        hold_places(of_relation(&values), |line, values| {
            archive::read_relation(number, &set.x, line as u64, values)
        });
    }
}
