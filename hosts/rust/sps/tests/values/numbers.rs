//! Numbers that are out of range, also where fewer bits would be in it: media, letters and lines
//! are 20, letters and wide places of values that are written are 22.

use crate::archive;
use crate::carried::{bytes_of, of_point, of_relation};
use crate::lent::lent;
use crate::read::{point, relation, Asked};
use many_sets::run::random;
use many_sets::values::Values;
use naive::{PointValues, RelationValues};
use small_sets::place::first;
use small_sets::{set_a, File, Set, STAYS};

const NO_LINE: u64 = 20 << 40;
const NO_VALUE: u64 = 22 << 40;

/// Numbers that have the low bytes of one, and more.
fn wider(number: u64) -> impl Iterator<Item = u64> {
    [8, 16, 32, 40, 63].into_iter().map(move |bit| number + (1 << bit))
}

fn sets() -> [Set; 2] {
    [set_a(), set_a().on_tape().expect("characters of a tape")]
}

/// Every byte that is neither letter, and wider numbers.
fn no_letters() -> Vec<u64> {
    let letters = [File::R, File::S].map(File::kind);
    let bytes = (0..256).filter(|byte| !letters.contains(byte));
    bytes.chain(letters.into_iter().flat_map(wider)).chain([u64::MAX]).collect()
}

#[test]
fn media() {
    for Set { r, x, .. } in sets() {
        for medium in [0, 3, 82, u64::MAX].into_iter().chain(wider(1)).chain(wider(2)) {
            let line = first() as u64;
            assert_eq!(point(Asked { medium, file: &r, line }, b'R'.into()), NO_LINE);
            assert_eq!(relation(Asked { medium, file: &x, line }), NO_LINE);
        }
    }
}

#[test]
fn letters_to_read() {
    for set in sets() {
        let (medium, line) = (set.medium as u64, first() as u64);
        for letter in no_letters() {
            for file in set.files() {
                assert_eq!(point(Asked { medium, file, line }, letter), NO_LINE, "{letter}");
            }
        }
    }
}

#[test]
fn lines() {
    for set in sets() {
        let medium = set.medium as u64;
        let beyond = [0, 10_000, u64::MAX].into_iter().chain(wider(first() as u64));
        for line in beyond.flat_map(|line| [line, line.wrapping_mul(256)]) {
            for kind in [File::R, File::S] {
                let asked = Asked { medium, file: set.file(kind), line };
                assert_eq!(point(asked, kind.kind()), NO_LINE, "line {line}");
            }
            assert_eq!(relation(Asked { medium, file: &set.x, line }), NO_LINE, "line {line}");
        }
    }
}

#[test]
fn letters_to_write() {
    let values = PointValues { code: *b"KL", state: 1, ..PointValues::least(&mut random(140)) };
    let places = bytes_of(of_point(&values));
    let write = |letter| lent(STAYS, 82, |line| archive::write_point(letter, &places, line));
    for letter in no_letters() {
        assert_eq!(write(letter), (NO_VALUE, vec![STAYS; 82]), "{letter}");
    }
    for kind in [File::R, File::S] {
        assert_eq!(write(kind.kind()).0, 0);
    }
}

/// A code of more than two bytes, and a tape of more than six.
#[test]
fn wide_texts() {
    let mut random = random(141);
    let point = PointValues::legal(&mut random);
    for bit in 16..64 {
        let mut numbers = of_point(&point);
        numbers[4] += 1 << bit;
        let write = |line: &mut [u8]| archive::write_point(point.letter, &bytes_of(numbers), line);
        assert_eq!(lent(STAYS, 82, write), (NO_VALUE, vec![STAYS; 82]), "bit {bit}");
    }
    let relation = RelationValues::legal(&mut random);
    for bit in 48..64 {
        let mut numbers = of_relation(&relation);
        numbers[0] += 1 << bit;
        let write = |line: &mut [u8]| archive::write_relation(&bytes_of(numbers), line);
        assert_eq!(lent(STAYS, 82, write), (NO_VALUE, vec![STAYS; 82]), "bit {bit}");
    }
}
