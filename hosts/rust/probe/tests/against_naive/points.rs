//! Point lines of R and S, markers among them.

use crate::compare::compare;
use crate::run::{damaged, first_columns, valid};
use many_sets::lines::{marker, point, OF_POINTS};
use many_sets::run::random;
use naive::{Fault, File};
use small_sets::{codes, Line, Random};

/// One line in eight is a marker.
fn line(random: &mut Random, file: small_sets::File) -> Line {
    match random.below(8) {
        0 => marker(random, file),
        _ => point(random, file),
    }
}

fn receiver(random: &mut Random) -> Line {
    line(random, small_sets::File::R)
}

fn shot(random: &mut Random) -> Line {
    line(random, small_sets::File::S)
}

#[test]
fn receivers() {
    valid(File::R, 1, receiver);
}

#[test]
fn shots() {
    valid(File::S, 2, shot);
}

#[test]
fn damaged_receivers() {
    damaged(File::R, 3, receiver, OF_POINTS, &first_columns(OF_POINTS));
}

#[test]
fn damaged_shots() {
    damaged(File::S, 4, shot, OF_POINTS, &first_columns(OF_POINTS));
}

/// Both readers take the codes of the list; every other is 5 at column 27.
#[test]
fn each_code() {
    let mut random = random(5);
    for (file, letter) in [(File::R, small_sets::File::R), (File::S, small_sets::File::S)] {
        let (mut line, listed) = (point(&mut random, letter), codes(letter));
        for code in (0..=u16::MAX).map(u16::to_be_bytes) {
            line.0[26..28].copy_from_slice(&code);
            let expected = match listed.contains(&code) {
                true => Ok(()),
                false => Err(Fault { number: 5, column: 27 }),
            };
            assert_eq!(compare(file, line), expected, "{file:?} {}", code.escape_ascii());
        }
    }
}
