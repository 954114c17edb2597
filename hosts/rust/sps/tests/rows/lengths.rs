//! Slices of every length from every trace on, of a set that is written by hand.

use crate::hold::{hold, told, Told};
use naive::{Row, Trace};
use small_sets::place::below;
use small_sets::{receiver, relation, set_a, shot, File, Set};

/// Set A with the second receiver killed, and a record more of two lines: three components laid out
/// backwards, then one channel far above.
fn two_records() -> Set {
    let line = relation().record(12).source(502);
    set_a()
        .add(File::R, receiver(104))
        .edit(File::R, below(2), |r| r.code("KL"))
        .add(File::S, shot(502))
        .add(File::X, line.channels(4, 9).increment("3").receivers(102, 101))
        .add(File::X, line.channels(9_999, 9_999).receivers(104, 104))
}

/// Its rows: X line below the header, channel, R line below the header, component, killed.
const BY_HAND: [(usize, u16, usize, u8, bool); 10] = [
    (1, 1, 1, 1, false),
    (1, 2, 2, 1, true),
    (1, 3, 3, 1, false),
    (2, 4, 2, 1, true),
    (2, 5, 2, 2, true),
    (2, 6, 2, 3, true),
    (2, 7, 1, 1, false),
    (2, 8, 1, 2, false),
    (2, 9, 1, 3, false),
    (3, 9_999, 4, 1, false),
];

fn by_hand() -> Told {
    let row = |(x_line, channel, r_line, component, killed)| {
        let trace = Trace { r_line: below(r_line) as u16, component, killed };
        Row { x_line: below(x_line) as u32, channel, trace }
    };
    Told::new(10, BY_HAND.map(row).to_vec())
}

#[test]
fn each_length() {
    let disc = two_records();
    let tape = disc.on_tape().expect("characters of a tape");
    let expected = by_hand();
    for set in [disc, tape] {
        assert_eq!(told(&set).rows, expected.rows);
        for first in (0..=12).chain([255, 256, 1 << 16, 1 << 32, 1 << 60, 1 << 63, u64::MAX]) {
            for length in (0..=200).chain([1_000, 1 << 16]) {
                hold(&set, &expected, first, length);
            }
        }
    }
}

/// A refusal writes nothing, whatever is asked: of each file, and of each part of the check.
#[test]
fn refused() {
    let disc = two_records();
    let tape = disc.on_tape().expect("characters of a tape");
    let last = disc.lines(File::X);
    for set in [
        disc.clone().cut(File::R, 81),
        disc.clone().edit(File::S, below(2), |s| s.day(112)),
        disc.clone().edit(File::X, last, |x| x.receivers(105, 105)),
        disc.clone().edit(File::X, last, |x| x.receivers(101, 101)),
        disc.edit(File::X, last, |x| x.at(1, "R")),
        tape.clone().cut(File::X, 80),
        tape.cut(File::S, 0),
    ] {
        let told = told(&set);
        assert!(told.is_refused());
        for first in [0, 1, 9, 10, 11, u64::MAX] {
            for length in (0..=64).chain([160, 161, 1_000]) {
                hold(&set, &told, first, length);
            }
        }
    }
}
