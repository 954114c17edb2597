//! 5 in depth, easting, northing and elevation, of points and of markers: with a point,
//! and digits alone, which count tenths.

use super::write::{as_a, ask, channel, check, comes_from, filled, refused, spread, trace};
use crate::line::{marker, Line};
use crate::place::{below, first};
use crate::File::{self, R, S};
use crate::{set_a, Answer, Case, Set};

/// A field: its first column, its width, and lists of what it takes and what it refuses.
/// Texts are parted by bars, and stand on the right of the field.
type Decimal = (usize, usize, &'static [&'static str], &'static [&'static str]);

const TAKEN: &str = "0|1|5|05|0005|0000|50|999|0999|0.0|0.5|00.5|9.0|99.9";

/// Taken where the range has negatives.
const NEGATIVE: &str = "-0|-5|-05|-000|-999|-0.0|-0.5|-1.0";

const MALFORMED: &str = "|.5|-.5|5.|-5.|0.|.|-.|-|0.00|1.25|1.00|+5|+0.5|+1.0|- 5|--5|5-|5 |-5 \
|1.0 |1 5|0 .0|1. 5|1,0|1..0|1.-0|1-.0|5e1|0x5";

/// Malformed, and wider than a depth.
const WIDER: &str = "--1.0|1.0.0|- 1.0|- 99.9|1 00.0|12 345|12.345|1.0   |5     |-    5";

const DEPTH: Decimal = (33, 4, &[TAKEN], &[MALFORMED, NEGATIVE, "1000|9999"]);

const EASTING: Decimal = (
    47,
    9,
    &[
        TAKEN,
        NEGATIVE,
        "003262601|326260.1|3262601|999999999|-99999999|000000000|-00000000|-00000005",
        "123456789|-12345678|1234567.8|-123456.7|0000000.0|-000000.5",
    ],
    &[MALFORMED, WIDER, "+12345678|1234 5678|12345678-|1234567.|.12345678|12345.678"],
);

const NORTHING: Decimal = (
    56,
    10,
    &[
        TAKEN,
        NEGATIVE,
        "0025289125|2528912.5|25289125|9999999999|-999999999|0000000000|-000000000|-000000005",
        "1234567890|-123456789|12345678.9|-1234567.8|00000000.0|-0000000.5",
    ],
    &[MALFORMED, WIDER, "+123456789|1234 56789|123456789-|12345678.|.123456789|123456.789"],
);

const ELEVATION: Decimal = (
    66,
    6,
    &[
        TAKEN,
        NEGATIVE,
        "99999|099999|-9999|-09999|000000|-00000|-00005",
        "9999.9|-999.9|0000.0|-000.1",
    ],
    &[MALFORMED, WIDER, "100000|999999|-10000|-99999"],
);

pub fn cases() -> Vec<Case> {
    let mut cases = whole_sets();
    for file in [R, S] {
        for field in [DEPTH, EASTING, NORTHING, ELEVATION] {
            cases.extend(last_line(&format!("{file:?}"), &set_a(), file, field));
        }
        let with_marker = set_a().add(file, marker(file));
        for field in [EASTING, NORTHING, ELEVATION] {
            cases.extend(last_line(&format!("a marker in {file:?},"), &with_marker, file, field));
        }
    }
    cases
}

/// A set with each text of a field in the last line of a file.
fn last_line(name: &str, set: &Set, file: File, (column, width, good, bad): Decimal) -> Vec<Case> {
    let line = set.lines(file);
    let texts = |lists: &'static [&str]| lists.iter().flat_map(|list| list.split('|'));
    let case = |text: &str, expected| {
        let text = format!("{text:>width$}");
        assert_eq!(text.len(), width, "`{text}`");
        let set = set.clone().put(file, line, column, &text);
        check(format!("{name} {column} `{text}`"), set, expected)
    };
    let taken = texts(good).map(|text| case(text, as_a()));
    taken.chain(texts(bad).map(|text| case(text, refused(5, file, line, column)))).collect()
}

/// Set A with coordinates as two crews write them, none with a point.
pub fn no_points() -> Set {
    let placed = |depth: u32, easting: u32, elevation: u32| {
        move |line: Line| {
            line.at(33, &format!("{depth:04}"))
                .at(47, &format!("{easting:09}"))
                .at(56, "0025289125")
                .at(66, &format!("{elevation:06}"))
        }
    };
    set_a()
        .edit(R, below(1), placed(15, 3_262_601, 1_066))
        .edit(R, below(2), placed(15, 3_262_851, 1_071))
        .edit(R, below(3), placed(20, 3_263_101, 1_078))
        .edit(S, first(), placed(105, 3_262_726, 1_069))
}

fn whole_sets() -> Vec<Case> {
    let places = [(first(), 1), (below(2), 1), (below(3), 1)];
    let on_tape = no_points().on_tape().expect("characters of a tape");
    let in_s_alone = Set { r: set_a().r, ..no_points() };
    let depth = || no_points().put(R, below(2), 33, "1000");
    vec![
        check("no points", no_points(), as_a()),
        ask("no points, channel 2", no_points(), trace(2), comes_from(below(2), 1)),
        ask("no points, the third R line", no_points(), channel(below(3), 1), Answer::Channel(3)),
        ask("no points, a spread table", no_points(), spread(4, 3), filled(3, &places, 4, 3)),
        check("no points, on tape", on_tape, as_a()),
        check("points in R, none in S", in_s_alone, as_a()),
        check("no points, a depth of 100.0", depth(), refused(5, R, below(2), 33)),
        check(
            "no points, a depth of 100.0 and an easting `+5`",
            depth().put(R, below(2), 47, "       +5"),
            refused(5, R, below(2), 33),
        ),
    ]
}
