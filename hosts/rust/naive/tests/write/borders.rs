//! Every number at its borders: the lowest and the highest, one beyond each, and each change of
//! width between.

use crate::written::{point, receiver_101, relation, relation_of_a};
use naive::{PointValues, RelationValues};
use small_sets::Line;

/// Columns, what puts a number in the field, the texts that are written, each for the number that
/// its sign and digits are, and the numbers that are 22. A number below 0 is a very large one
/// where there are no negatives.
type Row<V> = (usize, usize, fn(&mut V, i64), &'static str, &'static [i64]);

const TO_EIGHT_DIGITS: &str = "0 9 10 99 100 999 1000 9999 10000 99999 100000 999999 1000000 \
    9999999 10000000 99999999";
const BEYOND_EIGHT: &[i64] = &[-1, 100_000_000, 1 << 32, i64::MIN, i64::MAX];

const ONE_TO_NINE: &str = "1 2 3 4 5 6 7 8 9";
const BEYOND_NINE: &[i64] = &[-1, 0, 10, 11, 99, 257, 65_537, (1 << 32) + 1, i64::MIN, i64::MAX];

const OF_POINTS: [Row<PointValues>; 13] = [
    (18, 25, |values, number| values.number = number as u64, TO_EIGHT_DIGITS, BEYOND_EIGHT),
    (26, 26, |values, number| values.index = number as u64, ONE_TO_NINE, BEYOND_NINE),
    (
        29,
        32,
        |values, number| values.static_correction = Some(number),
        "-999 -100 -99 -10 -9 -1 0 9 10 99 100 999",
        &[-1_000, 1_000, 9_999, i64::MIN, i64::MAX],
    ),
    (
        33,
        36,
        |values, tenths| values.depth = tenths,
        "0.0 0.1 0.5 0.9 1.0 9.9 10.0 99.9",
        &[-99, -5, -1, 1_000, 9_999, i64::MIN, i64::MAX],
    ),
    (
        37,
        40,
        |values, number| values.datum = number,
        "-999 -100 -99 -10 -9 -1 0 9 10 99 100 999 1000 9999",
        &[-1_000, 10_000, i64::MIN, i64::MAX],
    ),
    (
        41,
        42,
        |values, number| values.uphole = Some(number),
        "0 9 10 99",
        &[-9, -1, 100, i64::MIN, i64::MAX],
    ),
    (
        43,
        46,
        |values, tenths| values.water_depth = Some(tenths),
        "0.0 0.1 0.5 0.9 1.0 9.9 10.0 50.0 99.0 99.9",
        &[-10, -1, 1_001, 1_005, 1_009, 9_985, 9_989, 9_991, 9_999, i64::MIN, i64::MAX],
    ),
    (
        43,
        46,
        |values, metres| values.water_depth = Some(10 * metres),
        "100 101 998 999",
        &[-1, 1_000, 1_001, 9_999],
    ),
    (
        47,
        55,
        |values, tenths| values.easting = tenths,
        "-99999999 -12345678 -10000000 -999999.9 -123456.7 -1.0 -0.9 -0.5 -0.1 \
         0.0 0.1 0.5 0.9 1.0 9.9 10.0 326260.1 9999999.9 100000000 123456789 999999999",
        &[-100_000_000, 1_000_000_000, i64::MIN, i64::MAX],
    ),
    (
        56,
        65,
        |values, tenths| values.northing = tenths,
        "-999999999 -123456789 -100000000 -9999999.9 -1234567.8 -1.0 -0.9 -0.5 -0.1 \
         0.0 0.1 0.5 0.9 1.0 9.9 10.0 12345678.9 99999999.9 1000000000 9999999999",
        &[-1_000_000_000, 10_000_000_000, i64::MIN, i64::MAX],
    ),
    (
        66,
        71,
        |values, tenths| values.elevation = tenths,
        "-999.9 -100.0 -99.9 -10.0 -9.9 -1.0 -0.9 -0.5 -0.1 \
         0.0 0.1 0.5 0.9 1.0 9.9 10.0 99.9 100.0 999.9 1000.0 9999.9",
        &[-99_999, -10_000, 100_000, 999_999, i64::MIN, i64::MAX],
    ),
    (
        72,
        74,
        |values, number| values.day = number as u64,
        "1 9 10 99 100 999",
        &[-1, 0, 1_000, 65_537, i64::MIN, i64::MAX],
    ),
    (
        75,
        80,
        |values, number| values.time = number as u64,
        "000000 000009 000059 000100 005959 010000 095959 100000 195959 200000 235959",
        &[-1, 60, 99, 5_960, 6_000, 9_900, 235_960, 236_000, 240_000, 999_999, 1_000_000, i64::MAX],
    ),
];

const OF_RELATIONS: [Row<RelationValues>; 6] = [
    (
        8,
        11,
        |values, number| values.record = number as u64,
        "0 9 10 99 100 999 1000 9999",
        &[-1, 10_000, 65_536, 1 << 32, i64::MIN, i64::MAX],
    ),
    (12, 12, |values, number| values.record_increment = number as u64, ONE_TO_NINE, BEYOND_NINE),
    (13, 13, |values, number| values.instrument = number as u64, ONE_TO_NINE, BEYOND_NINE),
    (30, 37, |values, number| values.source_number = number as u64, TO_EIGHT_DIGITS, BEYOND_EIGHT),
    (38, 38, |values, number| values.source_index = number as u64, ONE_TO_NINE, BEYOND_NINE),
    (80, 80, |values, number| values.receiver_index = number as u64, ONE_TO_NINE, BEYOND_NINE),
];

/// The text stands on the right of its columns, and nothing else changes.
fn hold<V: Copy>(rows: &[Row<V>], values: V, write: fn(&V) -> Result<Line, u8>) {
    let line = write(&values).expect("a line");
    for &(first, last, put, texts, refused) in rows {
        let with = |number| {
            let mut values = values;
            put(&mut values, number);
            write(&values)
        };
        for text in texts.split_whitespace() {
            let number = text.replace('.', "").parse().expect("a sign and digits");
            let text = format!("{text:>width$}", width = last + 1 - first);
            assert_eq!(with(number), Ok(line.at(first, &text)), "{number} in column {first}");
        }
        for &number in refused {
            assert_eq!(with(number), Err(22), "{number} in column {first}");
        }
    }
}

#[test]
fn of_points() {
    hold(&OF_POINTS, receiver_101(), point);
}

#[test]
fn of_relations() {
    hold(&OF_RELATIONS, relation_of_a(), relation);
}

/// Each byte in each column of a name or a tape: 32 to 126 are taken, a blank not as the first.
fn hold_name<V: Copy, const N: usize>(
    first: usize,
    values: V,
    name: fn(&mut V) -> &mut [u8; N],
    write: fn(&V) -> Result<Line, u8>,
) {
    let line = write(&values).expect("a line");
    for column in 0..N {
        for byte in 0..=255 {
            let mut values = values;
            name(&mut values)[column] = byte;
            let mut expected = line;
            expected.0[first - 1 + column] = byte;
            let taken = (32..=126).contains(&byte) && (byte, column) != (b' ', 0);
            let expected = if taken { Ok(expected) } else { Err(22) };
            assert_eq!(write(&values), expected, "{byte} in column {}", first + column);
        }
    }
}

#[test]
fn of_names() {
    hold_name(2, receiver_101(), |values| &mut values.name, point);
    hold_name(2, relation_of_a(), |values| &mut values.tape, relation);
    hold_name(14, relation_of_a(), |values| &mut values.source_name, relation);
    hold_name(48, relation_of_a(), |values| &mut values.receiver_name, relation);
}
