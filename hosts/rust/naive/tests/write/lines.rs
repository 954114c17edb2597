//! Whole lines, written out by hand.

use crate::columns::{line_of, name};
use crate::written::{point, receiver_101, relation, relation_of_a, values_of_point};
use naive::{File, PointValues, RelationValues};
use small_sets::{marker, receiver};

/// Absent values are blank, an index of 1 is written, and the time alone has a zero before it.
#[test]
fn a_receiver_of_set_a() {
    let expected = line_of(&[
        "R",
        "L1              ",
        "     101",
        "1",
        "G1",
        "    ",
        " 0.0",
        "   0",
        "  ",
        "    ",
        "      0.0",
        "       0.0",
        "   0.0",
        "113",
        "071245",
    ]);
    assert_eq!(point(&receiver_101()), Ok(expected));
    assert_eq!(expected, receiver(101));
}

#[test]
fn a_killed_receiver() {
    let values = PointValues { state: 1, code: *b"KL", ..receiver_101() };
    assert_eq!(point(&values), Ok(receiver(101).code("KL")));
}

/// A marker is read to its own values, and has no line.
#[test]
fn a_marker() {
    let values = PointValues {
        letter: b'S'.into(),
        state: 2,
        name: name("M1"),
        number: 0,
        code: *b"PM",
        easting: 5,
        day: 0,
        time: 0,
        ..receiver_101()
    };
    let line = marker(small_sets::File::S).at(47, "      0.5");
    assert_eq!(values_of_point(File::S, &line), Ok(values));
    assert_eq!(point(&values), Err(22));
}

#[test]
fn a_shot_with_every_field() {
    let values = PointValues {
        letter: b'S'.into(),
        state: 0,
        name: name("91LW1117 ~     x"),
        number: 225,
        index: 9,
        code: *b"A7",
        static_correction: Some(-123),
        depth: 15,
        datum: -456,
        uphole: Some(7),
        water_depth: Some(9_990),
        easting: -3_261_773,
        northing: -25_289_125,
        elevation: -1_066,
        day: 6,
        time: 9,
    };
    let expected = line_of(&[
        "S",
        "91LW1117 ~     x",
        "     225",
        "9",
        "A7",
        "-123",
        " 1.5",
        "-456",
        " 7",
        " 999",
        "-326177.3",
        "-2528912.5",
        "-106.6",
        "  6",
        "000009",
    ]);
    assert_eq!(point(&values), Ok(expected));
}

/// Coordinates that are too wide with a point, decimals below 1, and a shallow water depth.
#[test]
fn a_receiver_far_off() {
    let values = PointValues {
        static_correction: Some(0),
        depth: 5,
        uphole: Some(0),
        water_depth: Some(500),
        easting: -12_345_678,
        northing: 1_234_567_890,
        elevation: -5,
        ..receiver_101()
    };
    let expected = receiver(101)
        .at(29, "   0")
        .at(33, " 0.5")
        .at(41, " 0")
        .at(43, "50.0")
        .at(47, "-12345678")
        .at(56, "1234567890")
        .at(66, "  -0.5");
    assert_eq!(point(&values), Ok(expected));
}

/// Increments, instrument and indices of 1 are written.
#[test]
fn the_relation_of_set_a() {
    let expected = line_of(&[
        "X",
        "100   ",
        "  11",
        "1",
        "1",
        "L1              ",
        "     501",
        "1",
        "   1",
        "   3",
        "1",
        "L1              ",
        "     101",
        "     103",
        "1",
    ]);
    assert_eq!(relation(&relation_of_a()), Ok(expected));
    assert_eq!(expected, small_sets::relation());
}

/// Every field, and receivers that descend.
#[test]
fn a_relation_with_every_field() {
    let values = RelationValues {
        tape: *b"A 1 ~ ",
        record: 9_999,
        record_increment: 2,
        instrument: 3,
        source_name: *b"S line        ~ ",
        source_number: 7,
        source_index: 4,
        from_channel: 1,
        to_channel: 998,
        channel_increment: 2,
        receiver_name: *b"R line        ~ ",
        from_receiver: 538,
        to_receiver: 40,
        receiver_index: 9,
    };
    let expected = line_of(&[
        "X",
        "A 1 ~ ",
        "9999",
        "2",
        "3",
        "S line        ~ ",
        "       7",
        "4",
        "   1",
        " 998",
        "2",
        "R line        ~ ",
        "     538",
        "      40",
        "9",
    ]);
    assert_eq!(relation(&values), Ok(expected));
}
