//! The values of point and relation lines, and the columns of their faults.

#[path = "common/columns.rs"]
mod columns;

use columns::{line_of, name};
use naive::{read_point, read_relation, Fault, File, Marker, Place, Point, PointLine, Relation};
use small_sets::{marker, receiver, relation, shot, Line};

fn point(file: File, line: Line) -> Point {
    match read_point(file, &line.0) {
        Ok(PointLine::Live(point)) => point,
        other => panic!("{other:?}"),
    }
}

fn receiver_101() -> Point {
    Point {
        place: Place { name: name("L1"), number: 101, index: 1 },
        code: *b"G1",
        static_correction: None,
        depth: 0,
        datum: 0,
        uphole: None,
        water_depth: None,
        easting: 0,
        northing: 0,
        elevation: 0,
        day: 113,
        time: 71_245,
    }
}

#[test]
fn a_receiver_of_set_a() {
    assert_eq!(point(File::R, receiver(101)), receiver_101());
}

/// KL makes it a killed one, and every value stays.
#[test]
fn a_killed_receiver() {
    let line = receiver(101).code("KL");
    let expected = Point { code: *b"KL", ..receiver_101() };
    assert_eq!(read_point(File::R, &line.0), Ok(PointLine::Killed(expected)));
}

#[test]
fn a_shot_with_every_field() {
    let line = line_of(&[
        "S",
        "91LW1117        ",
        "     225",
        "9",
        "A7",
        "-123",
        " 1.5",
        "-456",
        "17",
        " 999",
        "-326177.3",
        "-2528912.5",
        "-106.6",
        "366",
        "235959",
    ]);
    let expected = Point {
        place: Place { name: name("91LW1117"), number: 225, index: 9 },
        code: *b"A7",
        static_correction: Some(-123),
        depth: 15,
        datum: -456,
        uphole: Some(17),
        water_depth: Some(9_990),
        easting: -3_261_773,
        northing: -25_289_125,
        elevation: -1_066,
        day: 366,
        time: 235_959,
    };
    assert_eq!(point(File::S, line), expected);
}

/// One row for each way to write a number.
#[test]
fn numbers() {
    let read = |column, text| point(File::R, receiver(101).at(column, text));
    for (text, value) in [("  -0", 0), ("-000", 0), ("  -1", -1), (" 012", 12), ("-999", -999)] {
        assert_eq!(read(29, text).static_correction, Some(value), "{text}");
    }
    for (text, value) in [(" 0.5", 5), ("00.5", 5), ("99.9", 999), ("   5", 5), ("0999", 999)] {
        assert_eq!(read(33, text).depth, value, "{text}");
    }
    for (text, value) in [("9999", 9_999), ("-999", -999), ("0010", 10)] {
        assert_eq!(read(37, text).datum, value, "{text}");
    }
    for (text, value) in [(" 0", Some(0)), ("99", Some(99)), ("  ", None)] {
        assert_eq!(read(41, text).uphole, value, "{text}");
    }
    let depths = [("99.9", 999), (" 999", 9_990), ("   5", 50), (" 0.5", 5), ("0000", 0)];
    for (text, value) in depths {
        assert_eq!(read(43, text).water_depth, Some(value), "{text}");
    }
    let elevations = [("  -0.5", -5), ("  -0.0", 0), ("-999.9", -9_999), ("9999.9", 99_999)];
    let bare = [("    -5", -5), ("    -0", 0), (" -9999", -9_999), (" 99999", 99_999)];
    for (text, value) in elevations.into_iter().chain(bare) {
        assert_eq!(read(66, text).elevation, value, "{text}");
    }
    assert_eq!(read(47, "1234567.8").easting, 12_345_678);
    assert_eq!(read(47, "-000000.1").easting, -1);
    assert_eq!(read(47, "003262601").easting, 3_262_601);
    assert_eq!(read(56, "12345678.9").northing, 123_456_789);
    assert_eq!(read(18, "99999999").place.number, 99_999_999);
    assert_eq!(read(26, " ").place.index, 1);
}

#[test]
fn a_marker() {
    let line = marker(small_sets::File::R).at(47, "     12.5").at(66, " -10.0");
    let expected =
        Marker { name: name("M1"), index: 1, easting: 125, northing: 0, elevation: -100 };
    assert_eq!(read_point(File::R, &line.0), Ok(PointLine::Marker(expected)));
}

#[test]
fn the_relation_of_set_a() {
    let expected = Relation {
        tape: *b"100   ",
        record: 11,
        record_increment: 1,
        instrument: 1,
        source: Place { name: name("L1"), number: 501, index: 1 },
        from_channel: 1,
        to_channel: 3,
        channel_increment: 1,
        receiver_name: name("L1"),
        from_receiver: 101,
        to_receiver: 103,
        receiver_index: 1,
    };
    assert_eq!(read_relation(&relation().0), Ok(expected));
    let blanks = [12, 13, 38, 47, 80].iter();
    let blanks = blanks.fold(relation(), |line, &column| line.at(column, " "));
    assert_eq!(read_relation(&blanks.0), Ok(expected));
}

#[test]
fn a_relation_with_every_field() {
    let line = line_of(&[
        "X",
        "A 1 ~ ",
        "9999",
        "2",
        "3",
        "S line        ~ ",
        "00000007",
        "4",
        "   1",
        " 998",
        "2",
        "R line        ~ ",
        "      40",
        "     538",
        "9",
    ]);
    let expected = Relation {
        tape: *b"A 1 ~ ",
        record: 9_999,
        record_increment: 2,
        instrument: 3,
        source: Place { name: *b"S line        ~ ", number: 7, index: 4 },
        from_channel: 1,
        to_channel: 998,
        channel_increment: 2,
        receiver_name: *b"R line        ~ ",
        from_receiver: 40,
        to_receiver: 538,
        receiver_index: 9,
    };
    assert_eq!(read_relation(&line.0), Ok(expected));
}

/// From and to receiver are kept as they are written, also where they descend.
#[test]
fn a_relation_laid_out_backwards() {
    let read = |from, to| read_relation(&relation().receivers(from, to).0).expect("a relation");
    for (from_receiver, to_receiver) in [(103, 101), (2, 0), (99_999_999, 99_999_997)] {
        let expected = Relation { from_receiver, to_receiver, ..read(101, 103) };
        assert_eq!(read(from_receiver, to_receiver), expected);
    }
}

#[test]
fn faults_name_number_and_column() {
    let fault = |number, column| Fault { number, column };
    let of = |line: Line| read_relation(&line.0);
    assert_eq!(of(relation().at(38, "0")), Err(fault(5, 38)));
    assert_eq!(of(relation().channels(2, 1)), Err(fault(6, 39)));
    assert_eq!(of(relation().channels(2, 1).receivers(103, 101)), Err(fault(6, 39)));
    assert_eq!(of(relation().increment("2").receivers(103, 101)), Err(fault(6, 47)));
    assert_eq!(of(relation().receivers(104, 101)), Err(fault(6, 72)));
    assert_eq!(of(relation().receivers(102, 101)), Err(fault(6, 72)));
    assert_eq!(of(relation().receivers(99_999_999, 0)), Err(fault(6, 72)));
    let of = |file, line: Line| read_point(file, &line.0);
    assert_eq!(of(File::R, shot(501)), Err(fault(5, 27)));
    assert_eq!(of(File::S, receiver(101)), Err(fault(5, 27)));
    assert_eq!(of(File::R, receiver(101).at(80, ":")), Err(fault(5, 75)));
}
