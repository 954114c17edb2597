//! Depth, easting, northing and elevation in both spellings: with a point, and digits alone,
//! which count tenths. Water depth keeps its own rule.

use naive::{read_point, Fault, File, Marker, Point, PointLine};
use small_sets::{marker, receiver, shot, Line, Random};

/// A field: its first column, its width, and its value.
type Field = (usize, usize, fn(Point) -> i64);

const DEPTH: Field = (33, 4, |point| point.depth);
const EASTING: Field = (47, 9, |point| point.easting);
const NORTHING: Field = (56, 10, |point| point.northing);
const ELEVATION: Field = (66, 6, |point| point.elevation);

/// What a text on the right of a field is worth, in R and in S alike.
fn read((column, width, value): Field, text: &str) -> Result<i64, Fault> {
    let text = format!("{text:>width$}");
    assert_eq!(text.len(), width, "`{text}`");
    let of = |file, line: Line| match read_point(file, &line.at(column, &text).0)? {
        PointLine::Live(point) => Ok(value(point)),
        other => panic!("{other:?}"),
    };
    let [in_r, in_s] = [of(File::R, receiver(101)), of(File::S, shot(501))];
    assert_eq!(in_r, in_s, "`{text}`");
    in_r
}

/// A value with a point, without one, and with zeros before it, as far as they have room.
fn spellings(width: usize, tenths: i64) -> Vec<String> {
    let (sign, size) = (if tenths < 0 { "-" } else { "" }, tenths.abs());
    let room = width - sign.len();
    let pointed = format!("{}.{}", size / 10, size % 10);
    let texts = [
        pointed.clone(),
        format!("{pointed:0>room$}"),
        format!("{size}"),
        format!("{size:0room$}"),
    ];
    let texts = texts.map(|text| format!("{sign}{text}"));
    texts.into_iter().filter(|text| text.len() <= width).collect()
}

fn hold(field: Field, tenths: i64) {
    for text in spellings(field.1, tenths) {
        assert_eq!(read(field, &text), Ok(tenths), "`{text}`");
    }
}

fn refused(field: Field, text: &str) {
    let fault = Fault { number: 5, column: field.0 as u8 };
    assert_eq!(read(field, text), Err(fault), "`{text}` in column {}", field.0);
}

#[test]
fn every_depth() {
    (0..=999).for_each(|tenths| hold(DEPTH, tenths));
    (1_000..=9_999).for_each(|tenths| refused(DEPTH, &tenths.to_string()));
    (0..=999).for_each(|size| refused(DEPTH, &format!("-{size}")));
}

#[test]
fn every_elevation() {
    (-9_999..=99_999).for_each(|tenths| hold(ELEVATION, tenths));
    (100_000..=999_999).for_each(|tenths| refused(ELEVATION, &tenths.to_string()));
    (-99_999..=-10_000).for_each(|tenths| refused(ELEVATION, &tenths.to_string()));
}

/// All that the columns hold: the ends of each number of digits, and many between.
#[test]
fn eastings_and_northings() {
    let mut random = Random::new(0x5eed_0003);
    for field in [EASTING, NORTHING] {
        for digits in 1..=field.1 as u32 {
            let (low, high) = (10_i64.pow(digits - 1), 10_i64.pow(digits) - 1);
            let between = (0..2_000).map(|_| low + random.below((high - low + 1) as usize) as i64);
            for tenths in [low, high].into_iter().chain(between) {
                hold(field, tenths);
                if digits < field.1 as u32 {
                    hold(field, -tenths);
                }
            }
        }
        hold(field, 0);
    }
}

/// A minus before 0, in every spelling.
#[test]
fn minus_zero() {
    for field in [EASTING, NORTHING, ELEVATION] {
        for text in ["-0", "-00", "-00000", "-0.0", "-000.0"] {
            assert_eq!(read(field, text), Ok(0), "`{text}`");
        }
    }
}

#[test]
fn malformed() {
    const TEXTS: [&str; 22] = [
        "", ".5", "-.5", "5.", "-5.", ".", "-", "-.", "1.25", "0.00", "+5", "+0.5", "- 5", "--5",
        "5-", "5 ", "1 5", "1 .5", "1. 5", "1,5", "1..5", "5e1",
    ];
    for field in [DEPTH, EASTING, NORTHING, ELEVATION] {
        TEXTS.into_iter().for_each(|text| refused(field, text));
    }
}

/// Without a point water depth counts metres: 50 is 500 tenths.
#[test]
fn water_depth_keeps_its_rule() {
    const WATER: Field = (43, 4, |point| point.water_depth.expect("a water depth"));
    for number in 0..=999 {
        assert_eq!(read(WATER, &format!("{number}")), Ok(10 * number));
        assert_eq!(read(WATER, &format!("{number:04}")), Ok(10 * number));
        assert_eq!(read(WATER, &format!("{}.{}", number / 10, number % 10)), Ok(number));
    }
    assert_eq!(read(WATER, "50"), Ok(500));
    for text in ["1000", "9999", "-0", "-5", ".5", "5.", "1.25", "+5", "1 5"] {
        refused(WATER, text);
    }
}

/// A marker's columns 47 to 71 are read alike, its depth not at all.
#[test]
fn markers() {
    let read = |line: Line| match read_point(File::R, &line.0) {
        Ok(PointLine::Marker(Marker { easting, northing, elevation, .. })) => {
            Ok([easting, northing, elevation])
        }
        Ok(other) => panic!("{other:?}"),
        Err(fault) => Err(fault),
    };
    let line = marker(small_sets::File::R).at(33, "1000");
    let bare = line.at(47, "003262601").at(56, "  25289125").at(66, "    -5");
    let pointed = line.at(47, " 326260.1").at(56, " 2528912.5").at(66, "  -0.5");
    assert_eq!(read(bare), Ok([3_262_601, 25_289_125, -5]));
    assert_eq!(read(pointed), read(bare));
    let fault = |column| Err(Fault { number: 5, column });
    assert_eq!(read(bare.at(47, "       +5")), fault(47));
    assert_eq!(read(bare.at(56, "       5. ")), fault(56));
    assert_eq!(read(bare.at(66, "-10000")), fault(66));
    assert_eq!(read(bare.at(66, "100000")), fault(66));
}
