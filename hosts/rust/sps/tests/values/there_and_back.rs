//! Through the library: a line that is read and written comes back in the one spelling, with the
//! same values, and one that is in it comes back byte for byte.

use many_sets::run::{random, turns};
use many_sets::{lines, written};
use small_sets::{tape, File, Line, Random, Set};
use sps::{read_point, read_relation, Medium, Number, Point, PointState};

/// A line of 82 bytes, as a host has it.
fn bytes_of(Line(columns): Line) -> Vec<u8> {
    [&columns[..], b"\r\n"].concat()
}

/// The lines that were in the one spelling, and the others.
#[derive(Debug, Default)]
struct Tally {
    same: u64,
    other: u64,
}

impl Tally {
    /// Holds what comes back of a line, and what comes back of that; a line on tape comes back on
    /// disc.
    fn hold(&mut self, line: Line, spelt: Line, back: impl Fn(Medium, &[u8]) -> Vec<u8>) {
        let expected = bytes_of(spelt);
        assert_eq!(back(Medium::Disc, &bytes_of(line)), expected, "{}", line.0.escape_ascii());
        assert_eq!(back(Medium::Disc, &expected), expected);
        if let Some(Line(record)) = line.on_tape() {
            let file = [record, tape::end().0].concat();
            assert_eq!(back(Medium::Tape, &file), expected, "{}", line.0.escape_ascii());
        }
        match line == spelt {
            true => self.same += 1,
            false => self.other += 1,
        }
    }
}

/// Lines that are made, half of them with characters of a tape alone.
fn made(random: &mut Random, file: File, line: Line) -> Line {
    match random.below(2) {
        0 => line,
        _ => Set::default().add(file, line).plain().line(file, 1),
    }
}

fn points(salt: u64, file: File, kind: sps::File) {
    let (mut random, mut tally) = (random(salt), Tally::default());
    let back = |medium, bytes: &[u8]| {
        let point = read_point(medium, kind, bytes, 1).expect("a point");
        let mut line = vec![0; 82];
        point.write(kind, &mut line).expect("a line");
        assert_eq!(read_point(Medium::Disc, kind, &line, 1), Ok(point));
        line
    };
    for _ in 0..turns(8_000) {
        let line = lines::point(&mut random, file);
        let line = made(&mut random, file, line);
        tally.hold(line, written::point(line), back);
        let spelt = written::point(line);
        tally.hold(spelt, spelt, back);
    }
    assert!(tally.same > turns(8_000) && tally.other > turns(4_000), "{tally:?}");
}

#[test]
fn receivers() {
    points(137, File::R, sps::File::R);
}

#[test]
fn shots() {
    points(138, File::S, sps::File::S);
}

#[test]
fn relations() {
    let (mut random, mut tally) = (random(139), Tally::default());
    let back = |medium, bytes: &[u8]| {
        let relation = read_relation(medium, bytes, 1).expect("a relation");
        let mut line = vec![0; 82];
        relation.write(&mut line).expect("a line");
        assert_eq!(read_relation(Medium::Disc, &line, 1), Ok(relation));
        line
    };
    for _ in 0..turns(8_000) {
        let line = lines::relation(&mut random);
        let line = made(&mut random, File::X, line);
        tally.hold(line, written::relation(line), back);
        let spelt = written::relation(line);
        tally.hold(spelt, spelt, back);
    }
    assert!(tally.same > turns(8_000) && tally.other > turns(4_000), "{tally:?}");
}

/// A marker is read as one and is not written, also with a point's values and its own code, or
/// the other way round.
#[test]
fn markers() {
    let mut random = random(143);
    for (file, kind) in [(File::R, sps::File::R), (File::S, sps::File::S)] {
        for _ in 0..turns(500) {
            let [line, marker] =
                [lines::point(&mut random, file), lines::marker(&mut random, file)].map(bytes_of);
            let point = read_point(Medium::Disc, kind, &line, 1).expect("a point");
            let marker = read_point(Medium::Disc, kind, &marker, 1).expect("a marker");
            assert_eq!((marker.state, &marker.code), (PointState::Marker, b"PM"));
            let coded = Point { code: *b"PM", ..point };
            let stated = Point { state: PointState::Marker, ..point };
            for values in [marker, coded, stated, Point { code: *b"PM", ..stated }] {
                let refusal = values.write(kind, &mut [0; 82]).expect_err("no line");
                assert_eq!(refusal.number, Number::ValueRange, "{values:?}");
            }
        }
    }
}
