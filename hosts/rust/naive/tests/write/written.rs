//! What the writer makes of values, in a slice that is longer than a line.

use crate::columns::name;
use naive::{read_point, read_relation, write_point, write_relation};
use naive::{Fault, File, PointValues, Refusal, RelationValues};
use small_sets::{Line, STAYS};

/// The line of a point, or the number of the refusal.
pub fn point(values: &PointValues) -> Result<Line, u8> {
    written(|out| write_point(values, out))
}

/// The line of a relation, or the number of the refusal.
pub fn relation(values: &RelationValues) -> Result<Line, u8> {
    written(|out| write_relation(values, out))
}

/// A line ends with CR and LF, and the bytes after it stay; a refusal has no place and writes
/// nothing.
fn written(write: impl FnOnce(&mut [u8]) -> Result<(), Refusal>) -> Result<Line, u8> {
    let mut out = [STAYS; 90];
    let answer = write(&mut out);
    let (whole, rest) = out.split_at(82);
    assert_eq!(rest, [STAYS; 8]);
    match answer {
        Ok(()) => {
            assert_eq!(whole[80..], *b"\r\n");
            Ok(Line(std::array::from_fn(|at| whole[at])))
        }
        Err(refusal) => {
            let number = refusal.number;
            assert_eq!(refusal, Refusal { number, file: None, line: 0, column: 0 });
            assert_eq!(whole, [STAYS; 82]);
            Err(number)
        }
    }
}

/// The values of a line of R or S.
pub fn values_of_point(file: File, line: &Line) -> Result<PointValues, Fault> {
    read_point(file, &line.0).map(|read| PointValues::of(file, &read))
}

/// The values of a line of X.
pub fn values_of_relation(line: &Line) -> Result<RelationValues, Fault> {
    read_relation(&line.0).map(|read| RelationValues::from(&read))
}

/// The values of a receiver of set A.
pub fn receiver_101() -> PointValues {
    PointValues {
        letter: b'R'.into(),
        state: 0,
        name: name("L1"),
        number: 101,
        index: 1,
        code: *b"G1",
        static_correction: None,
        depth: 0,
        datum: 0,
        uphole: None,
        water_depth: None,
        easting: 0,
        northing: 0,
        elevation: 0,
        day: 113,
        time: 71_245,
    }
}

/// The values of set A's relation line.
pub fn relation_of_a() -> RelationValues {
    RelationValues {
        tape: *b"100   ",
        record: 11,
        record_increment: 1,
        instrument: 1,
        source_name: name("L1"),
        source_number: 501,
        source_index: 1,
        from_channel: 1,
        to_channel: 3,
        channel_increment: 1,
        receiver_name: name("L1"),
        from_receiver: 101,
        to_receiver: 103,
        receiver_index: 1,
    }
}
