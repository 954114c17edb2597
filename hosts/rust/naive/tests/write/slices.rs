//! Slices of every length: 22 before 23, nothing written where either is given, and nothing after
//! the 82 bytes of a line.

use crate::written::{receiver_101, relation_of_a};
use naive::{write_point, write_relation, PointValues, Refusal, RelationValues};
use small_sets::{receiver, relation, Line, STAYS};

const LONGEST: usize = 3 * 82;

/// Writes in slices of every length values that have this line, or none.
fn hold(line: Result<Line, u8>, write: impl Fn(&mut [u8]) -> Result<(), Refusal>) {
    for length in 0..=LONGEST {
        let mut out = vec![STAYS; length];
        let answer = write(&mut out).map_err(|refusal| refusal.number);
        let expected = match line {
            Err(number) => Err(number),
            Ok(_) if length < 82 => Err(23),
            Ok(_) => Ok(()),
        };
        assert_eq!(answer, expected, "{length} bytes");
        let mut whole = vec![STAYS; length];
        if let (Ok(()), Ok(Line(columns))) = (expected, line) {
            whole[..82].copy_from_slice(&[&columns[..], b"\r\n"].concat());
        }
        assert_eq!(out, whole, "{length} bytes");
    }
}

#[test]
fn of_points() {
    let values = receiver_101();
    let index = PointValues { index: 0, ..values };
    let time = PointValues { time: 240_000, ..values };
    let marker = PointValues { code: *b"PM", state: 2, ..values };
    hold(Ok(receiver(101)), |out| write_point(&values, out));
    for values in [index, time, marker] {
        hold(Err(22), |out| write_point(&values, out));
    }
}

#[test]
fn of_relations() {
    let values = relation_of_a();
    let index = RelationValues { receiver_index: 10, ..values };
    let apart = RelationValues { to_channel: 4, ..values };
    hold(Ok(relation()), |out| write_relation(&values, out));
    for values in [index, apart] {
        hold(Err(22), |out| write_relation(&values, out));
    }
}
