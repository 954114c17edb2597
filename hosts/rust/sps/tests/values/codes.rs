//! Each of the 65,536 codes, in R and in S: read and written where the list has it, with its state.

use crate::archive;
use crate::carried::{bytes_of, of_point};
use crate::lent::lent;
use many_sets::run::random;
use many_sets::values::Values;
use naive::PointValues;
use small_sets::{codes, receiver, File, Line, STAYS};

/// The state of a code of the list.
fn state_of(file: File, code: [u8; 2]) -> Option<u64> {
    codes(file).contains(&code).then_some(match &code {
        b"KL" => PointValues::KILLED,
        b"PM" => PointValues::MARKER,
        _ => PointValues::LIVE,
    })
}

/// A byte that no line has is 3 in its column, any other code 5.
#[test]
fn read() {
    for (number, file) in [(1, File::R), (2, File::S)] {
        let Line(columns) = receiver(101).at(1, file.letter());
        let mut line = [&columns[..], b"\r\n"].concat();
        for code in (0..=u16::MAX).map(u16::to_be_bytes) {
            line[26..28].copy_from_slice(&code);
            let stray = code.iter().position(|byte| !(32..=126).contains(byte));
            let refused = match stray {
                Some(at) => (3 << 40) + 27 + at as u64,
                None => (5 << 40) + 27,
            };
            let expected = state_of(file, code).unwrap_or(refused + (number << 32) + 256);
            let found = archive::read_point(1, file.kind(), &line, 1, &mut []);
            assert_eq!(found, expected, "{file:?} {}", code.escape_ascii());
        }
    }
}

#[test]
fn written() {
    let values = PointValues::legal(&mut random(142));
    for file in [File::R, File::S] {
        let mut lines = 0;
        for code in (0..=u16::MAX).map(u16::to_be_bytes) {
            let own = state_of(file, code).filter(|state| *state != PointValues::MARKER);
            for state in [0, 1, 2, 3, 256, 1 << 32, u64::MAX] {
                let places = bytes_of(of_point(&PointValues { code, state, ..values }));
                let write = |line: &mut [u8]| archive::write_point(file.kind(), &places, line);
                let (number, line) = lent(STAYS, 82, write);
                if own == Some(state) {
                    assert_eq!((number, &line[26..28]), (0, &code[..]), "{file:?} {state}");
                    lines += 1;
                } else {
                    let refused = (22 << 40, vec![STAYS; 82]);
                    assert_eq!((number, line), refused, "{file:?} {}", code.escape_ascii());
                }
            }
        }
        assert_eq!(lines, codes(file).len() - 1);
    }
}
