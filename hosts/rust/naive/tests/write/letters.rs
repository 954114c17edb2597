//! Letters, codes and states.

use crate::written::{point, receiver_101};
use naive::PointValues;
use small_sets::{codes, receiver, File, Line};

/// The line of a receiver of set A with another letter and code.
fn line(file: File, code: [u8; 2]) -> Line {
    let Line(mut columns) = receiver(101).at(1, file.letter());
    columns[26..28].copy_from_slice(&code);
    Line(columns)
}

/// A code of the file is written with the state that it has, KL as killed and every other as
/// live; PM and all that is no code of the file are 22 in any state.
#[test]
fn each_code_in_each_state() {
    for (file, written) in [(File::R, 28), (File::S, 46)] {
        let (letter, listed) = (file.kind(), codes(file));
        let mut lines = 0;
        for code in (0..=u16::MAX).map(u16::to_be_bytes) {
            for state in [0, 1, 2, 3, 256, u64::MAX] {
                let own = match &code {
                    b"PM" => None,
                    b"KL" => Some(1),
                    code => listed.contains(code).then_some(0),
                };
                let expected = match own == Some(state) {
                    true => Ok(line(file, code)),
                    false => Err(22),
                };
                let values = PointValues { letter, state, code, ..receiver_101() };
                assert_eq!(point(&values), expected, "{file:?} {} {state}", code.escape_ascii());
                lines += usize::from(expected.is_ok());
            }
        }
        assert_eq!(lines, written, "{file:?}");
    }
}

/// KL may stand in both files, G1 and V1 in one; no other number is a letter.
#[test]
fn each_letter() {
    let beyond = [1 << 8, 1 << 32, 1 << 63].map(|over| over + File::R.kind());
    for letter in (0..=300).chain(beyond) {
        for (state, code, files) in
            [(1, *b"KL", &[File::R, File::S][..]), (0, *b"G1", &[File::R]), (0, *b"V1", &[File::S])]
        {
            let own = files.iter().find(|file| file.kind() == letter);
            let expected = own.map(|&file| line(file, code)).ok_or(22);
            let values = PointValues { letter, state, code, ..receiver_101() };
            assert_eq!(point(&values), expected, "{letter} {}", code.escape_ascii());
        }
    }
}
