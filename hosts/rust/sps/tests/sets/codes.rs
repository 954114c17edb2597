//! Each of the 65,536 codes in a line of R and in one of S, on disc and on tape.

use crate::answers::{proved, refused, Answer};
use small_sets::place::{below, first};
use small_sets::tape::{byte_of, characters};
use small_sets::File::{R, S, X};
use small_sets::{codes, set_a, File, Medium, Set};
use sps::Accepted;

/// The character of a byte, where the medium takes it.
fn character(medium: Medium, byte: u8) -> Option<u8> {
    match medium {
        Medium::Disc => Some(byte).filter(|byte| (32..=126).contains(byte)),
        Medium::Tape => characters().find(|&text| byte_of(text) == Some(byte)),
    }
}

/// Set A with all codes named, on disc and on tape, and how far its own lines move down.
fn media() -> ([Set; 2], usize) {
    let codes: Vec<[u8; 2]> = [R, S].into_iter().flat_map(codes).collect();
    let text = |code: &[u8; 2]| String::from_utf8_lossy(code).into_owned();
    let others = codes.iter().filter(|code| ![b"G1", b"V1", b"PM", b"KL"].contains(code));
    let others: Vec<String> = others.map(text).collect();
    let others: Vec<&str> = others.iter().map(String::as_str).collect();
    let set = set_a().naming(&others);
    let tape = set.on_tape().expect("characters of a tape");
    ([set, tape], others.len())
}

/// Holds each code of a line. A byte that is not taken is 3 at its column. A code of the
/// list leaves the set accepted, but PM, which leaves its relation line without a point, and
/// KL; every other is 5 at column 27.
fn hold(mut set: Set, file: File, line: usize, without: Answer, killed: Answer) {
    let at = set.start(line) + 26;
    let text: [_; 256] = std::array::from_fn(|byte| character(set.medium, byte as u8));
    let refused = |number, column| refused(number, file, line as u64, column);
    let (listed, mut taken) = (codes(file), 0);
    for code in (0..=u16::MAX).map(u16::to_be_bytes) {
        let expected = match code.map(|byte| text[usize::from(byte)]) {
            [None, _] => refused(3, 27),
            [_, None] => refused(3, 28),
            [Some(b'P'), Some(b'M')] => without,
            [Some(b'K'), Some(b'L')] => killed,
            [Some(first), Some(second)] if listed.contains(&[first, second]) => as_a(0),
            _ => refused(5, 27),
        };
        set.file_mut(file)[at..at + 2].copy_from_slice(&code);
        assert_eq!(proved(&set), expected, "{file:?} {code:?}, {:?}", set.medium);
        taken += usize::from(expected == as_a(0));
    }
    assert_eq!(taken, listed.len() - 2, "{file:?}, {:?}", set.medium);
}

/// The counts of set A with so many dead traces.
fn as_a(dead_traces: u64) -> Answer {
    Ok(Accepted { receivers: 3, shots: 1, relations: 1, traces: 3, dead_traces })
}

/// A marker is no receiver: 18. A killed one has a dead trace.
#[test]
fn each_code_in_r() {
    let (sets, down) = media();
    let without = refused(18, X, (first() + down) as u64, 64);
    sets.into_iter().for_each(|set| hold(set, R, below(2) + down, without, as_a(1)));
}

/// A marker is no shot, and a killed one may not be named: 13.
#[test]
fn each_code_in_s() {
    let (sets, down) = media();
    let without = refused(13, X, (first() + down) as u64, 14);
    sets.into_iter().for_each(|set| hold(set, S, first() + down, without, without));
}
