//! The counts in lent bytes: places of eight, the low one first, as many as are whole.

use crate::answers::{number, Answer};
use crate::archive::{self, Files};
use crate::compare::compare;
use crate::lent::lent;
use many_sets::large::two_million_traces;
use small_sets::place::first;
use small_sets::{set_a, File, Set};
use sps::Accepted;

/// What stands in each byte before the call.
const STAYS: u8 = 0xAA;

/// What stands in so many bytes after it.
fn written(answer: Answer, length: usize) -> Vec<u8> {
    let mut bytes = vec![STAYS; length];
    if let Ok(Accepted { receivers, shots, relations, traces, dead_traces }) = answer {
        let counts = [receivers, shots, relations, traces, dead_traces];
        for (place, count) in bytes.chunks_exact_mut(8).zip(counts) {
            place.copy_from_slice(&count.to_le_bytes());
        }
    }
    bytes
}

/// A set as the calls take it.
pub fn files(Set { r, s, x, .. }: &Set, medium: u64) -> Files<'_> {
    Files { medium, r, s, x }
}

/// Holds every byte of so many to what the set is answered, and the calls with and without
/// counts to its number.
pub fn compare_counts(set: &Set, answer: Answer, length: usize, how: &str) {
    let files = files(set, set.medium as u64);
    let (counts, bytes) = lent(STAYS, length, |bytes| archive::counts(files, bytes));
    assert_eq!(bytes, written(answer, length), "{length} bytes of counts, {how}");
    let calls = [counts, archive::cross(files)];
    assert_eq!(calls, [number(answer); 2], "with counts and without, {how}");
}

/// Counts of one byte, of two and of three, dead traces among them, and refusals.
#[test]
fn each_length_of_counts() {
    let (few, many) = (set_a(), two_million_traces());
    let tape = few.on_tape().expect("characters of a tape");
    let cut = tape.clone().cut(File::X, 80);
    let killed =
        (first()..=600).fold(many.clone(), |set, line| set.edit(File::R, line, |r| r.code("KL")));
    let lost = |set: &Set| set.clone().edit(File::X, set.lines(File::X), |x| x.source(9_999_999));
    for (set, accepted) in [
        (lost(&few), false),
        (lost(&many), false),
        (few, true),
        (many, true),
        (killed, true),
        (tape, true),
        (cut, false),
    ] {
        let answer = compare(&set, "a set to count");
        assert_eq!(answer.is_ok(), accepted, "{answer:?}");
        for length in (0..=49).chain([80, 1_000]) {
            compare_counts(&set, answer, length, "a set to count");
        }
    }
}
