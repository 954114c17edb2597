//! Tapes and records.

use super::line;
use super::numbers::{number, other};
use small_sets::{Line, Random, Set};

/// The tape and record of a relation line, most often as they are.
pub fn with_record(random: &mut Random, set: &Set, at: &Line) -> (Vec<u8>, u64) {
    let (tape, record) = (at.0[1..7].to_vec(), number(at, 8, 11));
    match random.below(12) {
        0 => (other_tape(random, tape), record),
        1 => (tape, other(random, record)),
        // Of two lines.
        2 => (tape, number(&line(random, set), 8, 11)),
        _ => (tape, record),
    }
}

/// A tape that differs by a byte, in case, by its length or by where its bytes
/// stand.
fn other_tape(random: &mut Random, mut tape: Vec<u8>) -> Vec<u8> {
    let column = random.below(tape.len());
    match random.below(9) {
        0 => tape[column] = 32 + random.below(95) as u8,
        1 => tape[column] = random.pick(&[0, 9, 10, 13, 31, 127, 128, 255]),
        2 => tape[column] ^= 1 << random.below(8),
        3 => tape[0] = b' ',
        4 => tape.rotate_left(column),
        5 => tape.truncate(column),
        6 => tape.truncate(tape.trim_ascii_end().len()),
        7 => tape.iter_mut().filter(|byte| byte.is_ascii_alphabetic()).for_each(|byte| *byte ^= 32),
        _ => tape.resize(7 + column, b' '),
    }
    tape
}
