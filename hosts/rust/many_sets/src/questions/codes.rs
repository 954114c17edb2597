//! Kinds and codes.

use super::numbers::other;
use crate::lines::codes;
use small_sets::{tape, File, Random, Set};

/// The letter of a kind and a code: most often one that a header line has or a line uses.
pub fn with_kind(random: &mut Random, set: &Set) -> (u64, Vec<u8>) {
    let (kind, code) = match random.below(4) {
        0 => any(random),
        1 => used(random, set),
        _ => in_header(random, set),
    };
    match random.below(12) {
        0 => (other(random, kind), code),
        1 => (random.pick(b"RSXHrsx").into(), code),
        2 => (kind, other_code(random, code)),
        _ => (kind, code),
    }
}

/// Any code.
fn any(random: &mut Random) -> (u64, Vec<u8>) {
    let digit = random.pick(b"123456789");
    match random.pick(&File::ALL) {
        File::X => (b'X'.into(), vec![digit]),
        file => (file.kind(), vec![random.pick(codes(file)), digit]),
    }
}

/// The code of a line of R or S, or the instrument of one of X.
fn used(random: &mut Random, set: &Set) -> (u64, Vec<u8>) {
    let file = random.pick(&File::ALL);
    let Some(line) = crate::faults::own_line(random, set, file) else { return any(random) };
    let (kind, line) = (file.kind(), set.line(file, line).0);
    match file {
        File::X => (kind, vec![line[12]]),
        File::R | File::S => (kind, line[26..28].to_vec()),
    }
}

/// The code of a header line of three digits, with a kind that fits it.
fn in_header(random: &mut Random, set: &Set) -> (u64, Vec<u8>) {
    let lines = (1..=set.lines(File::R)).map(|line| set.line(File::R, line).0);
    let tables = lines.filter(|line| line[0] == b'H' && line[3].is_ascii_digit());
    let codes: Vec<[u8; 2]> = tables.map(|line| [line[32], line[33]]).collect();
    if codes.is_empty() {
        return any(random);
    }
    match random.pick(&codes) {
        [digit, b','] => (b'X'.into(), vec![digit]),
        [letter @ (b'G' | b'H' | b'R'), digit] => (b'R'.into(), vec![letter, digit]),
        other => (b'S'.into(), other.to_vec()),
    }
}

/// A code that differs by a byte, in case, by its length or in its medium; or PM or KL.
fn other_code(random: &mut Random, mut code: Vec<u8>) -> Vec<u8> {
    let at = random.below(code.len().max(1));
    match random.below(8) {
        0 => code.iter_mut().skip(at).take(1).for_each(|byte| *byte = random.bytes(1)[0]),
        1 => code.make_ascii_lowercase(),
        2 => code.truncate(at),
        3 => code.push(random.pick(b" ,1")),
        4 => code.reverse(),
        5 => code = tape::bytes_of(&code).unwrap_or_default(),
        6 => code = b"PM".to_vec(),
        _ => code = b"KL".to_vec(),
    }
    code
}
