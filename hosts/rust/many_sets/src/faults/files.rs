//! Bytes anywhere, and lengths.

use super::file;
use small_sets::{Random, Set};

/// Puts a byte at any place of a file.
fn put(random: &mut Random, mut set: Set, byte: u8) -> Set {
    let bytes = set.file_mut(file(random));
    if !bytes.is_empty() {
        let at = random.below(bytes.len());
        bytes[at] = byte;
    }
    set
}

pub fn any_byte(random: &mut Random, set: Set) -> Set {
    let byte = random.bytes(1)[0];
    put(random, set, byte)
}

pub fn byte_of_lines(random: &mut Random, set: Set) -> Set {
    let byte = random.pick(b" 0123456789+-.;HRSXPMKL");
    put(random, set, byte)
}

pub fn line_end(random: &mut Random, set: Set) -> Set {
    let file = file(random);
    match set.lines(file) {
        0 => set,
        lines => {
            let line = 1 + random.below(lines);
            set.byte(file, line, 81 + random.below(2), random.pick(b" \r\n"))
        }
    }
}

/// Up to a line and a byte less.
pub fn fewer(random: &mut Random, set: Set) -> Set {
    let file = file(random);
    let length = set.file(file).len().saturating_sub(1 + random.below(83));
    set.cut(file, length)
}

/// Up to a line and a byte more; seldom as many as a file may hold, or too many.
pub fn more(random: &mut Random, set: Set) -> Set {
    match random.below(16) {
        0 => full(random, set),
        _ => set.over(file(random), 1 + random.below(83)),
    }
}

/// The last line over and over, up to 9,999 lines or a few more.
fn full(random: &mut Random, mut set: Set) -> Set {
    let width = set.medium.width();
    let bytes = set.file_mut(file(random));
    let Some(start) = bytes.len().checked_sub(width) else { return set };
    let line = bytes[start..].to_vec();
    let lines = 9_999 + random.below(3);
    let more = line.iter().cycle().take((width * lines).saturating_sub(bytes.len()));
    bytes.extend(more);
    set
}
