//! Sets on tape: the records of a set's lines in code page 037, and one with EOF after
//! them.

use crate::{File, Line, Medium, Set};

/// Characters whose bytes follow each other, by the byte of the first.
const RUNS: [(u8, &[u8]); 15] = [
    (0x40, b" "),
    (0x4B, b".<(+"),
    (0x50, b"&"),
    (0x5C, b"*);"),
    (0x60, b"-/"),
    (0x6B, b",%_>?"),
    (0x7A, b":"),
    (0x7D, b"'="),
    (0x81, b"abcdefghi"),
    (0x91, b"jklmnopqr"),
    (0xA2, b"stuvwxyz"),
    (0xC1, b"ABCDEFGHI"),
    (0xD1, b"JKLMNOPQR"),
    (0xE2, b"STUVWXYZ"),
    (0xF0, b"0123456789"),
];

/// The byte of a character on tape; none has 0.
static BYTES: [u8; 256] = {
    let mut bytes = [0; 256];
    let mut run = 0;
    while run < RUNS.len() {
        let (first, characters) = RUNS[run];
        let mut at = 0;
        while at < characters.len() {
            bytes[characters[at] as usize] = first + at as u8;
            at += 1;
        }
        run += 1;
    }
    bytes
};

/// The characters that a tape holds, in the order of its bytes.
pub fn characters() -> impl Iterator<Item = u8> {
    RUNS.into_iter().flat_map(|(_, characters)| characters).copied()
}

/// The byte of a character, where a tape holds it.
pub fn byte_of(character: u8) -> Option<u8> {
    Some(BYTES[usize::from(character)]).filter(|&byte| byte > 0)
}

/// Text in the bytes of a tape.
pub fn bytes_of(text: &[u8]) -> Option<Vec<u8>> {
    text.iter().map(|&character| byte_of(character)).collect()
}

/// The record that ends a tape, its other columns blank.
pub fn end() -> Line {
    Line([b' '; 80]).at(1, "EOF").on_tape().expect("characters of a tape")
}

impl Line {
    /// The line in the bytes of a tape.
    pub fn on_tape(self) -> Option<Line> {
        let bytes = bytes_of(&self.0)?;
        Some(Line(std::array::from_fn(|at| bytes[at])))
    }
}

/// Each character that no tape holds, and one that stands in for it.
const INSTEAD: [[u8; 2]; 14] = [
    *b"!?", *b"\"'", *b"#=", *b"$&", *b"@%", *b"[(", *b"\\/", *b"])", *b"^*", *b"`'", *b"{<",
    *b"|:", *b"}>", *b"~_",
];

impl Set {
    /// A set of the disc with characters of a tape in place of all others.
    pub fn plain(mut self) -> Set {
        for file in File::ALL {
            let others = self.file_mut(file).iter_mut().filter(|byte| byte_of(**byte).is_none());
            for byte in others {
                let instead = INSTEAD.iter().find(|[other, _]| other == byte);
                *byte = instead.map_or(*byte, |[_, instead]| *instead);
            }
        }
        self
    }

    /// A set of the disc as its tape: none where a character has no byte there, or a
    /// line does not end in CR and LF. Bytes that are left over at the end of a file are
    /// left over on its tape too, at most 79, and it ends with them.
    pub fn on_tape(&self) -> Option<Set> {
        let mut set = Set { medium: Medium::Tape, ..Set::default() };
        for file in File::ALL {
            *set.file_mut(file) = tape_of(self.file(file))?;
        }
        Some(set)
    }
}

fn tape_of(file: &[u8]) -> Option<Vec<u8>> {
    let (lines, rest) = file.as_chunks::<82>();
    let mut tape = Vec::with_capacity(80 * (lines.len() + 1));
    for line in lines {
        let [columns @ .., b'\r', b'\n'] = line else { return None };
        tape.extend(Line(*columns).on_tape()?.0);
    }
    match rest {
        [] => tape.extend(end().0),
        rest => tape.extend(bytes_of(&rest[..rest.len().min(79)])?),
    }
    Some(tape)
}
