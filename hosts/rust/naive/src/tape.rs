//! The tape form: records of 80 bytes in code page 037, ended by one with EOF in its
//! first columns.

use crate::{refusal, Fault, File, Line, Refusal};
use std::slice::ChunksExact;

/// The characters of the code page that are taken, as the page is printed: the row is
/// the high half of a byte, the column its low half. A byte with `~` is not taken.
const PAGE: [[u8; 16]; 16] = [
    *b"~~~~~~~~~~~~~~~~",
    *b"~~~~~~~~~~~~~~~~",
    *b"~~~~~~~~~~~~~~~~",
    *b"~~~~~~~~~~~~~~~~",
    *b" ~~~~~~~~~~.<(+~",
    *b"&~~~~~~~~~~~*);~",
    *b"-/~~~~~~~~~,%_>?",
    *b"~~~~~~~~~~:~~'=~",
    *b"~abcdefghi~~~~~~",
    *b"~jklmnopqr~~~~~~",
    *b"~~stuvwxyz~~~~~~",
    *b"~~~~~~~~~~~~~~~~",
    *b"~ABCDEFGHI~~~~~~",
    *b"~JKLMNOPQR~~~~~~",
    *b"~~STUVWXYZ~~~~~~",
    *b"0123456789~~~~~~",
];

/// The byte of each character that is taken.
const BYTES: [u8; 256] = {
    let mut bytes = [0; 256];
    let mut byte = 0;
    while byte < 256 {
        bytes[PAGE[byte / 16][byte % 16] as usize] = byte as u8;
        byte += 1;
    }
    bytes
};

/// EOF in the tape's bytes.
const EOF: [u8; 3] = [0xC5, 0xD6, 0xC6];

/// The records before the one that ends the tape: 29 where there is none, or others
/// follow it.
pub fn before_end(file: File, mut records: ChunksExact<u8>) -> Result<usize, Refusal> {
    let refused = |line: usize| Err(refusal(29, file, line as u32, 0));
    let all = records.len();
    match records.position(|record| record.starts_with(&EOF)) {
        None => refused(all + 1),
        Some(before) if before + 1 < all => refused(before + 2),
        Some(before) => Ok(before),
    }
}

/// A record in ASCII: 3 names the lowest column whose byte is not taken.
pub fn translated(record: &[u8]) -> Result<Line, Fault> {
    let mut line = [b' '; 80];
    for ((column, &byte), to) in (1u8..).zip(record).zip(&mut line) {
        *to = character(byte).ok_or(Fault { number: 3, column })?;
    }
    Ok(line)
}

/// The character of a byte that is taken.
pub fn character(byte: u8) -> Option<u8> {
    Some(PAGE[usize::from(byte / 16)][usize::from(byte % 16)]).filter(|&taken| taken != b'~')
}

/// A name in the tape's bytes.
pub fn own_bytes(name: [u8; 16]) -> [u8; 16] {
    name.map(|character| BYTES[usize::from(character)])
}
