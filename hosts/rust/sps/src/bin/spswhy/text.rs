//! The characters of a line, as they are shown.

use sps::Medium;

/// What stands for a byte that is no character of a line.
const OTHER: u8 = b'?';

/// The bytes of a line in ASCII.
pub fn shown(medium: Medium, line: &[u8]) -> Vec<u8> {
    let character = match medium {
        Medium::Disc => printed,
        Medium::Tape => translated,
    };
    line.iter().map(|&byte| character(byte)).collect()
}

fn printed(byte: u8) -> u8 {
    match byte {
        32..=126 => byte,
        _ => OTHER,
    }
}

/// Code page 037: letters and digits stand in runs, and so do most of the others.
fn translated(byte: u8) -> u8 {
    let run = |first: u8, characters: &[u8]| characters[usize::from(byte - first)];
    match byte {
        0x40 => b' ',
        0x4B..=0x4E => run(0x4B, b".<(+"),
        0x50 => b'&',
        0x5C..=0x5E => run(0x5C, b"*);"),
        0x60 | 0x61 => run(0x60, b"-/"),
        0x6B..=0x6F => run(0x6B, b",%_>?"),
        0x7A => b':',
        0x7D | 0x7E => run(0x7D, b"'="),
        0x81..=0x89 => byte - 0x81 + b'a',
        0x91..=0x99 => byte - 0x91 + b'j',
        0xA2..=0xA9 => byte - 0xA2 + b's',
        0xC1..=0xC9 => byte - 0xC1 + b'A',
        0xD1..=0xD9 => byte - 0xD1 + b'J',
        0xE2..=0xE9 => byte - 0xE2 + b'S',
        0xF0..=0xF9 => byte - 0xF0 + b'0',
        _ => OTHER,
    }
}

/// Control bytes by their names, from 0.
const CONTROLS: [&str; 32] = [
    "NUL", "SOH", "STX", "ETX", "EOT", "ENQ", "ACK", "BEL", "BS", "TAB", "LF", "VT", "FF", "CR",
    "SO", "SI", "DLE", "DC1", "DC2", "DC3", "DC4", "NAK", "SYN", "ETB", "CAN", "EM", "Ctrl-Z",
    "ESC", "FS", "GS", "RS", "US",
];

/// A byte by name and number, or by its number in hexadecimal.
pub fn byte_name(medium: Medium, byte: u8) -> String {
    match (medium, byte) {
        (Medium::Disc, 32) => "a blank (32)".to_owned(),
        (Medium::Disc, 33..=126) => format!("\"{}\" ({byte})", char::from(byte)),
        (Medium::Disc, 127) => "DEL (127)".to_owned(),
        (Medium::Disc, 0..=31) => format!("{} ({byte})", CONTROLS[usize::from(byte)]),
        _ => format!("0x{byte:02X}"),
    }
}
