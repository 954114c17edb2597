//! The codes of points: one row a family, in the order of the standard's lists at H600 and
//! H700. The list is closed.

use crate::File;
use Points::{Both, Receivers, Sources};

/// The points of a family: receivers stand in R, sources in any other file.
enum Points {
    Receivers,
    Sources,
    Both,
}

/// A digit 1 to 9 follows the letter.
const DIGIT: bool = true;
/// Nothing follows the two letters.
const ALONE: bool = false;

/// The letter or two letters of a family, whether a digit follows, and its points.
type Family = (&'static [u8], bool, Points);

const FAMILIES: [Family; 10] = [
    (b"G", DIGIT, Receivers), // geophones
    (b"H", DIGIT, Receivers), // hydrophones
    (b"R", DIGIT, Receivers), // multi-component and other receivers
    (b"V", DIGIT, Sources),   // vibroseis
    (b"E", DIGIT, Sources),   // explosive
    (b"A", DIGIT, Sources),   // air gun
    (b"W", DIGIT, Sources),   // water gun
    (b"S", DIGIT, Sources),   // other sources
    (b"PM", ALONE, Both),     // permanent marker
    (b"KL", ALONE, Both),     // killed or omitted
];

/// Whether the bytes are a code of a file: one of a family that may stand in it.
pub fn is_code(file: File, bytes: &[u8]) -> bool {
    FAMILIES.iter().any(|family| stands_in(family, file) && has(family, bytes))
}

/// Whether the bytes are a code of a file with a digit, which a code table may name.
pub fn is_numbered(file: File, bytes: &[u8]) -> bool {
    FAMILIES.iter().any(|family| family.1 == DIGIT && stands_in(family, file) && has(family, bytes))
}

fn stands_in((_, _, points): &Family, file: File) -> bool {
    match points {
        Receivers => file == File::R,
        Sources => file != File::R,
        Both => true,
    }
}

fn has((letters, digit, _): &Family, bytes: &[u8]) -> bool {
    match bytes.strip_prefix(*letters) {
        Some([b'1'..=b'9']) => *digit,
        Some([]) => !digit,
        _ => false,
    }
}
