//! The codes of points, each written out.

use crate::File;

const OF_R: &str = "
    G1 G2 G3 G4 G5 G6 G7 G8 G9
    H1 H2 H3 H4 H5 H6 H7 H8 H9
    R1 R2 R3 R4 R5 R6 R7 R8 R9
    PM
    KL
";

const OF_S: &str = "
    V1 V2 V3 V4 V5 V6 V7 V8 V9
    E1 E2 E3 E4 E5 E6 E7 E8 E9
    A1 A2 A3 A4 A5 A6 A7 A8 A9
    W1 W2 W3 W4 W5 W6 W7 W8 W9
    S1 S2 S3 S4 S5 S6 S7 S8 S9
    PM
    KL
";

/// The codes that may stand in a file, in the standard's order; X has none.
pub fn codes(file: File) -> Vec<[u8; 2]> {
    let codes = match file {
        File::R => OF_R,
        File::S => OF_S,
        File::X => "",
    };
    let bytes = |code: &str| code.as_bytes().try_into().expect("two bytes");
    codes.split_whitespace().map(bytes).collect()
}
