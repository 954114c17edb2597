//! What can be wrong with a line.

use small_sets::{Line, Random};

/// The first and the last column of each field.
pub type Fields = &'static [(usize, usize)];

/// Whole numbers, decimals, times and codes at the edge of their rules, and
/// beyond it.
const TEXTS: [&[&str]; 4] = [
    &[
        "", "0", "-0", "1", "-1", "+1", "--1", "- 1", "1-", "1 ", "1 2", "1e1", "0x1", ":", "/",
        "99", "100", "999", "1000", "-999", "-1000", "9999", "10000", "-9999", "-10000", "99999",
        "100000", "99999999",
    ],
    &[
        ".5", "-.5", " .5", "+0.5", "-0.5", "-0.0", "0.0", "1.", "1.25", "1.5 ", "1 .5", "1. 5",
        "1,5", "99.9", "100.0", "999.9", "-999.9", "-1000.0", "9999.9", "10000.0",
    ],
    &["000000", "000060", "006000", "235959", "235960", "240000", "  1200", "12:00 "],
    &["G1", "V1", "G0", "V0", "PM", "KL", "pm", "K1", "1G"],
];

/// A line with one thing changed after its letter, wrong or not.
pub fn damage(random: &mut Random, mut line: Line, fields: Fields) -> Line {
    let (first, last) = fields[random.below(fields.len())];
    let any = 1 + random.below(79);
    let field = &mut line.0[first - 1..last];
    let width = field.len();
    match random.below(7) {
        // One byte of any value, in any column.
        0 => line.0[any] = random.bytes(1)[0],
        // One byte of a number or a blank.
        1 => field[random.below(width)] = random.pick(b" 0123456789+-."),
        // The bytes of the field moved round.
        2 => field.rotate_left(random.below(width)),
        3 => field.fill(b' '),
        // A text on the right of the field, or on its left.
        4 => put(field, format!("{:>width$}", text(random))),
        5 => put(field, format!("{:width$}", text(random))),
        // Bytes of numbers all over.
        _ => field.fill_with(|| random.pick(b"   -.0123456789")),
    }
    line
}

fn text(random: &mut Random) -> &'static str {
    let texts = random.pick(&TEXTS);
    random.pick(texts)
}

/// The last bytes of a text, over a field.
fn put(field: &mut [u8], text: String) {
    let start = text.len() - field.len();
    field.copy_from_slice(&text.as_bytes()[start..]);
}
