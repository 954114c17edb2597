//! Header blocks that 7 and 8 take, and that name codes.

use super::tables::tables;
use crate::fields::text;
use crate::lines::header;
use small_sets::{Line, Random};
use std::collections::BTreeSet;

/// What an H18 may hold.
const PROJECTIONS: [&str; 8] =
    ["UTM;", "UTM", "   UTM ;N/A", "N/A.;", "n/a", "N / A;", "-;N/A", "N/A N/A;"];

/// H00 to H20, often with others among them, and tables that name the codes; at times in
/// another order.
pub fn block(random: &mut Random, codes: &BTreeSet<String>) -> Vec<Line> {
    let mut lines: Vec<Line> = (0..=20).map(|kind| typed(random, kind)).collect();
    for _ in 0..random.below(4) {
        let line = other(random);
        lines.insert(random.below(lines.len() + 1), line);
    }
    lines.extend(tables(random, codes));
    if random.below(4) == 0 {
        for at in 1..lines.len() {
            lines.swap(at, random.below(at + 1));
        }
    }
    lines
}

/// A line of a type that counts.
fn typed(random: &mut Random, kind: usize) -> Line {
    let mut line = small_sets::header(kind);
    if random.below(4) == 0 {
        line = line.at(5, &text(random, 76));
    }
    if kind == 18 {
        line = line.at(33, &format!("{:48}", random.pick(&PROJECTIONS)));
    }
    line
}

/// A line of any type; one whose column 4 is a digit has none, so that H18 with
/// a digit may be empty.
fn other(random: &mut Random) -> Line {
    match random.below(4) {
        0 => small_sets::header(18).at(4, "1"),
        1 => small_sets::header(18).at(4, "0").at(33, "N/A;"),
        2 => typed(random, 18),
        _ => match header(random) {
            line if line.0.starts_with(b"H18 ") => typed(random, 18),
            // What may be a code by chance is none.
            line => line.at(33, "  "),
        },
    }
}
