//! Header blocks of all the lines.

use super::last;
use small_sets::place::last_header;
use small_sets::{header, headers_only, File, Set};

/// H00 in all lines but the last, which make the block whole.
pub fn alone(lines: usize) -> Set {
    let whole = headers_only();
    Set::default()
        .each(|set, file| set.add_all(file, vec![header(0); lines - last_header()]))
        .each(|set, file| set.add_all(file, (1..=last_header()).map(|line| whole.line(file, line))))
}

pub fn last_column(lines: usize) -> Set {
    last(alone(lines), File::X, |line| line.at(80, "X"))
}
