//! Spreads laid out backwards: channels numbered against the stations.

use crate::faults::own_lines;
use small_sets::{File, Line, Set};

/// A relation line with from and to receiver in each other's place.
pub fn line(mut line: Line) -> Line {
    line.0[63..79].rotate_left(8);
    line
}

/// A disc set with each of its relation lines so.
pub fn set(set: Set) -> Set {
    own_lines(&set, File::X).fold(set, |set, at| set.edit(File::X, at, line))
}
