//! Two crews of one survey: the same R and S, and an X of each.

use crate::line::{relation, shot};
use crate::place::first;
use crate::File::{S, X};
use crate::{set_a, Set};

/// Set A with two more shots, later than its own, and no relation line.
fn survey() -> Set {
    set_a().remove(X, first()).add(S, shot(502).time("071300")).add(S, shot(503).time("071315"))
}

/// A crew that has the first shot and the third.
pub fn crew_one() -> Set {
    survey().add(X, relation()).add(X, relation().record(12).source(503))
}

/// A crew that has the second shot, counts its receivers down, and leaves blank what is 1.
pub fn crew_two() -> Set {
    let line = relation().tape("200").source(502).receivers(103, 101);
    let line = line.record_increment(" ").instrument(" ").source_index(" ");
    survey().add(X, line.increment(" ").receiver_index(" "))
}
