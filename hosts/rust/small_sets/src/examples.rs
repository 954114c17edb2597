//! Sets of the paper's table, one in another spelling, one laid out backwards, one with more
//! codes, one with killed points and those of two crews, as folders to look at, with the program's
//! line.

use crate::crews::{crew_one, crew_two};
use crate::place::{below, first};
use crate::table::write::{accepted, as_a, refused, with_dead};
use crate::table::{backwards, code_tables, decimals, killed, paper};
use crate::File::{R, S, X};
use crate::{headers_only, set_a, Answer, Set};

/// A folder `examples/NAME` with `set.r01`, `set.s01`, `set.x01` and `verdict`; the names
/// of those that hold tapes end in `_tape`.
pub struct Example {
    pub name: &'static str,
    pub set: Set,
    /// With its line feed.
    pub verdict: String,
}

impl Example {
    /// The four files by name.
    pub fn files(&self) -> [(&'static str, &[u8]); 4] {
        [
            ("set.r01", &self.set.r),
            ("set.s01", &self.set.s),
            ("set.x01", &self.set.x),
            ("verdict", self.verdict.as_bytes()),
        ]
    }
}

pub fn examples() -> Vec<Example> {
    let example = |name, set, answer: Answer| {
        let verdict = answer.verdict().expect("the answer of a cross-check");
        Example { name, set, verdict }
    };
    vec![
        example("set_a", set_a(), as_a()),
        example("set_a_tape", set_a().on_tape().expect("characters of a tape"), as_a()),
        example("no_points", decimals::no_points(), as_a()),
        example("backwards", backwards::backwards(), as_a()),
        example("code_tables", code_tables::code_tables(), accepted(3, 2, 2, 6)),
        example("killed", killed::killed(), with_dead([3, 2, 1, 9], 3)),
        example("three_components", paper::three_components(), accepted(3, 1, 1, 9)),
        example("headers_only", headers_only(), accepted(0, 0, 0, 0)),
        example("moved_name", paper::moved_name(), refused(5, X, first(), 14)),
        example("odd_channel", paper::odd_channel(), refused(6, X, first(), 72)),
        example("unsorted_receivers", paper::unsorted_receivers(), refused(10, R, below(3), 2)),
        example("unnamed_shot", paper::unnamed_shot(), refused(15, S, below(2), 1)),
        example("crew_one", crew_one(), refused(15, S, below(2), 1)),
        example("crew_two", crew_two(), refused(15, S, first(), 1)),
        example("missing_receiver", paper::missing_receiver(), refused(18, X, first(), 64)),
        example("other_blanks", paper::other_blanks(), refused(18, X, first(), 64)),
        example("covered_twice", paper::covered_twice(), refused(19, X, below(2), 64)),
        example("unnamed_code", code_tables::unnamed_code(), refused(25, R, below(3), 27)),
    ]
}
