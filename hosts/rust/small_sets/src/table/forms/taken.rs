//! What the form of one file does not tell.

use super::form;
use crate::line::{header_with, relation, shot};
use crate::place::{below, first, header_line};
use crate::File::{self, R, S, X};
use crate::{set_a, Answer, Case, Set};

pub fn cases() -> Vec<Case> {
    [other_files(), rules_of_the_set()].concat()
}

/// The other two files are not looked at.
fn other_files() -> Vec<Case> {
    let mut cases = Vec::new();
    for file in File::ALL {
        let others = |change: fn(Set, File) -> Set| {
            set_a().each(|set, of| if of == file { set } else { change(set, of) })
        };
        for (name, set) in [
            ("the others empty", others(|set, of| set.cut(of, 0))),
            ("the others of 81 bytes", others(|set, of| set.cut(of, 81))),
            ("the others with another header", others(|set, of| set.put(of, 1, 40, "!"))),
        ] {
            cases.push(form(name, set, file, file, Answer::Formed));
        }
    }
    cases
}

/// 7 to 19, 24 and 25 are the cross-check's, also where one file tells them.
fn rules_of_the_set() -> Vec<Case> {
    let a = set_a;
    let formed = |name, set, file| form(name, set, file, file, Answer::Formed);
    let covered_again = a().add(X, relation().channels(4, 4).receivers(103, 103));
    vec![
        formed("no H05", a().remove(R, header_line(5)), R),
        formed("an empty H18", a().put(R, header_line(18), 33, "    "), R),
        formed("G1 named twice", a().insert(R, first(), header_with(610, "G1")), R),
        formed("a code that is not named", a().put(R, below(2), 27, "G2"), R),
        formed("receivers out of order", a().put(R, below(3), 18, "     101"), R),
        formed("an earlier shot", a().add(S, shot(502).day(112)), S),
        formed("a shot again", a().add(S, shot(501)), S),
        formed("a shot that is not named", a().add(S, shot(502)), S),
        formed("no shot", a().edit(X, first(), |x| x.source(502)), X),
        formed("no receiver", a().edit(X, first(), |x| x.receivers(201, 203)), X),
        formed("channels again", a().add(X, relation()), X),
        formed("a receiver covered again", covered_again, X),
    ]
}
