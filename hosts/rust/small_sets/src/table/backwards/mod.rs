//! Relation lines whose receivers are counted downwards: the sets, 6, 18 and 19, and the
//! answers.

mod answers;
mod refusals;

use crate::line::{receiver, relation, Line};
use crate::place::{below, first};
use crate::File::{R, X};
use crate::{set_a, Case, Set};

pub fn cases() -> Vec<Case> {
    [refusals::cases(), answers::cases()].concat()
}

/// Set A with its relation line changed.
fn edited(change: impl Fn(Line) -> Line) -> Set {
    set_a().edit(X, first(), change)
}

/// Set A with receivers 103-101.
pub fn backwards() -> Set {
    edited(|x| x.receivers(103, 101))
}

/// Set A, and a line that covers 104, 103, 102 after it.
pub fn up_and_down() -> Set {
    set_a().add(R, receiver(104)).add(X, relation().channels(4, 6).receivers(104, 102))
}

/// Three components of each receiver, from 103 on down.
fn three_components() -> Set {
    edited(|x| x.increment("3").channels(1, 9).receivers(103, 101))
}

/// All channels, of 1,111 receivers with nine components each.
fn all_channels() -> Set {
    let many = set_a().add_all(R, (104..=1_211).map(receiver));
    many.edit(X, first(), |x| x.channels(1, 9_999).increment("9").receivers(1_211, 101))
}

/// Set A with other point numbers in R, counted from the last.
fn numbered(first_number: u32) -> Set {
    let points = (1..=3).zip(first_number..);
    let set = points.fold(set_a(), |set, (n, point)| set.edit(R, below(n), |r| r.point(point)));
    set.edit(X, first(), |x| x.receivers(first_number + 2, first_number))
}

fn on_tape(set: Set) -> Set {
    set.on_tape().expect("characters of a tape")
}
