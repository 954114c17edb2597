//! Relation lines: their fields, and their numbers of channels and receivers.

use crate::run::{damaged, first_columns, valid};
use many_sets::lines::{relation, OF_RELATIONS};
use naive::File;

#[test]
fn relations() {
    valid(File::X, 6, relation);
}

#[test]
fn damaged_relations() {
    let mut faults = first_columns(OF_RELATIONS);
    faults.extend([(6, 39), (6, 47), (6, 72)]);
    damaged(File::X, 7, relation, OF_RELATIONS, &faults);
}
