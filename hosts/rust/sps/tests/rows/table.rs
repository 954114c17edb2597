//! All sets of the table.

use crate::hold::{hold, hold_all, told, Told};
use crate::tally::Tally;
use small_sets::{table, Medium, Set};

/// Sets near the limits take long; `full` has others of their size.
fn is_large(set: &Set) -> bool {
    set.files().into_iter().any(|file| file.len() > 100_000)
}

fn hold_large(set: &Set) -> Told {
    let told = told(set);
    hold(set, &told, told.rows.len() as u64 / 2, 83);
    told
}

#[test]
fn each_set() {
    let (mut tally, mut tapes) = (Tally::default(), 0);
    let mut sets: Vec<Set> = table().into_iter().map(|case| case.set).collect();
    sets.dedup();
    for set in &sets {
        tally.count(&if is_large(set) { hold_large(set) } else { hold_all(set) });
        tapes += u64::from(set.medium == Medium::Tape);
    }
    assert!(tally.accepted > 300 && tally.refused > 500 && tapes > 100, "{tally:?}, {tapes} tapes");
    tally.holds(20);
}
