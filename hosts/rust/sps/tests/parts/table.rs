//! Every set of the table.

use crate::hold::{kinds, parts};
use crate::tally::Tally;
use small_sets::table;

#[test]
fn each_set() {
    let (mut tally, mut refused) = (Tally::default(), 0);
    for case in table() {
        tally.count(parts(&case.set, &case.name));
        refused += kinds(&case.set, &case.name);
    }
    tally.holds(300);
    assert!(refused > 10_000, "{refused} files are refused as another kind");
}
