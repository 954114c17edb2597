//! Whole messages: all that is said of a set, at least of two a number.

mod ends;
mod headers;
mod lengths;
mod lines;
mod numbers;
mod points;
mod relations;
mod shots;
mod texts;

use crate::of;
use small_sets::Set;

/// Holds the verdict and the whole message of a set.
fn hold(name: &str, set: &Set, verdict: &str, message: &str) {
    let expected = (Some(1), format!("{verdict}\n"), message.to_owned());
    assert_eq!(of(name, set), expected, "{name}");
}
