//! The two parts of the check on the same files: the form of each of three alone, as each
//! kind, then their cross-check. Both readers agree on every form, and the parts agree with
//! each other, as `hold` has it, on all sets of the table and on some 20,000 that are made,
//! sound and damaged, on disc and on tape.
//!
//! `PROBE_SEED` gives another seed, and `PROBE_TIMES` so many times the sets. A set on
//! which the readers or the parts differ is kept below cargo's directory for tests.

#[allow(dead_code)]
#[path = "../../src/archive.rs"]
mod archive;
mod hold;
#[path = "../common/keep.rs"]
mod keep;
mod made;
mod numbers;
mod table;
mod tally;

use sps as _; // It links the archive.
