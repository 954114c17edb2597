//! The proved cross-check and the naive reader get the same sets, and answer the
//! same: some 350,000 sound and damaged ones, some 3,000 hostile ones of 2,000 lines a
//! file with changes, the examples, and sets of 9,999 lines a file. `codes` and `tables`
//! hold the proved call to the list of all codes, used and named. The table is run through
//! all entries in `table`.
//!
//! `PROBE_SEED` gives another seed, and `PROBE_TIMES` so many times the sets. A
//! set on which they differ is kept below cargo's directory for tests.

mod answers;
#[allow(dead_code)]
#[path = "../../src/archive.rs"]
mod archive;
mod codes;
mod columns;
mod compare;
mod counts;
mod damaged;
mod examples;
mod full;
mod hostile;
#[path = "../common/keep.rs"]
mod keep;
mod lengths;
#[path = "../common/lent.rs"]
mod lent;
mod tables;
mod threads;
#[path = "../common/wrapped.rs"]
mod wrapped;
