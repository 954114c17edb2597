//! The proved lookup, way back, spread table and table line and the naive reader get the
//! same questions on the same sets, and answer the same: more than 140,000 on sound and
//! damaged sets and on sets of 9,999 lines a file, and every code. The table is run in
//! `table`.
//!
//! `PROBE_SEED` gives another seed, and `PROBE_TIMES` so many times the sets. A
//! set on which they differ is kept below cargo's directory for tests.

#[allow(dead_code)]
#[path = "../../src/archive.rs"]
mod archive;
mod codes;
mod compare;
#[path = "../common/difference.rs"]
mod difference;
mod each;
#[path = "../common/entries.rs"]
mod entries;
mod full;
#[path = "../common/keep.rs"]
mod keep;
#[path = "../common/lent.rs"]
mod lent;
mod made;
#[path = "../../../naive/tests/common/mod.rs"]
mod naive_entry;
mod tally;
#[path = "../common/wrapped.rs"]
mod wrapped;
