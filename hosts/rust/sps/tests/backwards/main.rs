//! Sets laid out backwards: from and to receiver of each relation line in each other's
//! place, so that channels are numbered against the stations. Both readers give a set and
//! its like the same verdict and counts, and what a channel leads to in one the channel at
//! the other end of its line leads to in the other, by lookup, way back and spread table.
//!
//! `PROBE_SEED` gives another seed, and `PROBE_TIMES` so many times the sets. A set on
//! which the readers differ is kept below cargo's directory for tests.

mod answers;
#[allow(dead_code)]
#[path = "../../src/archive.rs"]
mod archive;
#[path = "../questions/compare.rs"]
mod compare;
#[path = "../common/difference.rs"]
mod difference;
#[path = "../common/entries.rs"]
mod entries;
#[path = "../common/keep.rs"]
mod keep;
#[path = "../common/lent.rs"]
mod lent;
#[path = "../../../naive/tests/common/mod.rs"]
mod naive_entry;
mod relations;
mod verdicts;
#[path = "../common/wrapped.rs"]
mod wrapped;
