//! Sets in both spellings of depth, easting, northing and elevation: as they are, with
//! points where there is room for them, and without any. Both readers give all three the
//! same verdict, counts and answers.
//!
//! `PROBE_SEED` gives another seed, and `PROBE_TIMES` so many times the sets. A set on
//! which the readers differ is kept below cargo's directory for tests.

#[allow(dead_code)]
#[path = "../../src/archive.rs"]
mod archive;
#[path = "../questions/compare.rs"]
mod compare;
#[path = "../common/difference.rs"]
mod difference;
#[path = "../common/entries.rs"]
mod entries;
#[path = "../common/keep.rs"]
mod keep;
#[path = "../common/lent.rs"]
mod lent;
mod made;
#[path = "../../../naive/tests/common/mod.rs"]
mod naive_entry;
mod stated;
mod twins;
#[path = "../common/wrapped.rs"]
mod wrapped;
