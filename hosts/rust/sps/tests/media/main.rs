//! Sets on both media. Every disc set that has a tape is answered as its tape is,
//! unless 2 or 10 tells the two apart, as `stated` has it; and both readers answer
//! alike on tapes that are damaged.
//!
//! `PROBE_SEED` gives another seed, and `PROBE_TIMES` so many times the sets. A set on
//! which the readers differ is kept below cargo's directory for tests.

#[allow(dead_code)]
#[path = "../../src/archive.rs"]
mod archive;
mod bytes;
#[path = "../questions/compare.rs"]
mod compare;
mod damaged;
#[path = "../common/difference.rs"]
mod difference;
#[path = "../common/entries.rs"]
mod entries;
#[path = "../common/keep.rs"]
mod keep;
mod large;
#[path = "../common/lent.rs"]
mod lent;
mod made;
#[path = "../../../naive/tests/common/mod.rs"]
mod naive_entry;
mod names;
mod numbers;
mod stated;
mod table;
#[path = "../common/wrapped.rs"]
mod wrapped;
