//! All traces of a set as rows: the proved call and the naive reader go through the same sets,
//! sound and damaged, on disc and on tape, and every byte that is lent is held, in chunks of one to
//! five rows, longer ones where a set has many, and from any trace on. The rows stand beside the
//! lookup, the way back and the spread table of each record, and the wrapper gives them out typed.
//!
//! `PROBE_SEED` gives another seed, and `PROBE_TIMES` so many times the sets. A set on which
//! they differ is kept below cargo's directory for tests.

#[allow(dead_code)]
#[path = "../../src/archive.rs"]
mod archive;
mod beside;
mod full;
mod hold;
#[path = "../common/keep.rs"]
mod keep;
mod lengths;
#[path = "../common/lent.rs"]
mod lent;
mod made;
mod table;
mod tally;
mod typed;
#[allow(dead_code)]
#[path = "../common/wrapped.rs"]
mod wrapped;
mod wrapper;
