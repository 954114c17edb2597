//! The values of one line, read and written: the proved calls, the wrapper, and the naive reader
//! and writer get the same lines and the same values, and answer the same. What is written goes
//! into sets, which are accepted.
//!
//! `PROBE_SEED` gives another seed, and `PROBE_TIMES` so many times the lines.

#[allow(dead_code)]
#[path = "../../src/archive.rs"]
mod archive;
mod carried;
mod codes;
mod lengths;
#[path = "../common/lent.rs"]
mod lent;
mod merge;
mod numbers;
mod read;
mod read_lines;
mod there_and_back;
mod told;
#[path = "../common/wrapped.rs"]
mod wrapped;
mod write;
mod write_values;
