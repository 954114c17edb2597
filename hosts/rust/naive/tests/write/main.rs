//! The writer: worked lines, every field at its borders, every letter and code, slices of every
//! length, what 6 takes, lines and values there and back, and two crews' sets in one.
//!
//! `PROBE_SEED` gives another seed, and `PROBE_TIMES` so many times the lines.

mod agreement;
mod any_values;
mod borders;
#[path = "../common/columns.rs"]
mod columns;
mod letters;
mod lines;
mod merge;
mod slices;
mod there_and_back;
mod written;
