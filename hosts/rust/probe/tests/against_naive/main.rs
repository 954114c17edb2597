//! The proved readers and the naive reader get the same lines and files, and
//! answer the same.
//!
//! `PROBE_SEED` gives another seed, and `PROBE_TIMES` so many times the lines.

mod compare;
mod decimals;
mod form;
mod headers;
mod points;
mod relations;
mod run;
mod show;
