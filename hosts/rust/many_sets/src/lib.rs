//! Lines and sets made from a seed: sound ones, and what can be wrong with them.
//!
//! `run` gives the seed and the length of a run. `fields` and `lines` make what
//! stands in one line, `damage` changes it. `sound` makes whole sets, `media` those of
//! which a tape can be made, `spellings` writes their decimals with points or without,
//! `backwards` lays their spreads out backwards, `faults` changes them; `large` has those of
//! full size. `questions` asks for traces and codes. `values` makes what lines are written from,
//! and `written` spells a line as it is written.

#![forbid(unsafe_code)]

pub mod backwards;
pub mod damage;
pub mod faults;
pub mod fields;
pub mod large;
pub mod lines;
pub mod media;
pub mod questions;
pub mod run;
pub mod sound;
pub mod spellings;
pub mod values;
pub mod written;
