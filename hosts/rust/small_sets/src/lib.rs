//! Set A of the paper, edits of it, one table of cases, and the folders that
//! programs are run on.
//!
//! A case is a set, a question and the answer that the paper gives, written by
//! hand. The table depends on no reader, so that every entry can be held
//! against it: library call, C call, program.

#![forbid(unsafe_code)]

mod case;
mod codes;
mod crews;
mod examples;
mod folders;
mod line;
pub mod place;
mod random;
mod set;
mod table;
pub mod tape;

pub use case::{Answer, Case, Question, STAYS};
pub use codes::codes;
pub use examples::{examples, Example};
pub use folders::{folders, one_fault, tape_folders, two_faults, Folder, OneFault, TwoFaults};
pub use line::{first_record, header, header_with, marker, receiver, relation, shot, Line};
pub use random::Random;
pub use set::{headers_only, set_a, File, Medium, Set};
pub use table::{table, Section, SECTIONS};
