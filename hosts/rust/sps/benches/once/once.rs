//! Cross-checks one of the benchmark's sets once, for `hosts/instructions`. The argument is
//! its name; without one the names are printed.

#[allow(dead_code)]
#[path = "../../src/archive.rs"]
mod archive;

use archive::Files;
use many_sets::large::{measured, FULL};
use small_sets::Set;
use sps as _; // It links the archive.
use std::env;
use std::process::ExitCode;

fn main() -> ExitCode {
    let Some(word) = env::args().nth(1) else {
        measured().for_each(|(name, _)| println!("{name}"));
        return ExitCode::SUCCESS;
    };
    let Some((_, make)) = measured().find(|(name, _)| *name == word) else {
        eprintln!("no set is named `{word}`");
        return ExitCode::FAILURE;
    };
    let Set { medium, r, s, x } = &make(FULL);
    println!("{}", archive::cross(Files { medium: *medium as u64, r, s, x }));
    ExitCode::SUCCESS
}
