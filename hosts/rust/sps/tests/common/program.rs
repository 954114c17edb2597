//! Programs run on a set, in a folder of its own.

use small_sets::{Medium, Set};
use std::path::{Path, PathBuf};
use std::process::{Command, Output};
use std::{env, fs};

/// The names of the three files.
pub const NAMES: [&str; 3] = ["set.r01", "set.s01", "set.x01"];

/// An empty folder below cargo's directory for tests.
pub fn folder(name: &str) -> PathBuf {
    let folder = Path::new(env!("CARGO_TARGET_TMPDIR")).join("programs").join(name);
    let _ = fs::remove_dir_all(&folder);
    fs::create_dir_all(&folder).expect("a folder");
    folder
}

/// Writes the files of a set.
pub fn write(folder: &Path, set: &Set) {
    for (name, bytes) in NAMES.into_iter().zip([&set.r, &set.s, &set.x]) {
        fs::write(folder.join(name), bytes).expect("a file of the set");
    }
}

/// The words by which the command for a person takes the set of a folder.
pub fn words(medium: Medium) -> &'static [&'static str] {
    const ON_TAPE: [&str; 4] = ["--tape", NAMES[0], NAMES[1], NAMES[2]];
    match medium {
        Medium::Disc => &NAMES,
        Medium::Tape => &ON_TAPE,
    }
}

/// The words by which it takes one file as a kind.
pub fn words_of_one<'a>(medium: Medium, kind: &'a str, name: &'a str) -> Vec<&'a str> {
    let tape = (medium == Medium::Tape).then_some("--tape");
    tape.into_iter().chain(["--kind", kind, name]).collect()
}

/// Runs the command for a person, with some words, in a folder.
pub fn spswhy(folder: &Path, words: &[&str]) -> Output {
    let mut command = Command::new(env!("CARGO_BIN_EXE_spswhy"));
    command.args(words).current_dir(folder).output().expect("spswhy runs")
}
