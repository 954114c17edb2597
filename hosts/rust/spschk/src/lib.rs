//! What the program prints of a set, by the naive reader, and what the program
//! `cases` is run on and has to write.

#![forbid(unsafe_code)]

use naive::Refusal;
use small_sets::{folders, tape_folders, Medium, Set};
use std::path::{Path, PathBuf};

/// The top of the repository.
pub fn root() -> PathBuf {
    Path::new(env!("CARGO_MANIFEST_DIR")).join("../../..")
}

/// The medium of a set as the naive reader has it.
fn medium(set: &Set) -> naive::Medium {
    match set.medium {
        Medium::Disc => naive::Medium::Disc,
        Medium::Tape => naive::Medium::Tape,
    }
}

/// The line of a refusal of a file, with its line feed.
fn refused(refusal: Refusal) -> String {
    let file = refusal.file.expect("a refusal of files has a file");
    format!("REFUSED {} {file:?} {} {}\n", refusal.number, refusal.line, refusal.column)
}

/// The program's line for a set, with its line feed.
pub fn line(set: &Set) -> String {
    match naive::check(medium(set), set.files()) {
        Ok(counts) => format!(
            "ACCEPTED {} {} {} {} {}\n",
            counts.receivers, counts.shots, counts.relations, counts.traces, counts.dead_traces
        ),
        Err(refusal) => refused(refusal),
    }
}

/// The lines of the files of a set that are not well formed by themselves.
fn alone(set: &Set) -> String {
    let files = [b'R', b'S', b'X'].into_iter().zip(set.files());
    let forms = files.map(|(kind, file)| naive::form(medium(set), kind.into(), file));
    forms.filter_map(Result::err).map(|refusal| format!("  alone {}", refused(refusal))).collect()
}

/// The files of `crates/cases/data` by path: the names of the folders, those of disc
/// files and those of tapes, and three files for each.
pub fn data() -> Vec<(PathBuf, Vec<u8>)> {
    let mut files = Vec::new();
    for (list, folders) in [("names", folders()), ("tapes", tape_folders())] {
        let names: String = folders.iter().map(|folder| format!("{}\n", folder.name)).collect();
        files.push((PathBuf::from(list), names.into_bytes()));
        for folder in &folders {
            for (name, bytes) in folder.files() {
                files.push((Path::new(&folder.name).join(name), bytes.to_vec()));
            }
        }
    }
    files
}

/// What the program `cases` has to write.
pub fn stdout() -> String {
    let folders = folders().into_iter().chain(tape_folders());
    let said = |set: &Set| line(set) + &alone(set);
    folders.map(|folder| format!("{} {}", folder.name, said(&folder.set))).collect()
}
