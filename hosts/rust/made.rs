//! What `rt` makes of the crates for hosts: archives, and programs. Build scripts and
//! tests share it.

use std::fs::{self, File};
use std::io;
use std::path::{Path, PathBuf};
use std::process::Command;
use std::time::SystemTime;

/// The top of the repository, from a package of `hosts/rust`.
pub fn root(package: impl AsRef<Path>) -> PathBuf {
    fs::canonicalize(package.as_ref().join("../../..")).expect("a repository")
}

/// What the proofs and the code stand in. What `rt` makes of a crate stands beside them,
/// in `out`.
pub fn sources(root: &Path) -> Vec<PathBuf> {
    let crates = fs::read_dir(root.join("crates")).expect("the crates");
    let folders = crates.map(|folder| folder.expect("a crate").path());
    let parts = folders.flat_map(|folder| ["src", "specs", "proofs"].map(|part| folder.join(part)));
    parts.filter(|part| part.is_dir()).chain([root.join("crates.txt")]).collect()
}

/// A file below `target`, which `rt WORD` makes in the crate `name` where it is missing or
/// older than the crates.
pub fn made(root: &Path, name: &str, word: &str, file: &str) -> PathBuf {
    let file = root.join("target").join(file);
    let newest = sources(root).iter().map(|path| newest(path).expect("the crates")).max();
    let last = fs::metadata(&file).and_then(|file| file.modified()).ok();
    if last.is_none() || last < newest {
        make(root, name, word, &file).expect("a folder that can be written");
    }
    file
}

/// Runs `rt` in the folder of a crate, and copies what it makes there. Build scripts run at
/// the same time, so that one waits for the other.
fn make(root: &Path, name: &str, word: &str, file: &Path) -> io::Result<()> {
    fs::create_dir_all(file.parent().expect("a folder"))?;
    let turn = File::create(root.join("target/rt.lock"))?;
    turn.lock()?;
    let folder = root.join("crates").join(name);
    let status = Command::new("rt").arg(word).current_dir(&folder).status();
    let status = status.expect("rt, the Rattle toolchain, is on the path");
    assert!(status.success(), "`rt {word}` in {} ended with {status}", folder.display());
    // Not in place: the file may be a program that runs.
    let new = file.with_extension("new");
    fs::copy(folder.join("out").join(file.file_name().expect("a name")), &new)?;
    fs::rename(&new, file)
}

/// When a file, or anything below a folder, last changed.
fn newest(path: &Path) -> io::Result<SystemTime> {
    let metadata = fs::metadata(path)?;
    let mut last = metadata.modified()?;
    if metadata.is_dir() {
        for entry in fs::read_dir(path)? {
            last = last.max(newest(&entry?.path())?);
        }
    }
    Ok(last)
}
