//! Sets on which the readers differ, kept to look at.

use small_sets::Set;
use std::path::{Path, PathBuf};
use std::{fs, thread};

/// Writes a set down as three files, in a folder named after the test.
pub fn keep(set: &Set) -> PathBuf {
    let test = thread::current().name().unwrap_or("a test").replace("::", "_");
    let folder = Path::new(env!("CARGO_TARGET_TMPDIR")).join("sets").join(test);
    fs::create_dir_all(&folder).expect("a folder for the files");
    for (name, bytes) in [("set.r01", &set.r), ("set.s01", &set.s), ("set.x01", &set.x)] {
        fs::write(folder.join(name), bytes).expect("a file of the set");
    }
    folder
}
