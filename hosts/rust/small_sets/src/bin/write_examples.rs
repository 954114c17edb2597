//! Writes the example folders below the directory that is named.

use std::path::PathBuf;
use std::{env, fs, io};

fn main() -> io::Result<()> {
    let Some(root) = env::args_os().nth(1).map(PathBuf::from) else {
        return Err(io::Error::other("usage: write_examples DIRECTORY"));
    };
    for example in small_sets::examples() {
        let folder = root.join(example.name);
        fs::create_dir_all(&folder)?;
        for (name, bytes) in example.files() {
            fs::write(folder.join(name), bytes)?;
        }
    }
    Ok(())
}
