//! Writes the folders of `crates/cases/data` and `crates/cases/stdout` anew.

use std::{fs, io};

fn main() -> io::Result<()> {
    let cases = spschk::root().join("crates/cases");
    let data = cases.join("data");
    if data.exists() {
        fs::remove_dir_all(&data)?;
    }
    for (path, bytes) in spschk::data() {
        let path = data.join(path);
        fs::create_dir_all(path.parent().expect("a file in a folder"))?;
        fs::write(path, bytes)?;
    }
    fs::write(cases.join("stdout"), spschk::stdout())
}
