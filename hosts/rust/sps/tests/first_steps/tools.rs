//! Folders and commands that the tests share.

use std::hash::{DefaultHasher, Hash, Hasher};
use std::path::{Path, PathBuf};
use std::process::{Command, Output};
use std::{fs, io};

/// The top of the repository.
pub fn root() -> PathBuf {
    fs::canonicalize(Path::new(env!("CARGO_MANIFEST_DIR")).join("../../..")).expect("a repository")
}

/// An empty folder below cargo's directory for tests.
pub fn folder(name: &str) -> PathBuf {
    emptied(Path::new(env!("CARGO_TARGET_TMPDIR")).join("first_steps").join(name))
}

/// An empty folder outside of this repository, for another one: `rt ci` refuses a `crates.txt`
/// below the top.
pub fn outside(name: &str) -> PathBuf {
    let mut place = DefaultHasher::new();
    root().hash(&mut place);
    let place = format!("first_steps_{:016x}", place.finish());
    emptied(std::env::temp_dir().join(place).join(name))
}

fn emptied(folder: PathBuf) -> PathBuf {
    let _ = fs::remove_dir_all(&folder);
    fs::create_dir_all(&folder).expect("a folder");
    folder
}

/// What bytes are as text.
pub fn text(bytes: &[u8]) -> String {
    String::from_utf8_lossy(bytes).into_owned()
}

/// Runs a command, however it ends.
pub fn output(command: &mut Command) -> Output {
    command.output().unwrap_or_else(|error| panic!("{command:?}: {error}"))
}

/// Runs a command, which has to end well, and returns what it prints on standard output.
pub fn printed(command: &mut Command) -> String {
    let output = output(command);
    assert!(
        output.status.success(),
        "{command:?}: {}\n{}{}",
        output.status,
        text(&output.stdout),
        text(&output.stderr)
    );
    text(&output.stdout)
}

/// Copies a file, and makes the folders that it stands in.
pub fn copy(from: &Path, to: &Path) -> io::Result<()> {
    fs::create_dir_all(to.parent().expect("a folder"))?;
    fs::copy(from, to).map(|_| ())
}

/// The shared object that is made of the archive by the package's own command.
pub fn shared(folder: &Path) -> PathBuf {
    let library = folder.join("libsps.so");
    let mut build = Command::new("python3");
    build.args(["-m", "sps.build", env!("ARCHIVE")]).arg(&library);
    printed(build.current_dir(root().join("hosts/python")));
    assert!(library.is_file());
    library
}
