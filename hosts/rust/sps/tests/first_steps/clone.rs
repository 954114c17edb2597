//! A copy of the repository as a fresh clone has it, with what `rt` has made beside it.

use crate::tools::{copy, outside, printed, root};
use std::path::{Path, PathBuf};
use std::process::Command;
use std::sync::OnceLock;

/// What git says of the repository.
pub fn git(words: &[&str]) -> String {
    let mut git = Command::new("git");
    git.args(["-c", "safe.directory=*"]).args(words).current_dir(root());
    printed(&mut git)
}

/// The copy, in which `./build` has been run; nothing is proved, since the archive is newer
/// than the crates. It is a repository of its own, so that what is left in it can be asked.
pub fn built() -> &'static Path {
    static COPY: OnceLock<PathBuf> = OnceLock::new();
    COPY.get_or_init(|| {
        let to = outside("clone");
        for name in git(&["ls-files", "-z"]).split_terminator('\0') {
            copy(&root().join(name), &to.join(name)).unwrap_or_else(|why| panic!("{name}: {why}"));
        }
        copy(Path::new(env!("ARCHIVE")), &to.join("target/staticlib/libsps.a")).expect("a copy");
        for words in [&["init", "--quiet"][..], &["add", "--all"]] {
            printed(Command::new("git").args(words).current_dir(&to));
        }
        let said = printed(Command::new("./build").current_dir(&to));
        let lines: Vec<&str> = said.lines().collect();
        let program = "hosts/rust/target/release/spswhy";
        assert_eq!(
            lines,
            [
                "libsps is proved: target/staticlib/libsps.a",
                "compiling spswhy",
                &format!("ready: {program}")
            ]
        );
        assert!(to.join(program).is_file());
        to
    })
}

/// What stands in the copy that is neither as it is cloned nor ignored.
pub fn left() -> String {
    let words = ["ls-files", "--others", "--modified", "--exclude-standard"];
    printed(Command::new("git").args(words).current_dir(built()))
}
