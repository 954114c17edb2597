//! The program, run in folders of cargo's temporary folder.

use crate::made::made;
use small_sets::{File, Set};
use std::fs;
use std::path::{Path, PathBuf};
use std::process::Command;
use std::sync::OnceLock;

fn program() -> &'static Path {
    static PROGRAM: OnceLock<PathBuf> = OnceLock::new();
    PROGRAM.get_or_init(|| {
        let root = fs::canonicalize(spschk::root()).expect("a repository");
        made(&root, "spschk", "run", "bin/spschk")
    })
}

/// A folder that the program is run in.
pub struct Folder(PathBuf);

impl Folder {
    /// An empty folder of that name.
    pub fn empty(name: &str) -> Folder {
        let path = Path::new(env!("CARGO_TARGET_TMPDIR")).join("spschk").join(name);
        if path.exists() {
            fs::remove_dir_all(&path).expect("the folder of an earlier run");
        }
        fs::create_dir_all(&path).expect("a folder");
        Folder(path)
    }

    /// A folder with a set.
    pub fn of(name: &str, set: &Set) -> Folder {
        let folder = Folder::empty(name);
        for file in File::ALL {
            fs::write(folder.path(file), set.file(file)).expect("a file");
        }
        folder
    }

    /// Where a file of the set stands.
    pub fn path(&self, file: File) -> PathBuf {
        self.0.join(format!("set.{}01", file.letter().to_lowercase()))
    }

    /// The folder without a file.
    pub fn without(self, file: File) -> Folder {
        fs::remove_file(self.path(file)).expect("a file to remove");
        self
    }

    /// The folder with a link in place of a file.
    pub fn link(self, file: File, to: &str) -> Folder {
        let folder = self.without(file);
        std::os::unix::fs::symlink(to, folder.path(file)).expect("a link");
        folder
    }

    /// The program, to be run in the folder.
    pub fn command(&self) -> Command {
        let mut command = Command::new(program());
        command.current_dir(&self.0);
        command
    }

    /// The program, to be run in the folder and ended where it takes longer than ten seconds.
    pub fn within_limits(&self) -> Command {
        let mut command = Command::new("timeout");
        command.current_dir(&self.0).arg("10").arg(program());
        command
    }

    /// A script, to be run in the folder with the program as its name.
    pub fn shell(&self, script: &str) -> Command {
        let mut command = Command::new("sh");
        command.current_dir(&self.0).arg("-c").arg(script).arg(program());
        command
    }

    /// What a run of the program prints; it always ends well, with nothing on standard
    /// error.
    pub fn line(command: &mut Command) -> String {
        let output = command.output().expect("a run");
        assert!(output.status.success(), "{command:?}: {}", output.status);
        assert_eq!(output.stderr, b"", "{command:?}");
        String::from_utf8(output.stdout).expect("a line of text")
    }

    /// What the program prints in the folder.
    pub fn says(&self) -> String {
        Folder::line(&mut self.command())
    }
}
