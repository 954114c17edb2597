//! The folders of `examples/` against their builder and the naive reader.

mod common;

use small_sets::{examples, Question};
use std::collections::BTreeSet;
use std::fs;
use std::path::{Path, PathBuf};

fn root() -> PathBuf {
    Path::new(env!("CARGO_MANIFEST_DIR")).join("../../../examples")
}

#[test]
fn files_are_as_built() {
    for example in examples() {
        for (name, bytes) in example.files() {
            let path = root().join(example.name).join(name);
            let stored = fs::read(&path).unwrap_or_else(|e| panic!("{}: {e}", path.display()));
            assert!(stored == bytes, "{} differs", path.display());
        }
    }
}

#[test]
fn no_folder_is_left_over() {
    let built: BTreeSet<String> = examples().iter().map(|e| e.name.to_string()).collect();
    let stored: BTreeSet<String> = fs::read_dir(root())
        .expect("the examples folder")
        .map(|entry| entry.expect("an entry").path())
        .filter(|path| path.is_dir())
        .filter_map(|path| Some(path.file_name()?.to_str()?.to_string()))
        .collect();
    assert_eq!(built, stored);
}

#[test]
fn verdicts_are_the_readers() {
    for example in examples() {
        let (answer, _) = common::answer(&example.set, &Question::Cross);
        assert_eq!(answer.verdict().as_deref(), Some(example.verdict.as_str()), "{}", example.name);
    }
}
