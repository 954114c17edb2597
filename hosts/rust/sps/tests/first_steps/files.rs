//! How the files of the repository are kept: by git, and by editors.

use crate::clone::git;
use crate::tools::root;
use std::fs;

/// Whether a file is one of a set, which is kept byte for byte.
fn is_of_a_set(name: &str) -> bool {
    [".r01", ".s01", ".x01"].iter().any(|end| name.ends_with(end))
}

/// Text has LF in the repository and in every clone, whatever the machine has; sets stay as they
/// are.
#[test]
fn line_ends() {
    let mut sets = 0;
    for line in git(&["ls-files", "--eol"]).lines() {
        let (ends, name) = line.split_once('\t').expect("a name");
        let (stored, attributes) = ends.split_once("attr/").expect("attributes");
        if is_of_a_set(name) {
            sets += 1;
            assert_eq!(attributes.trim(), "-text", "{name}");
        } else {
            assert_eq!(attributes.trim(), "text=auto eol=lf", "{name}");
            assert!(["i/lf", "i/none"].iter().any(|end| stored.starts_with(end)), "{line}");
        }
    }
    assert!(sets > 0);
}

/// Scripts run as they are cloned.
#[test]
fn scripts() {
    for name in [".ci/run", "build", "install"] {
        assert!(git(&["ls-files", "--stage", name]).starts_with("100755 "), "{name}");
        let script = fs::read(root().join(name)).expect("a script");
        assert!(script.starts_with(b"#!/usr/bin/env bash\n"), "{name}");
    }
}
