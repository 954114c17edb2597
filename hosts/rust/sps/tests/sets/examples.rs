//! The folders of `examples/`, as they are stored.

use crate::compare::compare_calls;
use small_sets::{examples, Set};
use std::fs;
use std::path::Path;

#[test]
fn each_folder() {
    let root = Path::new(env!("CARGO_MANIFEST_DIR")).join("../../../examples");
    for example in examples() {
        let folder = root.join(example.name);
        let read = |name| fs::read(folder.join(name)).expect("a file of an example");
        let [r, s, x] = ["set.r01", "set.s01", "set.x01"].map(read);
        let set = Set { medium: example.set.medium, r, s, x };
        let verdict = match compare_calls(&set, example.name) {
            Ok(accepted) => format!("{accepted}\n"),
            Err(refusal) => format!("{refusal}\n"),
        };
        assert_eq!(verdict.as_bytes(), read("verdict"), "{}", example.name);
    }
    assert!(examples().len() > 10, "{} folders", examples().len());
}
