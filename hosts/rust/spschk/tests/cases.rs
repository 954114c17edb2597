//! The folders of `crates/cases` against their builder and the naive reader.

use naive::Medium;
use small_sets::{one_fault, set_a, two_faults, File, Set};
use std::collections::BTreeSet;
use std::fs;
use std::path::{Path, PathBuf};

/// The files below a folder, by their paths in it.
fn below(folder: &Path, inside: &Path, found: &mut BTreeSet<PathBuf>) {
    for entry in fs::read_dir(folder.join(inside)).expect("a folder") {
        let entry = entry.expect("an entry");
        let path = inside.join(entry.file_name());
        if entry.path().is_dir() {
            below(folder, &path, found);
        } else {
            found.insert(path);
        }
    }
}

#[test]
fn files_are_as_built() {
    let data = spschk::root().join("crates/cases/data");
    let built = spschk::data();
    for (path, bytes) in &built {
        let stored =
            fs::read(data.join(path)).unwrap_or_else(|e| panic!("{}: {e}", path.display()));
        assert!(stored == *bytes, "{} differs", path.display());
    }
    let mut stored = BTreeSet::new();
    below(&data, Path::new(""), &mut stored);
    let built: BTreeSet<PathBuf> = built.into_iter().map(|(path, _)| path).collect();
    assert_eq!(built, stored);
}

#[test]
fn stdout_is_the_readers() {
    let stored = fs::read_to_string(spschk::root().join("crates/cases/stdout")).expect("stdout");
    assert_eq!(stored, spschk::stdout());
}

/// The set that the program itself is run on.
#[test]
fn the_programs_set_is_set_a() {
    let program = spschk::root().join("crates/spschk");
    for file in File::ALL {
        let name = format!("set.{}01", file.letter().to_lowercase());
        let stored = fs::read(program.join("data").join(&name)).expect("a file of set A");
        assert!(stored == set_a().file(file), "{name} differs");
    }
    let stored = fs::read_to_string(program.join("stdout")).expect("stdout");
    assert_eq!(stored, spschk::line(&set_a()));
}

/// The number that a set is refused for; `None` where it is accepted.
fn number(set: &Set) -> Option<u8> {
    naive::check(Medium::Disc, set.files()).err().map(|refusal| refusal.number)
}

#[test]
fn each_number_has_a_set() {
    let numbers: Vec<u8> = one_fault().iter().map(|case| case.number).collect();
    assert_eq!(numbers, (1..=19).chain([24, 25]).collect::<Vec<u8>>());
    for case in one_fault() {
        assert_eq!(number(&case.set()), Some(case.number), "{}", case.name());
    }
}

/// Each of two faults is there, and the one that is looked for first is given.
#[test]
fn the_first_of_two_faults_is_given() {
    for case in two_faults() {
        let [first, second] = case.numbers;
        let given = [
            number(&(case.sound)()),
            number(&(case.changes[0])((case.sound)())),
            number(&(case.changes[1])((case.sound)())),
            number(&case.set()),
        ];
        assert_eq!(given, [None, Some(first), Some(second), Some(first)], "{}", case.name);
    }
}

/// Every two neighbours of the order of checks.
#[test]
fn neighbours_have_a_set() {
    let order = [1, 2, 3, 4, 5, 6, 7, 8, 9, 24, 25, 10, 11, 12, 13, 14, 16, 17, 18, 19, 15];
    for two in order.windows(2) {
        assert!(two_faults().iter().any(|case| case.numbers == two), "{two:?}");
    }
}
