//! The one table through every entry: the naive reader, the proved calls, and the
//! programs, which have its cases of the cross-check and of one file.

#[allow(dead_code)]
#[path = "../../src/archive.rs"]
mod archive;
#[path = "../common/difference.rs"]
mod difference;
#[path = "../common/entries.rs"]
mod entries;
#[path = "../common/lent.rs"]
mod lent;
#[path = "../../../made.rs"]
mod made;
#[path = "../../../naive/tests/common/mod.rs"]
mod naive_entry;
#[path = "../common/program.rs"]
mod program;
#[path = "../common/wrapped.rs"]
mod wrapped;

use difference::difference;
use program::{folder, spswhy, words, words_of_one, write, NAMES};
use small_sets::{table, Case, File, Medium, Question};
use std::path::Path;
use std::process::{Command, Output};

/// The answers of each entry that answers more than verdicts.
#[test]
fn each_call() {
    let (mut forms, mut sets, mut questions) = (0, 0, 0);
    for case in table() {
        let (naive, number) = naive_entry::answer(&case.set, &case.question);
        let answers = entries::proved(&case.set, &case.question);
        for (call, answer) in [("naive", naive)].into_iter().chain(answers) {
            let difference = difference(&answer, &case.expected);
            assert!(answer == case.expected, "{} ({call})\n{difference}", case.name);
        }
        assert_eq!(number, case.expected.host_number(), "{}", case.name);
        match case.question {
            Question::Form { .. } => forms += 1,
            Question::Cross => sets += 1,
            _ => questions += 1,
        }
    }
    assert!(forms > 150, "{forms} files");
    assert!(sets > 1_000 && questions > 150, "{sets} sets, {questions} questions");
}

/// Each case that a program takes by some words, which are at least so many: it prints the
/// verdict on the files of a folder.
fn entry(
    name: &str,
    program: impl Fn(&Path, &[&str]) -> Output,
    words: impl Fn(&Case) -> Option<Vec<&'static str>>,
    least: usize,
) {
    let folder = folder(name);
    let mut cases = 0;
    for case in table() {
        let Some(words) = words(&case) else { continue };
        write(&folder, &case.set);
        let line = String::from_utf8(program(&folder, &words).stdout).expect("text");
        assert_eq!(Some(line), case.expected.verdict(), "{}", case.name);
        cases += 1;
    }
    assert!(cases >= least, "{cases} cases");
}

#[test]
fn the_command_for_a_person() {
    let of_set =
        |case: &Case| (case.question == Question::Cross).then(|| words(case.set.medium).to_vec());
    entry("table_spswhy", spswhy, of_set, 1_000);
}

/// It takes the kinds that have a letter.
#[test]
fn the_command_on_one_file() {
    let of_one = |case: &Case| {
        let Question::Form { file, kind } = case.question else { return None };
        let kind = File::of_kind(kind)?.letter();
        Some(words_of_one(case.set.medium, kind, NAMES[file as usize - 1]))
    };
    entry("table_one_file", spswhy, of_one, 100);
}

/// It takes disc files of at most 65,536 bytes.
#[test]
fn the_program() {
    let root = made::root(env!("CARGO_MANIFEST_DIR"));
    let spschk = made::made(&root, "spschk", "run", "bin/spschk");
    let run = |folder: &Path, _: &[&str]| {
        Command::new(&spschk).current_dir(folder).output().expect("spschk runs")
    };
    let small = |case: &Case| {
        let disc = case.question == Question::Cross && case.set.medium == Medium::Disc;
        let taken = disc && case.set.files().iter().all(|file| file.len() <= 65_536);
        taken.then(Vec::new)
    };
    entry("table_spschk", run, small, 1_000);
}
