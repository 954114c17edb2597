//! Sets by their folders.

use crate::{folder, said, spswhy, tape, write, Said, NAMES};
use small_sets::place::first;
use small_sets::{set_a, File, Set};
use std::fs;
use std::path::{Path, PathBuf};
use std::process::Command;

/// A folder with sets in folders of their own.
fn with(name: &str, sets: &[(&str, &Set)]) -> PathBuf {
    let above = folder(name);
    for (name, set) in sets {
        fs::create_dir(above.join(name)).expect("a folder");
        write(&above.join(name), set);
    }
    above
}

fn moved_name() -> Set {
    set_a().put(File::X, first(), 14, " L1")
}

/// What is said of one folder is said of its three files.
#[test]
fn one_folder() {
    let cut = set_a().cut(File::S, 100);
    let above = with("one_folder", &[("a", &set_a()), ("b", &moved_name()), ("c", &cut)]);
    for name in ["a", "b", "c"] {
        let files = NAMES.map(|file| format!("{name}/{file}"));
        let of_files = said(spswhy(&above, &files.each_ref().map(|file| &file[..])));
        assert_eq!(said(spswhy(&above, &[name])), of_files);
    }
    let (_, _, reason) = said(spswhy(&above, &["b"]));
    let place = format!("b/set.x01:{}:14: refused with 5: ", first());
    assert!(reason.starts_with(&place), "{reason}");
    let (status, verdict, _) = said(spswhy(&above.join("a"), &["."]));
    assert_eq!((status, verdict.as_str()), (Some(0), "ACCEPTED 3 1 1 3 0\n"));
}

#[test]
fn one_folder_of_tapes() {
    let above = with("one_folder_of_tapes", &[("a", &tape(&set_a()))]);
    let (status, verdict, _) = said(spswhy(&above, &["--tape", "a"]));
    assert_eq!((status, verdict.as_str()), (Some(0), "ACCEPTED 3 1 1 3 0\n"));
    assert_eq!(said(spswhy(&above, &["a"])).0, Some(1));
}

/// The files of a folder under other names.
fn renamed(above: &Path, names: [&str; 3]) -> Said {
    for (name, other) in NAMES.into_iter().zip(names) {
        fs::rename(above.join("a").join(name), above.join("a").join(other)).expect("a file");
    }
    let said = said(spswhy(above, &["a"]));
    for (name, other) in NAMES.into_iter().zip(names) {
        fs::rename(above.join("a").join(other), above.join("a").join(name)).expect("a file");
    }
    said
}

/// The letter of the ending says the kind, whatever stands before it and whatever else is there.
#[test]
fn endings() {
    let above = with("endings", &[("a", &set_a())]);
    fs::create_dir(above.join("a/old.r01")).expect("a folder");
    for name in ["set.h01", "set.r", "r01", "set.r01~", "set.r0x", "set.rr1", ".x01"] {
        fs::write(above.join("a").join(name), "other").expect("a file");
    }
    for names in [
        ["set.r01", "set.s01", "set.x01"],
        ["SET.R01", "SET.S01", "SET.X01"],
        ["x.s.r1", "r.S02", "s.x123"],
    ] {
        let expected = (Some(0), "ACCEPTED 3 1 1 3 0\n".to_owned(), String::new());
        assert_eq!(renamed(&above, names), expected, "{names:?}");
    }
}

/// Status 2, nothing on standard output, and these words.
fn no_verdict(above: &Path, name: &str, why: &str) {
    let expected = (Some(2), String::new(), format!("spswhy: {why}\n"));
    assert_eq!(said(spswhy(above, &[name])), expected);
}

#[test]
fn no_three_files() {
    let above = with("no_three_files", &[("a", &set_a()), ("b", &set_a()), ("c", &set_a())]);
    fs::write(above.join("a/again.R02"), "other").expect("a file");
    no_verdict(&above, "a", "a: 2 files of R, and one is needed: again.R02 and set.r01");
    fs::remove_file(above.join("b/set.s01")).expect("a file");
    no_verdict(&above, "b", "b: no file of S, whose name ends as .s01 does");
    fs::rename(above.join("c/set.x01"), above.join("c/set.X01.gz")).expect("a file");
    no_verdict(&above, "c", "c: set.X01.gz is compressed (gzip): unpack it");
}

/// A line each in the order that is given, a message each, and a summary.
#[test]
fn many_folders() {
    let above = with("many_folders", &[("a", &set_a()), ("b", &moved_name()), ("c", &set_a())]);
    fs::remove_file(above.join("c/set.s01")).expect("a file");
    let (_, _, message) = said(spswhy(&above, &["b"]));
    let b = format!("b: REFUSED 5 X {} 14\n", first());
    let (status, lines, reason) = said(spswhy(&above, &["b", "a"]));
    assert_eq!((status, lines), (Some(1), format!("{b}a: ACCEPTED 3 1 1 3 0\n")));
    assert_eq!(reason, format!("{message}2 folders: 1 accepted, 1 refused, 0 without verdict\n"));
    let (status, lines, reason) = said(spswhy(&above, &["c", "b", "a", "c"]));
    let expected = format!("c: NO VERDICT\n{b}a: ACCEPTED 3 1 1 3 0\nc: NO VERDICT\n");
    assert_eq!((status, lines), (Some(2), expected));
    let why = "spswhy: c: no file of S, whose name ends as .s01 does\n";
    let summary = "4 folders: 1 accepted, 1 refused, 2 without verdict\n";
    assert_eq!(reason, format!("{why}{message}{why}{summary}"));
    let (status, _, reason) = said(spswhy(&above, &["a", "a"]));
    assert_eq!(
        (status, &*reason),
        (Some(0), "2 folders: 2 accepted, 0 refused, 0 without verdict\n")
    );
}

/// Three words are three files where one of them is; otherwise folders, and what is none has no
/// verdict.
#[test]
fn folders_or_files() {
    let above = with("folders_or_files", &[("a", &set_a()), ("b", &set_a()), ("c", &set_a())]);
    write(&above, &set_a());
    let (status, lines, _) = said(spswhy(&above, &["a", "b", "c"]));
    assert_eq!((status, lines.lines().count()), (Some(0), 3));
    let (status, lines, why) = said(spswhy(&above, &["a", "set.s01", "set.x01"]));
    assert_eq!((status, lines.as_str()), (Some(2), ""));
    assert_eq!(why, "spswhy: a cannot be read: not a regular file\n");
    let (status, lines, why) = said(spswhy(&above, &["a", "missing", "b"]));
    let expected = "a: ACCEPTED 3 1 1 3 0\nmissing: NO VERDICT\nb: ACCEPTED 3 1 1 3 0\n";
    assert_eq!((status, lines.as_str()), (Some(2), expected));
    assert!(why.starts_with("spswhy: missing is no folder\n"), "{why}");
    assert_eq!(
        said(spswhy(&above, &["a", "set.r01"])).1,
        "a: ACCEPTED 3 1 1 3 0\nset.r01: NO VERDICT\n"
    );
}

/// Two hundred folders; no line of progress stands in what is no terminal.
#[test]
fn two_hundred() {
    let above = with("two_hundred", &[("a", &set_a()), ("b", &moved_name())]);
    let words: Vec<&str> = ["a", "b"].into_iter().cycle().take(200).collect();
    let (status, lines, reason) = said(spswhy(&above, &words));
    assert_eq!((status, lines.lines().count()), (Some(1), 200));
    assert!(reason.ends_with("200 folders: 100 accepted, 100 refused, 0 without verdict\n"));
    assert!(!reason.contains('\r'), "{reason}");
}

/// A line that cannot be written ends the run.
#[test]
fn full_output() {
    let above = with("full_output", &[("a", &set_a()), ("b", &set_a())]);
    let full = fs::File::options().write(true).open("/dev/full").expect("a device");
    let mut command = Command::new(env!("CARGO_BIN_EXE_spswhy"));
    let run = command.args(["a", "b"]).current_dir(above).stdout(full).output();
    let run = run.expect("spswhy runs");
    assert_eq!(run.status.code(), Some(2));
    let why = String::from_utf8_lossy(&run.stderr).into_owned();
    assert!(why.starts_with("spswhy: standard output cannot be written: "), "{why}");
    assert_eq!(why.lines().count(), 1, "{why}");
}
