//! No verdict: files that cannot be read, other words, output that cannot be written.

use crate::{folder, of, said, spswhy, write, NAMES};
use small_sets::{set_a, Set};
use std::fs::{self, File};
use std::io::Write;
use std::path::{Path, PathBuf};
use std::process::{Command, Output, Stdio};

/// A folder with set A, a folder and a pipe that nobody writes.
fn prepared(name: &str) -> PathBuf {
    let folder = folder(name);
    write(&folder, &set_a());
    fs::create_dir(folder.join("folder")).expect("a folder");
    let made = Command::new("mkfifo").arg(folder.join("pipe")).status().expect("mkfifo runs");
    assert!(made.success());
    folder
}

/// Status 2, nothing on standard output, and these words.
fn no_verdict(folder: &Path, words: &[&str], expected: &str) {
    let (status, verdict, why) = said(spswhy(folder, words));
    assert_eq!((status, verdict.as_str()), (Some(2), ""), "{words:?}");
    assert!(why.contains(expected), "{words:?}: {why}");
    assert_eq!(why.lines().count(), 1, "{why}");
}

#[test]
fn files_that_cannot_be_read() {
    let folder = prepared("files_that_cannot_be_read");
    let not_regular = "cannot be read: not a regular file";
    for at in 0..3 {
        for (name, why) in [
            ("missing", "missing cannot be read: No such file"),
            ("", "cannot be read: No such file"),
            ("set.r01/below", "set.r01/below cannot be read: Not a directory"),
            ("folder", not_regular),
            (".", not_regular),
            ("pipe", not_regular),
            ("/dev/zero", not_regular),
            ("/dev/null", not_regular),
        ] {
            let mut names = NAMES;
            names[at] = name;
            no_verdict(&folder, &names, why);
            no_verdict(&folder, &["--kind", ["R", "S", "X"][at], name], why);
        }
    }
}

/// The first of the three is named.
#[test]
fn two_missing_files() {
    let folder = prepared("two_missing_files");
    no_verdict(&folder, &["set.r01", "no_s", "no_x"], "no_s cannot be read");
}

#[test]
fn other_words() {
    let folder = prepared("other_words");
    let needed = "three files are needed";
    no_verdict(&folder, &[], needed);
    no_verdict(&folder, &["set.r01"], needed);
    no_verdict(&folder, &["set.r01", "set.s01"], needed);
    no_verdict(&folder, &["set.r01", "set.s01", "set.x01", "set.x01"], needed);
    no_verdict(&folder, &["--tape"], needed);
    no_verdict(&folder, &["--tape", "set.r01", "set.s01"], needed);
    no_verdict(&folder, &["set.r01", "set.s01", "set.x01", "--tape"], needed);
    no_verdict(&folder, &["--"], needed);
    no_verdict(&folder, &["--tape", "--", "set.r01"], needed);
    for word in ["--jsn", "--version=1", "---"] {
        no_verdict(&folder, &[word, "set.r01", "set.s01"], &format!("{word} is no option here"));
    }
}

/// One name or several of nothing that is there: the first is told.
#[test]
fn nothing_there() {
    let folder = prepared("nothing_there");
    let none = "typo is no file and no folder; --help says more";
    no_verdict(&folder, &["typo"], none);
    no_verdict(&folder, &["typo", "more"], none);
    no_verdict(&folder, &["--tape", "--json", "--", "typo", "1", "2", "3"], none);
    no_verdict(&folder, &["--", "--typo"], "--typo is no file and no folder");
    no_verdict(&folder, &["typo", "set.r01"], "three files are needed");
    no_verdict(&folder, &["pipe"], "three files are needed");
}

/// `--` ends the options: what follows are names, also such as look like options.
#[test]
fn end_of_options() {
    let folder = prepared("end_of_options");
    let accepted = (Some(0), "ACCEPTED 3 1 1 3 0\n".to_owned(), String::new());
    assert_eq!(said(spswhy(&folder, &["--", "set.r01", "set.s01", "set.x01"])), accepted);
    for (name, other) in NAMES.into_iter().zip(["--tape", "-", "--kind"]) {
        fs::rename(folder.join(name), folder.join(other)).expect("a file");
    }
    assert_eq!(said(spswhy(&folder, &["--", "--tape", "-", "--kind"])), accepted);
    let one = said(spswhy(&folder, &["--kind", "S", "--", "-"]));
    assert_eq!(one, (Some(0), "ACCEPTED\n".to_owned(), String::new()));
    no_verdict(&folder, &["--", "--", "-", "--kind"], "-- cannot be read: No such file");
}

#[test]
fn standard_input() {
    let folder = prepared("standard_input");
    let words =
        "standard input is not read: its length is not known before its end; write it to a \
                 file and give the name\n";
    for at in 0..3 {
        let mut names = NAMES;
        names[at] = "-";
        no_verdict(&folder, &names, words);
        no_verdict(&folder, &["--kind", ["R", "S", "X"][at], "-"], words);
    }
    no_verdict(&folder, &["-"], words);
    no_verdict(&folder, &["--tape", "-"], words);
}

/// A compressed file is not judged where its name says so; another file of such a name is.
#[test]
fn compressed_files() {
    let folder = prepared("compressed_files");
    for (name, bytes) in [("a.r01.gz", &b"\x1F\x8B\x08"[..]), ("B.GZ", b"\x1F\x8B")] {
        fs::write(folder.join(name), bytes).expect("a file");
        let words = format!("{name} is compressed (gzip): unpack it, then give the file\n");
        no_verdict(&folder, &[name, "set.s01", "set.x01"], &words);
        no_verdict(&folder, &["--tape", "--kind", "X", name], &words);
    }
    fs::write(folder.join("a.r01.gz"), set_a().r).expect("a file");
    let (status, verdict, _) = said(spswhy(&folder, &["a.r01.gz", "set.s01", "set.x01"]));
    assert_eq!((status, verdict.as_str()), (Some(0), "ACCEPTED 3 1 1 3 0\n"));
    fs::write(folder.join("set.r01"), b"\x1F\x8B\x08").expect("a file");
    let (status, verdict, reason) = said(spswhy(&folder, &NAMES));
    assert_eq!((status, verdict.as_str()), (Some(1), "REFUSED 1 R 1 0\n"));
    assert!(reason.contains("The file is compressed (gzip)"), "{reason}");
}

#[test]
fn version() {
    let (status, version, why) = said(spswhy(&folder("version"), &["--version"]));
    let expected = format!("spswhy {}\n", env!("CARGO_PKG_VERSION"));
    assert_eq!((status, version, why.as_str()), (Some(0), expected, ""));
}

/// A kind is a letter and takes one file; where it is none, no file is looked at.
#[test]
fn other_kinds() {
    let folder = prepared("other_kinds");
    let one = "--kind takes R, S or X, then one file";
    no_verdict(&folder, &["--kind"], one);
    no_verdict(&folder, &["--kind", "R"], one);
    no_verdict(&folder, &["--kind", "set.r01"], one);
    no_verdict(&folder, &["--kind", "R", "set.r01", "set.s01"], one);
    no_verdict(&folder, &["--kind", "R", "set.r01", "set.s01", "set.x01"], one);
    no_verdict(&folder, &["--kind", "R", "--tape", "set.r01"], one);
    no_verdict(&folder, &["--tape", "--kind", "R"], one);
    for kind in ["r", "s", "x", "H", "Q", "", "RS", "R ", "82", "1", "--tape", "set.r01"] {
        let none = format!("a kind is R, S or X, and not {kind:?}");
        no_verdict(&folder, &["--kind", kind, "set.r01"], &none);
        no_verdict(&folder, &["--tape", "--kind", kind, "missing"], &none);
    }
}

#[test]
fn help() {
    let folder = folder("help");
    for word in ["--help", "-h"] {
        let (status, help, why) = said(spswhy(&folder, &[word]));
        assert_eq!((status, why.as_str()), (Some(0), ""));
        assert!(help.starts_with("usage: spswhy [--tape] [--json] R S X\n"), "{help}");
    }
}

#[test]
fn empty_files() {
    let (status, verdict, reason) = of("empty_files", &Set::default());
    assert_eq!((status, verdict.as_str()), (Some(1), "REFUSED 7 R 1 0\n"));
    assert!(reason.starts_with("set.r01:1:0: refused with 7: "), "{reason}");
}

/// Runs it on a set that is refused, with other places for what it prints and says.
fn with(name: &str, out: Stdio, err: Stdio) -> Option<i32> {
    let folder = folder(name);
    write(&folder, &set_a().cut(small_sets::File::X, 0));
    let mut command = Command::new(env!("CARGO_BIN_EXE_spswhy"));
    let status = command.args(NAMES).current_dir(folder).stdout(out).stderr(err).status();
    status.expect("spswhy runs").code()
}

#[test]
fn output_that_cannot_be_written() {
    let full = || Stdio::from(File::options().write(true).open("/dev/full").expect("a device"));
    assert_eq!(with("full_out", full(), Stdio::null()), Some(2));
    assert_eq!(with("full_both", full(), full()), Some(2));
    assert_eq!(with("full_err", Stdio::null(), full()), Some(1));
    let (reader, mut writer) = std::io::pipe().expect("a pipe");
    writer.write_all(b" ").expect("a pipe with a reader");
    drop(reader);
    assert_eq!(with("closed_out", writer.into(), Stdio::null()), Some(2));
}

/// Standard output that is closed, or open for reading alone, whatever is asked.
#[test]
fn closed_output() {
    let folder = prepared("closed_output");
    fs::write(folder.join("short"), &set_a().x[..81]).expect("a file");
    let why = "spswhy: standard output is closed, or open for reading alone\n";
    for to in [">&-", "1</dev/null", "<&- >&-"] {
        for words in [
            &["set.r01", "set.s01", "set.x01"][..],
            &["set.r01", "set.s01", "short"],
            &["--json", "--kind", "R", "set.r01"],
            &[".", "."],
            &["--help"],
            &["--version"],
            &["--messages"],
        ] {
            let said = said(through_shell(&folder, to, words));
            assert_eq!(said, (Some(2), String::new(), why.to_owned()), "{words:?} {to}");
        }
    }
    // What is open for writing takes the verdict, also where nobody reads it.
    for to in [">/dev/null", "1<>/dev/null", ">>out"] {
        let said = said(through_shell(&folder, to, &NAMES));
        assert_eq!(said, (Some(0), String::new(), String::new()), "{to}");
    }
    assert_eq!(fs::read(folder.join("out")).expect("a file"), b"ACCEPTED 3 1 1 3 0\n");
}

/// What a run says whose standard output a shell opens or closes.
fn through_shell(folder: &Path, to: &str, words: &[&str]) -> Output {
    let mut command = Command::new("sh");
    command.args(["-c", &format!("exec \"$0\" \"$@\" {to}"), env!("CARGO_BIN_EXE_spswhy")]);
    command.args(words).current_dir(folder).output().expect("sh runs")
}
