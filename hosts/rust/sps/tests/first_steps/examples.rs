//! What the examples in C and C++ print, and how they end.

use crate::tools::{copy, folder, output, printed, root, text};
use small_sets::place::{below, first};
use small_sets::File;
use std::ffi::OsStr;
use std::fs;
use std::path::{Path, PathBuf};
use std::process::Command;

const NONE: &[&str] = &[];
const NAMES: [&str; 3] = ["set.r01", "set.s01", "set.x01"];

fn files(example: &str) -> [PathBuf; 3] {
    NAMES.map(|name| root().join("examples").join(example).join(name))
}

/// Compiles an example with every warning.
fn compiled(compiler: &str, standard: &str, source: &str) -> PathBuf {
    let program = folder(source).join("example");
    let mut compile = Command::new(compiler);
    compile.args([standard, "-Wall", "-Wextra", "-Werror", "-pedantic", "-I", "include"]);
    compile.arg(Path::new("hosts/c").join(source)).args([env!("ARCHIVE"), "-o"]).arg(&program);
    printed(compile.current_dir(root()));
    program
}

/// Runs an example: what it prints, and its status.
fn ran(program: &Path, words: &[impl AsRef<OsStr>]) -> (String, Option<i32>) {
    let output = output(Command::new(program).args(words));
    (text(&output.stdout), output.status.code())
}

/// Files that cannot be read, and wrong words: a status that is no verdict, and a reason.
fn no_verdict(program: &Path, words: &[impl AsRef<OsStr>], reason: &str) {
    let output = output(Command::new(program).args(words));
    assert_eq!((output.status.code(), text(&output.stdout)), (Some(2), String::new()));
    assert!(text(&output.stderr).contains(reason), "{}", text(&output.stderr));
}

/// Standard output that is full or closed: no verdict, whether the files are accepted or refused.
fn unwritable(program: &Path) {
    for (example, to) in [("set_a", ">/dev/full"), ("odd_channel", ">/dev/full"), ("set_a", ">&-")]
    {
        let mut shell = Command::new("sh");
        shell.args(["-c", &format!("exec \"$0\" \"$@\" {to}")]).arg(program);
        let output = output(shell.args(files(example)));
        assert_eq!(output.status.code(), Some(2), "{example} {to}");
        assert!(text(&output.stderr).contains("standard output"), "{}", text(&output.stderr));
    }
}

fn unreadable(program: &Path) {
    let ([r, s, _], missing) = (files("set_a"), root().join("examples/set.r01"));
    no_verdict(program, NONE, "usage: ");
    no_verdict(program, &[&r, &s], "usage: ");
    no_verdict(program, &[&r, &s, &missing], &missing.display().to_string());
}

/// What is printed of a set in which a channel leads to a receiver.
fn followed(counts: &str, line: usize, rest: &str) -> (String, Option<i32>) {
    (format!("{counts}\nchannel 2: R line {line}, component {rest}\n"), Some(0))
}

#[test]
fn c() {
    let program = compiled("cc", "-std=c99", "example.c");
    let [r, s, x] = files("set_a");
    let refused = |file| (format!("REFUSED 4 {file} {} 1\n", first()), Some(1));
    assert_eq!(ran(&program, &[&r]), ("R is well formed\n".to_owned(), Some(0)));
    assert_eq!(ran(&program, &[&s]), refused('R'));
    assert_eq!(ran(&program, &[&r, &r, &x]), refused('S'));

    let counts = "3 receivers, 1 shots, 3 traces, 0 dead";
    assert_eq!(ran(&program, &files("set_a")), followed(counts, below(2), "1"));
    let counts = "3 receivers, 2 shots, 9 traces, 3 dead";
    assert_eq!(ran(&program, &files("killed")), followed(counts, first(), "2"));
    let killed = folder("example_killed");
    let set = small_sets::set_a().put(File::R, below(2), 27, "KL");
    let killed = NAMES.map(|name| killed.join(name));
    for (name, bytes) in killed.iter().zip(set.files()) {
        fs::write(name, bytes).expect("a file of the set");
    }
    let counts = "3 receivers, 1 shots, 3 traces, 1 dead";
    assert_eq!(ran(&program, &killed), followed(counts, below(2), "1, killed"));
    let none = "0 receivers, 0 shots, 0 traces, 0 dead\nchannel 2: no trace\n";
    assert_eq!(ran(&program, &files("headers_only")), (none.to_owned(), Some(0)));

    unreadable(&program);
    no_verdict(&program, &[root().join("examples")], "examples");
    no_verdict(&program, &[s.with_file_name("set.r02")], "No such file");
    unwritable(&program);
    long_file(&program);
}

/// A file of more lines than one may have is read whole, so that its length is judged.
fn long_file(program: &Path) {
    let long = folder("example_long").join("set.r01");
    for (over, number) in [(0, 2), (1, 1)] {
        fs::write(&long, vec![b' '; 82 * 20_000 + over]).expect("a file");
        let refused = format!("REFUSED {number} R 10000 0\n");
        assert_eq!(ran(program, &[&long]), (refused, Some(1)));
    }
}

#[test]
fn cpp() {
    let program = compiled("c++", "-std=c++11", "example.cpp");
    let refused =
        fs::read_to_string(root().join("examples/odd_channel/verdict")).expect("a verdict");
    assert_eq!(ran(&program, &files("killed")), ("9 traces\n".to_owned(), Some(0)));
    assert_eq!(ran(&program, &files("odd_channel")), (refused, Some(1)));
    unreadable(&program);
    unwritable(&program);
}

/// Where the archive is missing `make` says what makes it.
#[test]
fn make_without_the_archive() {
    let place = folder("make");
    for name in ["Makefile", "example.c", "example.cpp"] {
        copy(&root().join("hosts/c").join(name), &place.join("hosts/c").join(name))
            .expect("a copy");
    }
    copy(&root().join("include/sps.h"), &place.join("include/sps.h")).expect("a copy");
    let made = output(Command::new("make").arg("-C").arg(place.join("hosts/c")));
    assert_eq!(made.status.code(), Some(2));
    let why = "libsps.a is missing: ./build at the top of the repository makes it\n";
    assert!(text(&made.stderr).contains(why), "{}", text(&made.stderr));
}
