//! The program over calls that tell what is opened, read in pieces, or fail.

use crate::run::Folder;
use crate::{no_file, sized, too_long, BUFFER};
use small_sets::File::{R, S, X};
use small_sets::{folders, set_a, File, Set};
use std::fs;
use std::path::{Path, PathBuf};
use std::process::Command;
use std::sync::OnceLock;

/// `calls.c`, which is loaded before the C library.
fn calls() -> &'static Path {
    static CALLS: OnceLock<PathBuf> = OnceLock::new();
    CALLS.get_or_init(|| {
        let made = Path::new(env!("CARGO_TARGET_TMPDIR")).join("calls.so");
        let source = Path::new(env!("CARGO_MANIFEST_DIR")).join("tests/program/calls.c");
        let words = ["-std=c99", "-Wall", "-Wextra", "-Werror", "-shared", "-fPIC", "-o"];
        let status = Command::new("cc").args(words).args([&made, &source]).status();
        assert!(status.expect("cc").success(), "calls.c is not compiled");
        made
    })
}

/// What the program says where calls are as the variables ask.
fn says(folder: &Folder, variables: &[(&str, usize)]) -> String {
    let mut command = folder.command();
    command.env("LD_PRELOAD", calls());
    for (name, value) in variables {
        command.env(name, value.to_string());
    }
    Folder::line(&mut command)
}

/// The program opens the three files in the order R, S, X, and no other: each to tell
/// whether it is a FIFO, then to read it.
#[test]
fn the_three_files_are_opened() {
    let folder = Folder::of("opened", &set_a());
    let log = folder.path(R).with_file_name("log");
    let mut command = folder.command();
    command.env("LD_PRELOAD", calls()).env("CALLS_LOG", &log);
    assert_eq!(Folder::line(&mut command), "ACCEPTED 3 1 1 3 0\n");
    let opened = fs::read_to_string(log).expect("a log");
    let twice = ["set.r01", "set.s01", "set.x01"].map(|name| format!("{name}\n{name}\n"));
    assert_eq!(opened, twice.concat());
}

/// However many bytes a read brings, all are put together and none is told twice.
#[test]
fn pieces_of_any_size_are_put_together() {
    let longest = |set: &Set| File::ALL.into_iter().all(|file| set.file(file).len() <= BUFFER);
    for piece in [1, 81, 82, 4_095, 4_096, 65_536] {
        for small in folders().iter().filter(|small| longest(&small.set)) {
            let folder = Folder::of(&format!("pieces_{piece}"), &small.set);
            let line = says(&folder, &[("CALLS_PIECE", piece)]);
            assert_eq!(line, spschk::line(&small.set), "{} by {piece}", small.name);
        }
    }
}

/// A buffer that is filled in pieces, to its end and by a byte more.
#[test]
fn a_buffer_is_filled_in_pieces() {
    for file in File::ALL {
        for piece in [1, 1_000, 4_096] {
            let name = format!("filled_{}_{piece}", file.letter());
            let full = sized(file, BUFFER);
            let line = says(&Folder::of(&name, &full), &[("CALLS_PIECE", piece)]);
            assert_eq!(line, spschk::line(&full), "{name}");
            let over = Folder::of(&name, &sized(file, BUFFER + 1));
            assert_eq!(says(&over, &[("CALLS_PIECE", piece)]), too_long(file), "{name}");
        }
    }
}

/// A read that fails after bytes have come, or where the end would be told: what came is
/// no file. Each file of set A has three reads of at most 1,200 bytes.
#[test]
fn a_later_read_that_fails_is_no_file() {
    let set = set_a();
    assert!(File::ALL.into_iter().all(|file| set.file(file).len().div_ceil(1_200) == 2));
    let folder = Folder::of("failing_later", &set);
    for (file, reads) in [(R, 1..=3), (S, 4..=6), (X, 7..=9)] {
        for read in reads {
            let line = says(&folder, &[("CALLS_PIECE", 1_200), ("CALLS_FAIL", read)]);
            assert_eq!(line, no_file(file), "read {read}");
        }
    }
    let line = says(&folder, &[("CALLS_PIECE", 1_200), ("CALLS_FAIL", 10)]);
    assert_eq!(line, "ACCEPTED 3 1 1 3 0\n");
}
