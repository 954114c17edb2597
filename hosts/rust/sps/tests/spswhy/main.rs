//! The command for a person: what it prints, what it says, and its status.

#[path = "../common/program.rs"]
mod program;

mod any_bytes;
mod claims;
mod codes;
mod fields;
mod folders;
mod json;
mod killed;
mod large;
mod message;
mod messages;
mod one_file;
mod reasons;
mod sentences;
mod tables;
mod tapes;
mod unreadable;
mod whole;

use program::{folder, spswhy, words, words_of_one, write, NAMES};
use small_sets::Set;
use std::process::Output;

/// The status, standard output and standard error of a run.
type Said = (Option<i32>, String, String);

fn said(output: Output) -> Said {
    let text = |bytes| String::from_utf8(bytes).expect("text");
    (output.status.code(), text(output.stdout), text(output.stderr))
}

/// The tape of a set.
fn tape(set: &Set) -> Set {
    set.on_tape().expect("characters of a tape")
}

/// A set on disc and on tape.
fn media(set: &Set) -> [Set; 2] {
    [set.clone(), tape(set)]
}

/// What is said of a set.
fn of(name: &str, set: &Set) -> Said {
    let folder = folder(name);
    write(&folder, set);
    said(spswhy(&folder, words(set.medium)))
}
