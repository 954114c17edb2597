//! What the examples print. `cargo test` builds them beside the tests.

use small_sets::place::{below, first};
use std::ffi::OsStr;
use std::fs;
use std::path::{Path, PathBuf};
use std::process::Command;

const NONE: &[&str] = &[];

/// A folder or a file of `examples/`.
fn stored(place: &str) -> PathBuf {
    Path::new(env!("CARGO_MANIFEST_DIR")).join("../../../examples").join(place)
}

/// Runs an example on a folder or a file of `examples/`; the status is 0 unless it is said.
fn printed(example: &str, place: &str, words: &[impl AsRef<OsStr>], well: bool) -> String {
    let bin = Path::new(env!("CARGO_BIN_EXE_spswhy"));
    let program = bin.with_file_name("examples").join(example);
    let output = Command::new(&program).arg(stored(place)).args(words).output();
    let output = output.expect("an example, as `cargo test` builds it when no target is named");
    assert_eq!(output.status.success(), well, "{example}: {output:?}");
    String::from_utf8(output.stdout).expect("text")
}

#[test]
fn form() {
    assert_eq!(printed("form", "odd_channel/set.r01", &["R"], true), "well formed\n");
    assert_eq!(printed("form", "set_a_tape/set.x01", &["X", "--tape"], true), "well formed\n");
    let refused = format!(
        "REFUSED 4 R {} 1: column 1 is not H or the file's own letter, or an H line stands after \
         data\n",
        first()
    );
    assert_eq!(printed("form", "set_a/set.s01", &["R"], true), refused);
    assert_eq!(printed("form", "set_a/set.s01", &["s"], false), "");
    assert_eq!(printed("form", "set_a/set.s01", NONE, false), "");
}

#[test]
fn cross() {
    let accepted = "ACCEPTED 3 1 1 3 0\n3 receivers, 1 shots\n1 relation lines, 3 traces\n\
                    0 dead traces\n";
    assert_eq!(printed("cross", "set_a", NONE, true), accepted);
    assert_eq!(printed("cross", "set_a_tape", &["--tape"], true), accepted);
    let third = below(3);
    let refused = format!(
        "REFUSED 10 R {third} 2\nin R, line {third}, column 2\nnumber 10: a receiver is not above \
         the receiver line before it, by line name, point number and index; on tape letters come \
         before digits\n"
    );
    assert_eq!(printed("cross", "unsorted_receivers", NONE, true), refused);
}

#[test]
fn follow() {
    let second = below(2);
    let there_and_back = format!("channel 6: R line {second}, component 3\nand back: channel 6\n");
    assert_eq!(printed("follow", "three_components", &["6"], true), there_and_back);
    assert_eq!(printed("follow", "three_components", &["10"], true), "channel 10: no trace\n");
    let dead = format!("channel 6: R line {second}, component 3, killed\nand back: channel 6\n");
    assert_eq!(printed("follow", "killed", &["6"], true), dead);
    assert_eq!(printed("follow", "odd_channel", &["1"], false), "");
}

#[test]
fn spread() {
    let lines: String =
        (1..=3).map(|n| format!("channel {n}: R line {}, component 1\n", below(n))).collect();
    let table = format!("highest channel 3\n{lines}");
    assert_eq!(printed("spread", "set_a", NONE, true), table);
    assert_eq!(printed("spread", "headers_only", NONE, true), "highest channel 0\n");
}

/// What `join` prints of an example and a store of some lines.
fn joined(name: &str, example: &str, store: &str, well: bool) -> String {
    let path = Path::new(env!("CARGO_TARGET_TMPDIR")).join(format!("{name}.csv"));
    fs::write(&path, store).expect("a store");
    printed("join", example, &[path], well)
}

/// The store that stands beside the example lacks the dead traces and the last one, and has a
/// trace that the set lacks.
#[test]
fn join() {
    let store = Path::new(env!("CARGO_MANIFEST_DIR")).join("examples/store.csv");
    let (second, third) = (below(2), below(3));
    let dead = |channel: usize| {
        let component = channel - 3;
        format!("100   ,11,{channel}: R line {second}, component {component}, killed\n")
    };
    let last = format!("100   ,11,9: R line {third}, component 3\n");
    let lacks = [4, 5, 6].map(dead).concat() + &last + "the store lacks 4 of 9 traces\n";
    assert_eq!(printed("join", "killed", &[store], true), lacks);

    let all = |records: [u32; 2]| -> String {
        let of = |record| (1..=3).map(move |channel| format!("100,{record},{channel}\n"));
        records.into_iter().flat_map(of).collect()
    };
    let whole = "the store lacks 0 of 6 traces\n";
    assert_eq!(joined("whole", "code_tables", &all([11, 12]), true), whole);
    let more = format!("099,11,1\n100,10,9999\n{}100,13,1\n", all([11, 12]));
    assert_eq!(joined("more", "code_tables", &more, true), whole);
    let half = joined("half", "code_tables", &all([11, 13]), true);
    assert!(half.starts_with("100   ,12,1: R line "), "{half}");
    assert!(half.ends_with("\nthe store lacks 3 of 6 traces\n"), "{half}");
    assert_eq!(joined("none", "headers_only", "", true), "the store lacks 0 of 0 traces\n");

    assert_eq!(joined("unsorted", "code_tables", &all([12, 11]), false), "");
    assert_eq!(joined("no_channel", "code_tables", "100,11\n", false), "");
    assert_eq!(joined("refused", "odd_channel", "", false), "");
    assert_eq!(printed("join", "set_a", NONE, false), "");
}

/// The lines stand in the order of the shots, and what was blank is written.
#[test]
fn merge() {
    let merged = "\
        X100     1111L1                   5011   1   31L1                   101     1031\n\
        X200     1111L1                   5021   1   31L1                   103     1011\n\
        X100     1211L1                   5031   1   31L1                   101     1031\n\
        ACCEPTED 3 3 3 9 0\n";
    assert_eq!(printed("merge", "crew_one", &[stored("crew_two")], true), merged);
    assert_eq!(printed("merge", "crew_two", &[stored("crew_one")], true), merged);
    assert!(!printed("merge", "crew_one", &[stored("crew_one")], false).contains("ACCEPTED"));
    assert_eq!(printed("merge", "crew_one", &[stored("odd_channel")], false), "");
    assert_eq!(printed("merge", "crew_one", NONE, false), "");
}
