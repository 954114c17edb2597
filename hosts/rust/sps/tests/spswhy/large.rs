//! Files at the limits and far beyond them.

use crate::{folder, of, said, spswhy, words, write, NAMES};
use many_sets::large::{most, two_million_traces};
use small_sets::{set_a, File, Set};
use std::fs::OpenOptions;

#[test]
fn full_files() {
    let (status, verdict, _) = of("full_files", &two_million_traces());
    let (most, traces) = (most(), 200 * most());
    let expected = format!("ACCEPTED {most} {most} {most} {traces} 0\n");
    assert_eq!((status, verdict), (Some(0), expected));
}

/// Holds of set A with a longer file that its whole length counts: 1 where it is no
/// multiple of a line's, otherwise 2.
fn long(name: &str, set: &Set, lengths: impl Iterator<Item = u64>) {
    let (folder, width) = (folder(name), set.medium.width() as u64);
    for length in lengths {
        for (file, name) in File::ALL.into_iter().zip(NAMES) {
            write(&folder, set);
            let long = OpenOptions::new().write(true).open(folder.join(name)).expect("a file");
            long.set_len(length).expect("a file with a hole");
            let (status, verdict, _) = said(spswhy(&folder, words(set.medium)));
            let number = if length % width > 0 { 1 } else { 2 };
            let expected = format!("REFUSED {number} {} 10000 0\n", file.letter());
            assert_eq!((status, verdict), (Some(1), expected), "{length} bytes");
        }
    }
}

/// A file is longer than what is read of it.
#[test]
fn long_files() {
    let lengths = [10_000 * 82 - 1, 10_000 * 82, 10_000 * 82 + 1, 10_001 * 82 - 1, 10_001 * 82];
    let far = [1 << 40, (1 << 40) / 82 * 82, (1 << 40) / 82 * 82 + 81];
    long("long_files", &set_a(), lengths.into_iter().chain(far));
}

#[test]
fn long_tapes() {
    let lengths = [10_000 * 80 - 1, 10_000 * 80, 10_000 * 80 + 1, 10_001 * 80 - 1, 10_001 * 80];
    let far = [(1 << 40) + 1, (1 << 40) / 80 * 80];
    let tape = set_a().on_tape().expect("characters of a tape");
    long("long_tapes", &tape, lengths.into_iter().chain(far));
}
