//! One file as a kind, alone in its folder.

use crate::{folder, media, of, said, spswhy, words_of_one, Said, NAMES};
use small_sets::place::{below, first};
use small_sets::File::{R, S, X};
use small_sets::{headers_only, relation, set_a, shot, File, Medium, Set};
use std::fs;

/// What is said of bytes as a kind, in a file of some name.
fn of_bytes(test: &str, bytes: &[u8], medium: Medium, kind: File, name: &str) -> Said {
    let folder = folder(&format!("one_file_{test}"));
    fs::write(folder.join(name), bytes).expect("a file");
    said(spswhy(&folder, &words_of_one(medium, kind.letter(), name)))
}

/// What is said of one file of a set as a kind.
fn of_one(test: &str, set: &Set, file: File, kind: File) -> Said {
    of_bytes(test, set.file(file), set.medium, kind, NAMES[file as usize - 1])
}

/// The verdict has no counts.
fn accepted() -> Said {
    (Some(0), "ACCEPTED\n".to_owned(), String::new())
}

/// Holds that one file of a set is accepted as a kind.
fn hold(test: &str, set: &Set, file: File, kind: File) {
    let said = of_one(test, set, file, kind);
    assert_eq!(said, accepted(), "{file:?} as {kind:?}, {:?}", set.medium);
}

#[test]
fn well_formed() {
    for set in media(&set_a()) {
        for file in File::ALL {
            hold("well_formed", &set, file, file);
        }
    }
}

/// What is refused of a set for the form of one file is refused of that file alone, in the
/// same words.
#[test]
fn as_of_the_set() {
    for (file, set) in [
        (R, set_a().cut(R, 81)),
        (R, set_a().put(R, 3, 2, "A1")),
        (R, set_a().put(R, below(2), 27, "V1")),
        (R, set_a().put(R, below(2), 1, "H02")),
        (S, set_a().put(S, first(), 27, "G1")),
        (S, set_a().put(S, first(), 75, "240000")),
        (S, set_a().add_all(S, vec![shot(501); 9_999])),
        (X, set_a().put(X, first(), 14, " L1")),
        (X, set_a().edit(X, first(), |x| x.channels(1, 4))),
    ] {
        for set in media(&set) {
            let of_set = of("as_of_the_set", &set);
            assert!(of_set.1.contains(&format!(" {} ", file.letter())), "{of_set:?}");
            assert_eq!(of_one("as_of_the_set", &set, file, file), of_set, "{:?}", set.medium);
        }
    }
}

/// A tape that does not end is refused alone too.
#[test]
fn no_end() {
    let tape = set_a().on_tape().expect("characters of a tape").remove(S, below(2));
    let of_one = of_one("no_end", &tape, S, S);
    assert_eq!(of_one.1, format!("REFUSED 29 S {} 0\n", below(2)));
    assert_eq!(of_one, of("one_without_end", &tape));
}

/// Where lines or files do not fit each other the form of each file is accepted.
#[test]
fn faults_of_the_set() {
    for (file, set) in [
        (R, set_a().edit(R, below(3), |r| r.point(1))),
        (R, set_a().put(R, below(3), 27, "G2")),
        (R, set_a().remove(R, 3)),
        (S, set_a().add(S, shot(502))),
        (S, set_a().add(S, shot(501))),
        (X, set_a().edit(X, first(), |x| x.source(502))),
        (X, set_a().add(X, relation())),
    ] {
        for set in media(&set) {
            assert_eq!(of("faults_of_the_set", &set).0, Some(1));
            hold("faults_of_the_set", &set, file, file);
        }
    }
}

/// A file in another's place is refused at its first line below the header.
#[test]
fn another_kind() {
    for set in media(&set_a()) {
        for (file, kind) in [(R, S), (R, X), (S, R), (S, X), (X, R), (X, S)] {
            let (status, verdict, reason) = of_one("another_kind", &set, file, kind);
            let expected = format!("REFUSED 4 {} {} 1\n", kind.letter(), first());
            assert_eq!((status, verdict), (Some(1), expected), "{file:?} as {kind:?}");
            let text = String::from_utf8_lossy(&set_a().line(file, first()).0).into_owned();
            let name = NAMES[file as usize - 1];
            let expected = format!(
                "{name}:{}:1: refused with 4: column 1 is neither H nor the letter of the file\n\
                 column 1: found \"{}\"; needs H or {}\nthis looks like an {} file\n{text}\n^\n",
                first(),
                file.letter(),
                kind.letter(),
                file.letter()
            );
            assert_eq!(reason, expected, "{file:?} as {kind:?}");
        }
    }
}

/// The name of a file does not say its kind.
#[test]
fn another_name() {
    for set in media(&set_a()) {
        for name in NAMES.into_iter().chain(["set.h01", "R", "--kind"]) {
            let shots_as = |kind| of_bytes("another_name", &set.s, set.medium, kind, name);
            assert_eq!(shots_as(S), accepted(), "{name}");
            let (status, verdict, reason) = shots_as(R);
            assert_eq!((status, verdict), (Some(1), format!("REFUSED 4 R {} 1\n", first())));
            assert!(
                reason.starts_with(&format!("{name}:{}:1: refused with 4: ", first())),
                "{reason}"
            );
        }
    }
}

/// A file of headers alone, and on disc an empty one, is one of each kind.
#[test]
fn no_lines() {
    for kind in File::ALL {
        for set in media(&headers_only()) {
            hold("no_lines", &set, R, kind);
        }
        let empty = |medium| of_bytes("no_lines", b"", medium, kind, "empty");
        assert_eq!(empty(Medium::Disc), accepted());
        assert_eq!(empty(Medium::Tape).1, format!("REFUSED 29 {} 1 0\n", kind.letter()));
    }
}

#[test]
fn the_other_medium() {
    let [disc, tape] = media(&set_a());
    for (set, medium, looks) in [
        (disc, Medium::Tape, "set.x01 looks like a disc file, which is judged without --tape\n"),
        (tape, Medium::Disc, "set.x01 looks like a tape, which --tape judges\n"),
    ] {
        let (status, verdict, reason) = of_one("the_other_medium", &Set { medium, ..set }, X, X);
        assert_eq!(status, Some(1), "{verdict}");
        assert!(verdict.starts_with("REFUSED 1 X "), "{verdict}");
        assert!(reason.ends_with(looks), "{reason}");
    }
}
