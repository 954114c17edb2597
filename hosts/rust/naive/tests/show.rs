//! Showing a line hands back a part of the caller's own file.

use naive::show;
use small_sets::place::{after, below, first};
use small_sets::{receiver, set_a, shot, File};

#[test]
fn every_line_is_a_part_of_its_file() {
    let set = set_a();
    for (letter, file, lines) in [(b'R', &set.r, below(3)), (b'S', &set.s, first())] {
        for line in 1..=lines {
            let shown = show(&set.r, &set.s, letter, line);
            let part = &file[(line - 1) * 82..][..80];
            assert_eq!(shown, part);
            assert_eq!(shown.as_ptr(), part.as_ptr());
        }
    }
    assert_eq!(show(&set.r, &set.s, b'R', below(3)), receiver(103).0);
    assert_eq!(show(&set.r, &set.s, b'S', first()), shot(501).0);
}

#[test]
fn nothing_beside_the_files() {
    let set = set_a();
    for line in [0, after(File::R), usize::MAX] {
        assert!(show(&set.r, &set.s, b'R', line).is_empty(), "R {line}");
    }
    for line in [0, after(File::S), usize::MAX] {
        assert!(show(&set.r, &set.s, b'S', line).is_empty(), "S {line}");
    }
    for letter in (0..=255).filter(|letter| !b"RS".contains(letter)) {
        assert!(show(&set.r, &set.s, letter, 1).is_empty(), "letter {letter}");
    }
}

#[test]
fn whole_lines_without_a_check() {
    let cut = set_a().cut(File::R, 163).byte(File::R, 1, 1, 0);
    assert_eq!(show(&cut.r, &cut.s, b'R', 1), &cut.r[..80]);
    assert!(show(&cut.r, &cut.s, b'R', 2).is_empty());
    let long = vec![7; 82 * 10_000];
    assert_eq!(show(&long, &[], b'R', 10_000), [7; 80]);
    assert!(show(&long, &[], b'R', 10_001).is_empty());
    assert!(show(&long, &[], b'S', 1).is_empty());
}
