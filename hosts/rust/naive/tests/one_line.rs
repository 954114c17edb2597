//! One line of a file, by its number: where it stands, and what it is refused for.

use naive::{point_at, relation_at, HostNumber, Medium};
use small_sets::place::{below, first, last_header};
use small_sets::{header, marker, receiver, relation, set_a, File, Line, Set};

const NO_LINE: u64 = 20 << 40;

/// The answer for a line of R, as a host gets it.
fn of_r(set: &Set, line: usize) -> u64 {
    let medium = naive::medium(set.medium as u64).expect("a medium");
    point_at(medium, b'R'.into(), &set.r, line as u64).host_number()
}

/// The same of X.
fn of_x(set: &Set, line: usize) -> u64 {
    let medium = naive::medium(set.medium as u64).expect("a medium");
    relation_at(medium, &set.x, line as u64).host_number()
}

fn refused(number: u64, file: File, line: usize, column: u64) -> u64 {
    (number << 40) + ((file as u64) << 32) + 256 * line as u64 + column
}

fn tape_of(set: &Set) -> Set {
    set.on_tape().expect("characters of a tape")
}

/// Set A with a killed receiver and a marker.
fn with_marker() -> Set {
    set_a()
        .edit(File::R, below(2), |r| r.code("KL"))
        .add(File::R, marker(File::R).at(18, "su  ").at(29, "no text").at(72, "no time. "))
        .plain()
}

#[test]
fn lines_that_stand() {
    for set in [with_marker(), tape_of(&with_marker())] {
        assert_eq!([1, 2, 3, 4].map(|at| of_r(&set, below(at))), [0, 1, 0, 2]);
        assert_eq!(of_x(&set, first()), 0);
        for line in [0, 1, last_header(), below(5), below(6), 9_999, 10_000, usize::MAX] {
            assert_eq!(of_r(&set, line), NO_LINE, "R {line}");
        }
        for line in [0, last_header(), below(2), below(3), usize::MAX] {
            assert_eq!(of_x(&set, line), NO_LINE, "X {line}");
        }
    }
}

#[test]
fn values_of_both_media() {
    let (disc, tape) = (set_a(), tape_of(&set_a()));
    let line = first() as u64;
    for (letter, file) in [(b'R', File::R), (b'S', File::S)] {
        let on_disc = point_at(Medium::Disc, letter.into(), disc.file(file), line);
        assert_eq!(on_disc, point_at(Medium::Tape, letter.into(), tape.file(file), line));
        assert_eq!(on_disc.map(|point| point.name), Ok(*b"L1              "));
    }
    let on_disc = relation_at(Medium::Disc, &disc.x, line);
    assert_eq!(on_disc, relation_at(Medium::Tape, &tape.x, line));
    assert_eq!(on_disc.map(|relation| relation.tape), Ok(*b"100   "));
}

#[test]
fn letters() {
    let line = first() as u64;
    let of = |letter: u64| point_at(Medium::Disc, letter, &set_a().s, line).host_number();
    assert_eq!(of(b'S'.into()), 0);
    assert_eq!(of(b'R'.into()), refused(4, File::R, first(), 1));
    for letter in [0, 1, 2, b'X'.into(), b'H'.into(), b's'.into(), 256 + 83, (1 << 32) + 83] {
        assert_eq!(of(letter), NO_LINE, "{letter}");
    }
}

/// A header line is none to read, wherever it stands and whatever is wrong with it.
#[test]
fn header_lines() {
    let after = set_a().add(File::R, header(21));
    let bad = set_a().byte(File::R, 3, 40, 7).byte(File::R, 4, 2, b'x').byte(File::R, 5, 82, 0);
    for (set, line) in [(&after, below(4)), (&bad, 3), (&bad, 4), (&bad, 5)] {
        assert_eq!(of_r(set, line), NO_LINE, "{line}");
    }
    let tape = tape_of(&set_a()).byte(File::R, 3, 40, 0);
    assert_eq!(of_r(&tape, 3), NO_LINE);
}

/// 3 before 4 before 5 before 6, of that line alone.
#[test]
fn refusals() {
    let line = first();
    let apart = set_a().edit(File::X, line, |x| x.channels(1, 4));
    let index = apart.clone().put(File::X, line, 80, "0");
    let letter = index.clone().put(File::X, line, 1, "Y");
    let byte = letter.clone().byte(File::X, line, 82, b'\r');
    for (set, number, column) in [(apart, 6, 72), (index, 5, 80), (letter, 4, 1), (byte, 3, 82)] {
        assert_eq!(of_x(&set, line), refused(number, File::X, line, column));
        assert_eq!(of_x(&set.clone().add(File::X, relation()), below(2)), 0);
    }
}

/// Bytes that are left over are no line, the last record of a tape is none whatever it holds,
/// and one with EOF before it is a line that has no letter.
#[test]
fn ends_of_files() {
    let disc = set_a().over(File::R, 81);
    assert_eq!([of_r(&disc, below(3)), of_r(&disc, below(4))], [0, NO_LINE]);
    let tape = tape_of(&set_a());
    let cut = tape.clone().cut(File::R, 80 * below(3));
    assert_eq!([of_r(&cut, below(2)), of_r(&cut, below(3))], [0, NO_LINE]);
    let longer = tape.clone().add(File::R, small_sets::tape::end());
    assert_eq!(of_r(&longer, below(4)), refused(4, File::R, below(4), 1));
    assert_eq!(of_r(&longer, below(5)), NO_LINE);
    assert_eq!(of_r(&tape.cut(File::R, 0), 1), NO_LINE);
    assert_eq!(of_r(&Set::default(), 1), NO_LINE);
}

/// A file may be longer than those that are accepted; its lines end at 9,999.
#[test]
fn long_files() {
    let Line(columns) = receiver(1);
    let line = [&columns[..], b"\r\n"].concat();
    let set = Set { r: line.repeat(10_001), ..Set::default() };
    let answers = [1, 9_999, 10_000, 10_001].map(|line| of_r(&set, line));
    assert_eq!(answers, [0, 0, NO_LINE, NO_LINE]);
}
