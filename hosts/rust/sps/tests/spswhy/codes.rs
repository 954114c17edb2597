//! Refused codes: the families that the file may have.

use crate::{media, of};
use small_sets::place::{below, first};
use small_sets::{codes, set_a, File, Set};

/// Set A with a source's code for a receiver.
fn vibroseis_in_r() -> Set {
    set_a().put(File::R, below(2), 27, "V1")
}

/// Set A with a receiver's code for the shot.
fn geophones_in_s() -> Set {
    set_a().put(File::S, first(), 27, "G1")
}

/// The codes of a row: two bytes, or the first of nine and the last.
fn codes_of(row: &str) -> Vec<[u8; 2]> {
    match row.as_bytes() {
        [letter, b'1', b' ', b't', b'o', b' ', last, b'9', b' ', b' ', ..] if letter == last => {
            (b'1'..=b'9').map(|digit| [*letter, digit]).collect()
        }
        [first, second, b' ', b' ', ..] => vec![[*first, *second]],
        _ => panic!("`{row}` is no row"),
    }
}

/// The rows name the codes that may stand in the file, and no other; those of a tape are the
/// same.
#[test]
fn all_codes() {
    for (file, set) in [(File::R, vibroseis_in_r()), (File::S, geophones_in_s())] {
        let [reason, on_tape] = media(&set).map(|set| of("all_codes", &set).2);
        assert_eq!(reason, on_tape);
        let lines: Vec<&str> = reason.lines().collect();
        let [_place, _found, _takes, rows @ .., _line, _mark] = &lines[..] else {
            panic!("{reason}")
        };
        let named: Vec<[u8; 2]> = rows.iter().flat_map(|row| codes_of(row)).collect();
        assert_eq!(named, codes(file), "{file:?}");
    }
}
