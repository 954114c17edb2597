//! The tape of a disc set, byte by byte.

use small_sets::place::header_line;
use small_sets::tape::{byte_of, characters, end};
use small_sets::{headers_only, set_a, File, Medium};

/// "only blank, letters, digits and `. , ; : ( ) - + / & ' % * = ? _ < >` are taken"
const TAKEN: &[u8] = b" .,;:()-+/&'%*=?_<>\
abcdefghijklmnopqrstuvwxyzABCDEFGHIJKLMNOPQRSTUVWXYZ0123456789";

#[test]
fn the_characters_that_are_taken() {
    let mut taken = TAKEN.to_vec();
    taken.sort_unstable();
    let mut held: Vec<u8> = characters().collect();
    assert!(held.iter().map(|&character| byte_of(character)).is_sorted());
    held.sort_unstable();
    assert_eq!(held, taken);
    assert!((0..=255).all(|byte| byte_of(byte).is_some() == taken.contains(&byte)));
}

#[test]
fn lines_without_ends_and_a_record_more() {
    let (disc, tape) = (set_a(), set_a().on_tape().expect("a tape"));
    assert_eq!(tape.medium, Medium::Tape);
    for file in File::ALL {
        let lines = disc.lines(file);
        assert_eq!(tape.file(file).len(), 80 * (lines + 1));
        for line in 1..=lines {
            assert_eq!(Some(tape.line(file, line)), disc.line(file, line).on_tape());
        }
        assert_eq!(tape.line(file, lines + 1), end());
    }
    // `H18 `, and `UTM;` from column 33 on.
    let h18 = tape.line(File::R, header_line(18)).0;
    assert_eq!(h18[..4], [0xC8, 0xF1, 0xF8, 0x40]);
    assert_eq!(h18[32..36], [0xE4, 0xE3, 0xD4, 0x5E]);
    assert_eq!(end().0[..4], [0xC5, 0xD6, 0xC6, 0x40]);
}

/// Bytes over stay over; what no tape holds has none.
#[test]
fn sets_that_are_not_whole() {
    let a = set_a();
    for (over, left) in [(1, 1), (79, 79), (80, 79), (81, 79)] {
        let tape = a.clone().over(File::S, over).on_tape().expect("a tape");
        assert_eq!(tape.s.len(), 80 * a.lines(File::S) + left);
    }
    assert_eq!(a.clone().byte(File::X, 1, 40, b'~').on_tape(), None);
    assert_eq!(a.clone().byte(File::X, 1, 40, 0xBF).on_tape(), None);
    assert_eq!(a.clone().byte(File::X, 1, 81, b' ').on_tape(), None);
    let others = headers_only().put(File::R, 1, 10, "!\"#$@[\\]^`{|}~");
    assert!(others.on_tape().is_none() && others.plain().on_tape().is_some());
}
