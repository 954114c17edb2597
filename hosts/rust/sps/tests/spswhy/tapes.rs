//! Tapes: their lines translated, and files that look like the other medium.

use crate::reasons::last_two;
use crate::{folder, of, said, spswhy, tape, words, write, NAMES};
use small_sets::place::{below, first, last_header};
use small_sets::tape::{byte_of, characters};
use small_sets::{set_a, File, Medium, Set};

#[test]
fn accepted() {
    let expected = (Some(0), "ACCEPTED 3 1 1 3 0\n".to_owned(), String::new());
    assert_eq!(of("accepted_on_tape", &tape(&set_a())), expected);
}

/// What is said of a disc set is said of its tape.
#[test]
fn as_on_disc() {
    for (at, set) in [
        set_a().put(File::X, first(), 14, " L1"),
        set_a().put(File::R, 3, 2, "A1"),
        set_a().edit(File::X, first(), |x| x.channels(1, 4)),
        set_a().put(File::S, 7, 80, "a"),
        set_a().edit(File::R, below(3), |r| r.point(1)),
        set_a().add(File::S, small_sets::shot(502)),
    ]
    .into_iter()
    .enumerate()
    {
        let [disc, on_tape] = [set.clone(), tape(&set)];
        let on_tape = of(&format!("as_on_tape_{at}"), &on_tape);
        assert_eq!(on_tape, of(&format!("as_on_disc_{at}"), &disc));
    }
}

/// Every byte that is taken is shown as its character, every other as `?`.
#[test]
fn each_byte() {
    let taken: Vec<(u8, u8)> =
        characters().filter_map(|text| Some((byte_of(text)?, text))).collect();
    let folder = folder("each_byte");
    for bytes in (0..=255).collect::<Vec<u8>>().chunks(64) {
        let mut set = tape(&set_a());
        for (column, &byte) in (10..).zip(bytes) {
            set = set.byte(File::R, last_header(), column, byte);
        }
        // All are legal in a line that 5 or 3 refuses before its last column.
        let set = set.byte(File::R, last_header(), 2, 0);
        write(&folder, &set);
        let (_, verdict, reason) = said(spswhy(&folder, words(set.medium)));
        assert_eq!(verdict, format!("REFUSED 3 R {} 2\n", last_header()));
        let shown = |byte: &u8| taken.iter().find(|(of, _)| of == byte).map_or(b'?', |of| of.1);
        let expected: Vec<u8> = bytes.iter().map(shown).collect();
        assert_eq!(last_two(&reason)[0].as_bytes()[9..73], expected);
        assert!(last_two(&reason)[0].starts_with("H?0"), "{reason}");
    }
}

/// 29 has a line and no column.
#[test]
fn no_end() {
    let set = tape(&set_a());
    let (status, verdict, reason) = of("no_end", &set.remove(File::X, below(2)));
    assert_eq!((status, verdict), (Some(1), format!("REFUSED 29 X {} 0\n", below(2))));
    let expected = format!(
        "set.x01:{}:0: refused with 29: no EOF record ends the tape\n\
         {} records, none with EOF in columns 1 to 3; needs one\n",
        below(2),
        first()
    );
    assert_eq!(reason, expected);
}

/// The last line of what is said of a set, as a medium, and that the verdict is that of
/// the medium.
fn last_line(name: &str, set: Set, medium: Medium, verdict: &str) -> String {
    let set = Set { medium, ..set };
    let (status, found, reason) = of(name, &set);
    assert_eq!((status, found.as_str()), (Some(1), verdict), "{reason}");
    reason.lines().last().unwrap_or_default().to_owned()
}

#[test]
fn the_other_medium() {
    let (disc, on_tape) = (set_a(), tape(&set_a()));
    let all = NAMES.join(", ");
    let like_tape = "looks like a tape, which --tape judges";
    let like_disc = "looks like a disc file, which is judged without --tape";
    let (length, byte) = ("REFUSED 1 R 28 0\n", "REFUSED 3 X 1 1\n");
    assert_eq!(
        last_line("tape_as_disc", on_tape.clone(), Medium::Disc, length),
        format!("each of {all} {like_tape}")
    );
    assert_eq!(
        last_line("disc_as_tape", disc.clone(), Medium::Tape, length),
        format!("each of {all} {like_disc}")
    );
    // 41 records are 40 lines.
    let x = on_tape.line(File::X, 1).0.repeat(41);
    assert_eq!(
        last_line("one_tape", Set { x, ..disc.clone() }, Medium::Disc, byte),
        format!("set.x01 {like_tape}")
    );
    let garbled = Set { s: on_tape.clone().byte(File::S, 1, 1, 0).s, ..disc.clone() };
    assert_eq!(
        last_line(
            "garbled_tape",
            garbled,
            Medium::Disc,
            &format!("REFUSED 1 S {} 0\n", first() + 1)
        ),
        format!("set.s01 {like_tape}")
    );
    let one_disc = Set { s: disc.s.clone(), ..on_tape };
    let verdict = format!("REFUSED 1 S {} 0\n", first() * 82 / 80 + 1);
    assert_eq!(
        last_line("one_disc", one_disc, Medium::Tape, &verdict),
        format!("set.s01 {like_disc}")
    );
    let neither = disc.byte(File::R, 1, 1, 0);
    let (_, _, reason) = of("neither", &neither);
    assert!(reason.ends_with("^\n"), "{reason}");
}
