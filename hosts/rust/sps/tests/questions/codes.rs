//! Each code that a question can ask for, of each kind.

use crate::compare::compare;
use small_sets::place::{first, header_line};
use small_sets::{codes, set_a, Answer, File, Question, Set};

/// Set A with R9, S9 and 9 named too, on disc and on tape.
fn media() -> [Set; 2] {
    let set = set_a().naming(&["R9", "S9", "9"]);
    let tape = set.on_tape().expect("characters of a tape");
    [set, tape]
}

fn ask(set: &Set, kind: u64, code: &[u8]) -> Answer {
    compare(set, &Question::TableLine { kind, code: code.to_vec() })
}

const OUT_OF_RANGE: Answer = Answer::Refused { number: 20, file: 0, line: 0, column: 0 };

/// The line of a code that is one of its kind.
fn line(code: &[u8]) -> Answer {
    match code {
        b"1" => Answer::TableLine(header_line(400) as u16),
        b"G1" => Answer::TableLine(header_line(600) as u16),
        b"V1" => Answer::TableLine(header_line(700) as u16),
        b"R9" => Answer::TableLine(first() as u16),
        b"S9" => Answer::TableLine(first() as u16 + 1),
        b"9" => Answer::TableLine(first() as u16 + 2),
        _ => Answer::NotNamed,
    }
}

/// Each two bytes as a receiver's and as a source's code.
#[test]
fn each_two_bytes() {
    for set in media() {
        for (kind, file) in [(b'R', File::R), (b'S', File::S)] {
            let listed = codes(file);
            for code in (0..=u16::MAX).map(u16::to_be_bytes) {
                let is_one = listed.contains(&code) && ![*b"PM", *b"KL"].contains(&code);
                let expected = if is_one { line(&code) } else { OUT_OF_RANGE };
                assert_eq!(ask(&set, kind.into(), &code), expected, "{kind} {code:?}");
            }
        }
    }
}

/// Each byte as an instrument and as a kind, and codes of other lengths.
#[test]
fn each_byte() {
    for set in media() {
        for byte in 0..=255 {
            let expected = match byte {
                b'1'..=b'9' => line(&[byte]),
                _ => OUT_OF_RANGE,
            };
            assert_eq!(ask(&set, b'X'.into(), &[byte]), expected, "{byte}");
            for code in [&b"G1"[..], b"V1", b"1"] {
                let expected = match (byte, code) {
                    (b'R', b"G1") | (b'S', b"V1") | (b'X', b"1") => line(code),
                    _ => OUT_OF_RANGE,
                };
                assert_eq!(ask(&set, byte.into(), code), expected, "{byte} {code:?}");
            }
        }
        for kind in *b"RSX" {
            for code in [&b""[..], b"G", b"G1 ", b"G1G", b"1,", b"1 ", b"11", b"100   "] {
                assert_eq!(ask(&set, kind.into(), code), OUT_OF_RANGE, "{kind} {code:?}");
            }
        }
    }
}
