//! Every header number, and every two bytes where a code may stand.

use crate::answers::{proved, refused, Answer};
use crate::archive;
use crate::compare::compare;
use crate::counts::files;
use small_sets::place::{first, header_line};
use small_sets::File::{R, S, X};
use small_sets::{codes, header, header_with, set_a, File, Set};
use sps::Accepted;

const AS_A: Answer =
    Ok(Accepted { receivers: 3, shots: 1, relations: 1, traces: 3, dead_traces: 0 });

/// A kind: the file that uses its codes and the column where, the first and the last of its
/// first records, how far they are apart, and the code that set A names.
type Kind = (File, u64, usize, usize, usize, &'static str);

const KINDS: [Kind; 3] =
    [(R, 27, 600, 690, 10, "G1"), (S, 27, 700, 880, 20, "V1"), (X, 13, 400, 560, 20, "1")];

/// The header line that names set A's code again, or in place of its own.
fn with(line: small_sets::Line, at: usize, instead: bool) -> Set {
    let set = set_a().each(|set, file| if instead { set.remove(file, at) } else { set });
    set.each(|set, file| set.insert(file, at + usize::from(!instead), line))
}

/// Two digits and a blank, and three digits: those of first records name a code, so that it is
/// named twice, and those of other lines name none, so that it is not.
#[test]
fn each_number() {
    let mut first_records = 0;
    for (file, column, from, to, step, code) in KINDS {
        let own = header_line(from);
        for three in [false, true] {
            for number in 0..if three { 1_000 } else { 100 } {
                let start = if three { format!("{number:03}") } else { format!("{number:02} ") };
                let is_first =
                    three && (from..=to).contains(&number) && (number - from) % step == 0;
                let line = header_with(from, code).at(2, &start);
                let again = match is_first {
                    true => refused(24, R, own as u64 + 1, 33),
                    false => AS_A,
                };
                assert_eq!(compare(&with(line, own, false), &start), again, "{code} in H{start}");
                let instead = match is_first {
                    true => AS_A,
                    false => refused(25, file, first() as u64, column),
                };
                assert_eq!(compare(&with(line, own, true), &start), instead, "{code} in H{start}");
                first_records += usize::from(is_first);
            }
        }
    }
    assert_eq!(first_records, 10 + 10 + 9);
}

/// Whether two bytes are a code of the kind whose first record has a number.
fn is_code(file: File, bytes: [u8; 2]) -> bool {
    match file {
        X => matches!(bytes, [b'1'..=b'9', b',']),
        _ => codes(file).contains(&bytes) && ![*b"PM", *b"KL"].contains(&bytes),
    }
}

/// Each two bytes in columns 33 and 34 of a first record more, and of two. A byte that is not taken
/// is 3, set A's own code 24. Any other code has its line, and of two the second is 24; what is no
/// code leaves set A as it is.
#[test]
fn each_two_bytes() {
    let taken = |byte| (32..=126).contains(&byte);
    for (file, _, number, _, step, code) in KINDS {
        let own = header_with(number, code).0;
        let line = first() as u64;
        let [mut one, mut two] = [1, 2].map(|records| {
            let more = vec![header(number + step); records];
            set_a()
                .each(|set, of| more.iter().fold(set, |set, &line| set.insert(of, first(), line)))
        });
        let mut named = 0;
        for bytes in (0..=u16::MAX).map(u16::to_be_bytes) {
            one = with_bytes(one, bytes, 1);
            two = with_bytes(two, bytes, 2);
            let expected = match bytes {
                [first, _] if !taken(first) => [refused(3, R, line, 33); 2],
                [_, second] if !taken(second) => [refused(3, R, line, 34); 2],
                bytes if bytes == own[32..34] => [refused(24, R, line, 33); 2],
                bytes if is_code(file, bytes) => [AS_A, refused(24, R, line + 1, 33)],
                _ => [AS_A; 2],
            };
            assert_eq!([&one, &two].map(proved), expected, "{file:?} {bytes:?}");
            if expected[0] == AS_A && expected[1] != AS_A {
                let asked = if file == X { &bytes[..1] } else { &bytes[..] };
                let files = files(&one, one.medium as u64);
                let found = archive::table_line(files, file.kind(), asked);
                assert_eq!(found, line, "{file:?} {bytes:?}");
                named += 1;
            }
        }
        let all = if file == X { 9 } else { codes(file).len() - 2 };
        assert_eq!(named, all - 1, "{file:?}");
    }
}

/// A set with two bytes in columns 33 and 34 of so many lines below set A's header.
fn with_bytes(mut set: Set, bytes: [u8; 2], lines: usize) -> Set {
    for line in first()..first() + lines {
        let at = set.start(line) + 32;
        for file in File::ALL {
            set.file_mut(file)[at..at + 2].copy_from_slice(&bytes);
        }
    }
    set
}
