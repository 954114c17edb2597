//! A medium that is neither is 20 before all else, and nothing is written.

use crate::archive::{self, Files};
use crate::lent::{lent, stay};
use small_sets::place::below;
use small_sets::{set_a, Set};

const OTHERS: [u64; 8] =
    [0, 3, 255, 256 + 1, (1 << 32) + 1, (1 << 32) + 2, (1 << 63) + 1, u64::MAX];

/// 20 has no place.
const OUT_OF_RANGE: u64 = 20 << 40;

const STAYS: u8 = 0xAA;

/// The answers of the calls that take whole files; what is lent stays.
fn answers(files: Files, tape: &[u8], numbers: [u64; 4]) -> [u64; 8] {
    let [record, channel, r_line, component] = numbers;
    let (counts, bytes) = lent(STAYS, 48, |bytes| archive::counts(files, bytes));
    let ((spread, components), lines) = lent(STAYS, 9, |lines| {
        lent(STAYS, 5, |components| archive::spread(files, tape, record, lines, components))
    });
    let (traces, rows) = lent(STAYS, 33, |rows| archive::traces(files, 0, rows));
    for lent in [bytes, lines, components, rows] {
        stay(STAYS, &lent);
    }
    let form = archive::form(files.medium, b'R'.into(), files.r);
    let trace = archive::trace(files, tape, record, channel);
    let back = archive::channel(files, tape, record, r_line, component);
    let line = archive::table_line(files, b'R'.into(), &tape[..tape.len().min(2)]);
    [form, archive::cross(files), counts, traces, trace, back, spread, line]
}

/// Of sound sets and of bad ones, with questions in range and out of it.
#[test]
fn another_medium() {
    let tape = set_a().on_tape().expect("characters of a tape");
    let cut = |set: &Set| set.clone().each(|set, file| set.cut(file, 81));
    let sets = [set_a(), cut(&set_a()), cut(&tape), tape, Set::default()];
    let line = below(2) as u64;
    for Set { r, s, x, .. } in &sets {
        for medium in OTHERS {
            let files = Files { medium, r, s, x };
            for (tape, numbers) in [
                (&b"100   "[..], [11, 2, line, 1]),
                (b"100", [11, 2, line, 1]),
                (b"100   ", [u64::MAX, 0, 0, 0]),
            ] {
                assert_eq!(answers(files, tape, numbers), [OUT_OF_RANGE; 8], "medium {medium}");
                assert!(naive::medium(medium).is_err_and(|refusal| refusal.number == 20));
            }
        }
    }
}
