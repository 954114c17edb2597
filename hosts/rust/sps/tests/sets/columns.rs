//! Each column of a line of each file, changed in each of some ways.

use crate::compare::{compare, Tally};
use many_sets::run::{random, turns};
use many_sets::sound::sound;
use small_sets::{File, Random, Set};

/// The byte that comes to stand in a column: another digit, a letter, a blank,
/// a sign, a point, a byte out of range, an end of a line.
fn bytes(random: &mut Random) -> [u8; 8] {
    let out_of_range = random.pick(&[0, 9, 31, 127, 128, 255]);
    let digit = random.pick(b"0123456789");
    let letter = random.pick(b"HRSXGVPMKLAaz");
    [digit, letter, b' ', b'-', b'.', random.pick(b";~!+/:"), out_of_range, random.pick(b"\r\n")]
}

/// A line of a file, one of its own more often than a header line.
fn line(random: &mut Random, set: &Set, file: File) -> usize {
    let lines = set.lines(file);
    match random.below(4) {
        0 => 1 + random.below(lines),
        _ => lines - random.below(lines.min(8)),
    }
}

#[test]
fn each_column() {
    let mut random = random(34);
    let mut tally = Tally::default();
    for _ in 0..turns(60) {
        let mut set = sound(&mut random).set;
        for file in File::ALL {
            let line = line(&mut random, &set, file);
            for column in 1..=82 {
                let place = (line - 1) * 82 + column - 1;
                let before = set.file(file)[place];
                for byte in bytes(&mut random) {
                    set.file_mut(file)[place] = byte;
                    let how = format!("byte {byte} in {file:?}, line {line}, column {column}");
                    tally.count(compare(&set, &how));
                }
                set.file_mut(file)[place] = before;
            }
        }
    }
    tally.holds([3, 4, 5, 6, 9, 10, 13, 18, 25], 20);
    assert!(tally.sets() > 100_000, "{} sets", tally.sets());
}
