//! Lengths: each number of bytes up to a line more or less.

use crate::answers::refused;
use crate::compare::{compare, compare_calls, Tally};
use many_sets::run::{random, turns};
use many_sets::sound::sound;
use small_sets::{set_a, File};

#[test]
fn each_length() {
    let mut random = random(35);
    let mut tally = Tally::default();
    for _ in 0..turns(20) {
        let made = sound(&mut random).set;
        for file in File::ALL {
            let length = made.file(file).len();
            for by in 0..=82 {
                let shorter = made.clone().cut(file, length - by);
                tally.count(compare(&shorter, &format!("{file:?} of {by} bytes less")));
                let longer = made.clone().over(file, by);
                tally.count(compare(&longer, &format!("{file:?} of {by} bytes more")));
            }
        }
    }
    tally.holds([1, 3], 20);
}

/// No byte at all, and each length up to two lines.
#[test]
fn short_files() {
    for file in File::ALL {
        for length in 0..=164 {
            let set = set_a().cut(file, length);
            let answer = compare_calls(&set, &format!("{file:?} of {length} bytes"));
            let line = length as u64 / 82 + 1;
            if length % 82 > 0 {
                assert_eq!(answer, refused(1, file, line, 0));
            }
        }
    }
}
