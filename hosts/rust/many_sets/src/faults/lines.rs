//! Whole lines out of their places.

use super::{file, own_line, swap};
use small_sets::{File, Random, Set};

/// Two lines of a file's own, next to each other or not.
fn two(random: &mut Random, set: &Set, file: File) -> Option<(usize, usize)> {
    let first = own_line(random, set, file)?;
    match random.below(2) {
        0 if first < set.lines(file) => Some((first, first + 1)),
        _ => Some((first, own_line(random, set, file)?)),
    }
}

pub fn dropped(random: &mut Random, set: Set) -> Set {
    let file = file(random);
    match own_line(random, &set, file) {
        Some(line) => set.remove(file, line),
        None => set,
    }
}

/// At another place, which may be the next.
pub fn repeated(random: &mut Random, set: Set) -> Set {
    let file = file(random);
    match two(random, &set, file) {
        Some((line, to)) => {
            let text = set.line(file, line);
            set.insert(file, to, text)
        }
        None => set,
    }
}

pub fn swapped(random: &mut Random, set: Set) -> Set {
    let file = file(random);
    match two(random, &set, file) {
        Some((one, other)) => swap(set, file, one, other),
        None => set,
    }
}

pub fn moved(random: &mut Random, set: Set) -> Set {
    let file = file(random);
    match two(random, &set, file) {
        Some((line, to)) => {
            let text = set.line(file, line);
            set.remove(file, line).insert(file, to, text)
        }
        None => set,
    }
}

pub fn letter(random: &mut Random, set: Set) -> Set {
    let file = file(random);
    match set.lines(file) {
        0 => set,
        lines => {
            let line = 1 + random.below(lines);
            set.byte(file, line, 1, random.pick(b"HRSX"))
        }
    }
}
