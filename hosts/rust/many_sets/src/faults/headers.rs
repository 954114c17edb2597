//! Header blocks: alike in all files, or not.

use super::{file, headers_of, swap};
use crate::damage::damage;
use crate::lines::{header, OF_HEADERS};
use small_sets::{File, Line, Random, Set};

/// One of the header lines that every file has.
fn line(random: &mut Random, set: &Set) -> Option<usize> {
    let lines = File::ALL.map(|file| headers_of(set, file)).into_iter().min()?;
    (lines > 0).then(|| 1 + random.below(lines))
}

/// In all files, in two or in one.
pub fn dropped(random: &mut Random, set: Set) -> Set {
    let Some(line) = line(random, &set) else { return set };
    let files = random.pick(&[&File::ALL[..], &File::ALL[1..], &[File::R], &[File::S], &[File::X]]);
    files.iter().fold(set, |set, &file| set.remove(file, line))
}

/// A type, a column 4 or a projection, the same in all files.
pub fn in_all(random: &mut Random, set: Set) -> Set {
    let Some(at) = line(random, &set) else { return set };
    let line = set.line(File::R, at);
    let text = match random.below(4) {
        0 => damage(random, line, OF_HEADERS),
        1 => line.at(4, random.pick(&[" ", "0", "1", "9"])),
        _ => projection(random, line),
    };
    set.each(|set, file| set.edit(file, at, |_| text))
}

/// An H18 with nothing, with N/A, or with something near it.
fn projection(random: &mut Random, line: Line) -> Line {
    const TEXTS: [&str; 12] = [
        "",
        ";",
        "   ;UTM",
        "N/A",
        "N/A;",
        "  N/A  ;UTM",
        "N/A N/A",
        "n/a",
        "N/",
        "N/A.",
        "UTM;N/A",
        "                                             N/A",
    ];
    line.at(1, "H18 ").at(33, &format!("{:48}", random.pick(&TEXTS)))
}

/// Another column, another line, one more, or two swapped.
pub fn in_one(random: &mut Random, set: Set) -> Set {
    let (Some(at), Some(other)) = (line(random, &set), line(random, &set)) else { return set };
    let file = file(random);
    let end = headers_of(&set, file) + 1;
    match random.below(4) {
        0 => set.byte(file, at, 5 + random.below(76), random.pick(b" ;A")),
        1 => set.edit(file, at, |_| header(random)),
        2 => set.insert(file, end, header(random)),
        _ => swap(set, file, at, other),
    }
}
