//! What can be wrong with a set: each way changes one thing, wrong or not. A tape has
//! ways of its own.

mod files;
mod headers;
mod lines;
mod relations;
mod tables;
mod tapes;
mod values;

pub(crate) use values::number;

use small_sets::{File, Medium, Random, Set};
use std::ops::RangeInclusive;

/// A name, and what changes a set. Where it finds nothing to change the set stays.
pub type Way = (&'static str, fn(&mut Random, Set) -> Set);

pub const WAYS: [Way; 35] = [
    ("a byte of any value", files::any_byte),
    ("a byte of lines", files::byte_of_lines),
    ("the end of a line", files::line_end),
    ("fewer bytes", files::fewer),
    ("more bytes", files::more),
    ("a line dropped", lines::dropped),
    ("a line repeated", lines::repeated),
    ("lines swapped", lines::swapped),
    ("a line moved", lines::moved),
    ("another letter", lines::letter),
    ("a field", values::field),
    ("columns of another line", values::copied),
    ("a number moved", values::moved),
    ("a name changed by a blank", values::blank),
    ("a column of 1 to 9", values::digit),
    ("another code", values::code),
    ("a point killed", values::killed),
    ("a shot's moment", values::moment),
    ("a shot more", values::more_shots),
    ("one receiver more or less", relations::wider),
    ("receivers covered again", relations::again),
    ("a record again", relations::record),
    ("a shot or a receiver named", relations::named),
    ("a killed shot named", relations::killed),
    ("channels crossed", relations::crossed),
    ("receivers backwards", relations::turned),
    ("a header line dropped", headers::dropped),
    ("a header line in all files", headers::in_all),
    ("a header line in one file", headers::in_one),
    ("a code named again", tables::again),
    ("a first record more", tables::more),
    ("a table dropped", tables::dropped),
    ("a table changed", tables::changed),
    ("tables exchanged", tables::exchanged),
    ("any code used", tables::used),
];

/// A set with one thing changed, and the name of the way.
pub fn damage(random: &mut Random, set: Set) -> (Set, &'static str) {
    let (name, change) = match set.medium {
        Medium::Disc => random.pick(&WAYS),
        Medium::Tape => random.pick(&tapes::WAYS),
    };
    (change(random, set), name)
}

/// A set with so many things changed, and the names of the ways.
pub fn damage_more(random: &mut Random, mut set: Set, times: usize) -> (Set, String) {
    let mut ways = Vec::new();
    for _ in 0..times {
        let way;
        (set, way) = damage(random, set);
        ways.push(way);
    }
    (set, ways.join(", then "))
}

/// One of the files.
fn file(random: &mut Random) -> File {
    random.pick(&File::ALL)
}

/// The number of header lines of a file.
fn headers_of(set: &Set, file: File) -> usize {
    set.file(file).chunks_exact(82).take_while(|line| line[0] == b'H').count()
}

/// A file's own lines.
pub(crate) fn own_lines(set: &Set, file: File) -> RangeInclusive<usize> {
    headers_of(set, file) + 1..=set.lines(file)
}

/// One of a file's own lines.
pub(crate) fn own_line(random: &mut Random, set: &Set, file: File) -> Option<usize> {
    let own = own_lines(set, file);
    (!own.is_empty()).then(|| own.start() + random.below(own.clone().count()))
}

/// Two lines of a file, each in the other's place.
fn swap(set: Set, file: File, one: usize, other: usize) -> Set {
    let texts = [set.line(file, one), set.line(file, other)];
    set.edit(file, one, |_| texts[1]).edit(file, other, |_| texts[0])
}
