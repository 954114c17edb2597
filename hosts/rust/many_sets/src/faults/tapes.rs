//! What can be wrong with a tape: its end, its records and its bytes.

use super::{file, files, swap, Way};
use small_sets::{tape, File, Line, Random, Set};

pub const WAYS: [Way; 12] = [
    ("a byte of any value", files::any_byte),
    ("a byte that is taken", taken),
    ("a byte of the last record", of_the_end),
    ("fewer bytes", files::fewer),
    ("more bytes", files::more),
    ("no EOF record", no_end),
    ("an EOF record anywhere", another_end),
    ("the EOF record elsewhere", end_moved),
    ("a record behind", behind),
    ("a record dropped", dropped),
    ("records swapped", swapped),
    ("a record over another", over),
];

/// One of the records of a file.
fn record(random: &mut Random, set: &Set, file: File) -> Option<usize> {
    let records = set.lines(file);
    (records > 0).then(|| 1 + random.below(records))
}

/// Changes a file by one of its records.
fn change(random: &mut Random, set: Set, how: impl FnOnce(Set, File, usize) -> Set) -> Set {
    let file = file(random);
    match record(random, &set, file) {
        Some(record) => how(set, file, record),
        None => set,
    }
}

fn taken(random: &mut Random, set: Set) -> Set {
    let characters: Vec<u8> = tape::characters().collect();
    let byte = tape::byte_of(random.pick(&characters)).expect("a character of a tape");
    let column = 1 + random.below(80);
    change(random, set, |set, file, record| set.byte(file, record, column, byte))
}

/// EOF stands in columns 1 to 3; the others are free.
fn of_the_end(random: &mut Random, set: Set) -> Set {
    let (column, byte) = (1 + random.below(6), random.bytes(1)[0]);
    change(random, set, |set, file, _| {
        let last = set.lines(file);
        set.byte(file, last, column, byte)
    })
}

fn no_end(random: &mut Random, set: Set) -> Set {
    change(random, set, |set, file, _| {
        let last = set.lines(file);
        set.remove(file, last)
    })
}

fn another_end(random: &mut Random, set: Set) -> Set {
    change(random, set, |set, file, record| set.insert(file, record, tape::end()))
}

fn end_moved(random: &mut Random, set: Set) -> Set {
    change(random, set, |set, file, record| {
        let last = set.lines(file);
        set.remove(file, last).insert(file, record, tape::end())
    })
}

/// One of the file's, an EOF record, or bytes of any value.
fn behind(random: &mut Random, set: Set) -> Set {
    let bytes = random.bytes(80);
    let kind = random.below(3);
    change(random, set, |set, file, record| {
        let text = match kind {
            0 => set.line(file, record),
            1 => tape::end(),
            _ => Line(std::array::from_fn(|at| bytes[at])),
        };
        set.add(file, text)
    })
}

fn dropped(random: &mut Random, set: Set) -> Set {
    change(random, set, |set, file, record| set.remove(file, record))
}

fn swapped(random: &mut Random, set: Set) -> Set {
    let by = random.below(3);
    change(random, set, |set, file, record| {
        let other = (record + by).min(set.lines(file));
        swap(set, file, record, other)
    })
}

/// The record just before, of any file.
fn over(random: &mut Random, set: Set) -> Set {
    let from = file(random);
    change(random, set, |set, file, record| {
        let text = set.line(from, record.min(set.lines(from)).max(2) - 1);
        set.edit(file, record, |_| text)
    })
}
