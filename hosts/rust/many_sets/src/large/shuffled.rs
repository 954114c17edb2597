//! Names, numbers and the order of lines by chance.

use super::seeded::in_time;
use super::{below_header, last, own, record, SEED};
use crate::fields::name;
use small_sets::{receiver, relation, shot, File, Line, Random, Set};
use std::collections::BTreeSet;

/// Line name, point number and index, in the order of R.
type Place = (String, u32, u8);

/// The same in any order.
pub fn mixed<T>(random: &mut Random, all: impl IntoIterator<Item = T>) -> Vec<T> {
    let mut all: Vec<T> = all.into_iter().collect();
    for at in 1..all.len() {
        all.swap(at, random.below(at + 1));
    }
    all
}

/// So many that differ.
fn distinct<T: Ord>(many: u32, mut next: impl FnMut() -> T) -> BTreeSet<T> {
    let mut found = BTreeSet::new();
    while found.len() < many as usize {
        found.insert(next());
    }
    found
}

/// So many places, some hundred on each line.
fn places(random: &mut Random, many: u32) -> BTreeSet<Place> {
    let names: Vec<String> = (0..many / 100 + 1).map(|_| name(random, 16)).collect();
    distinct(many, || {
        let name = names[random.below(names.len())].clone();
        (name, random.below(100_000_000) as u32, 1 + random.below(9) as u8)
    })
}

/// So many tapes and records, some hundred on each tape.
fn records(random: &mut Random, many: u32) -> BTreeSet<(String, u32)> {
    let tapes: Vec<String> = (0..many / 100 + 1).map(|_| name(random, 6)).collect();
    distinct(many, || (tapes[random.below(tapes.len())].clone(), random.below(10_000) as u32))
}

fn at((name, number, index): &Place, line: Line) -> Line {
    line.name(name).point(*number).index(&index.to_string())
}

/// Shots in time and records in their order, each with a receiver; all else is by
/// chance.
pub fn all(lines: usize) -> Set {
    let (most, random) = (own(lines), &mut Random::new(SEED));
    let receivers = places(random, most);
    let [shots, asked] = [places(random, most), receivers.clone()].map(|all| mixed(random, all));
    let records = records(random, most);
    let records = mixed(random, records);
    let line = |(((tape, number), source), asked): (((String, u32), &Place), Place)| {
        let line = relation().tape(&tape).record(number).channels(1, 1);
        let line = line.source_name(&source.0).source(source.1).source_index(&source.2.to_string());
        let (name, number, index) = asked;
        line.receiver_name(&name).receivers(number, number).receiver_index(&index.to_string())
    };
    let s = in_time(random, shots.iter().map(|place| at(place, shot(0))));
    let x = records.into_iter().zip(&shots).zip(asked).map(line);
    below_header(receivers.iter().map(|place| at(place, receiver(0))), s, x)
}

/// The columns of a file's last line as they are in its first line below the header.
fn as_first(set: Set, file: File, columns: std::ops::Range<usize>) -> Set {
    let Line(first) = set.line(file, small_sets::place::first());
    last(set, file, |Line(mut line)| {
        line[columns.clone()].copy_from_slice(&first[columns]);
        Line(line)
    })
}

pub fn shot_again(lines: usize) -> Set {
    as_first(all(lines), File::S, 1..26)
}

pub fn record_again(lines: usize) -> Set {
    as_first(all(lines), File::X, 1..11)
}

pub fn receiver_lacks(lines: usize) -> Set {
    last(all(lines), File::X, |line| line.receivers(99_999_999, 99_999_999))
}

/// One receiver on each line, which the records ask for in any order.
pub fn names(lines: usize) -> Set {
    let (most, random) = (own(lines), &mut Random::new(SEED));
    let names = distinct(most, || name(random, 16));
    let asked = mixed(random, &names);
    let line = |(n, name): (u32, &String)| {
        record(n).channels(1, 1).receiver_name(name).receivers(101, 101)
    };
    let receivers = names.iter().map(|name| receiver(101).name(name));
    below_header(receivers, (0..most).map(shot), (0..).zip(asked).map(line))
}

/// The last name differs in its last column.
pub fn name_lacks(lines: usize) -> Set {
    last(names(lines), File::X, |Line(mut line)| {
        line[62] ^= 1;
        Line(line)
    })
}
