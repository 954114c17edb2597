//! Lines made from a seed, sound and damaged, on both media, and whole files of them.

use crate::read::{point, relation, Asked};
use many_sets::damage::{damage, Fields};
use many_sets::faults::damage_more;
use many_sets::lines::{self, OF_POINTS, OF_RELATIONS};
use many_sets::media::plain;
use many_sets::run::{random, turns};
use many_sets::sound::sound;
use small_sets::{tape, File, Line, Medium, Random, Set};
use std::collections::BTreeMap;

/// How many lines are read, and refused for each number.
type Tally = BTreeMap<u64, u64>;

/// Each of these numbers turns up so many times.
fn holds(tally: &Tally, numbers: &[u64], least: u64) {
    for number in numbers {
        assert!(tally.get(number).is_some_and(|found| *found >= least), "{number}: {tally:?}");
    }
}

/// Asks for a line of a file of a set, as a line of each file that it can be.
fn ask(tally: &mut Tally, set: &Set, file: File, line: u64) {
    let asked = Asked { medium: set.medium as u64, file: set.file(file), line };
    let answers = [point(asked, File::R.kind()), point(asked, File::S.kind()), relation(asked)];
    *tally.entry(answers[file as usize - 1] >> 40).or_default() += 1;
}

/// The records of a disc file as those of a tape. What has no byte there stays as it is.
fn on_tape(set: Set, file: File) -> Set {
    let columns = set.file(file).chunks_exact(82).flat_map(|line| &line[..80]);
    let bytes: Vec<u8> = columns.map(|byte| tape::byte_of(*byte).unwrap_or(*byte)).collect();
    let mut tape = Set { medium: Medium::Tape, ..Set::default() };
    *tape.file_mut(file) = bytes;
    tape.add(file, tape::end())
}

/// At times another letter in the second line, or any byte in any of its columns.
fn struck(random: &mut Random, set: Set, file: File) -> Set {
    let letter = random.pick(b"HRSXE");
    let own = match set.medium {
        Medium::Disc => letter,
        Medium::Tape => tape::byte_of(letter).expect("a character of a tape"),
    };
    match random.below(20) {
        0 => set.byte(file, 2, 1, own),
        1 => {
            let column = 1 + random.below(set.medium.width());
            set.byte(file, 2, column, random.bytes(1)[0])
        }
        _ => set,
    }
}

/// Damaged lines, each between two that are not. They are read, and refused for just these
/// numbers.
fn damaged(
    salt: u64,
    file: File,
    fields: Fields,
    make: fn(&mut Random, File) -> Line,
    numbers: &[u64],
) {
    let (mut random, mut tally) = (random(salt), Tally::new());
    for turn in 0..turns(10_000) {
        let [above, line, below] = std::array::from_fn(|_| make(&mut random, file));
        let times = random.below(3);
        let line = (0..times).fold(line, |line, _| damage(&mut random, line, fields));
        let set = Set::default().add_all(file, [above, line, below]);
        let set = if turn % 2 == 0 { set } else { on_tape(set.plain(), file) };
        let set = struck(&mut random, set, file);
        (1..=4).for_each(|line| ask(&mut tally, &set, file, line));
    }
    holds(&tally, numbers, turns(100));
    assert_eq!(tally.len(), numbers.len(), "{tally:?}");
}

/// One line in eight is a marker.
fn point_or_marker(random: &mut Random, file: File) -> Line {
    match random.below(8) {
        0 => lines::marker(random, file),
        _ => lines::point(random, file),
    }
}

#[test]
fn damaged_receivers() {
    damaged(132, File::R, OF_POINTS, point_or_marker, &[0, 3, 4, 5, 20]);
}

#[test]
fn damaged_shots() {
    damaged(133, File::S, OF_POINTS, point_or_marker, &[0, 3, 4, 5, 20]);
}

#[test]
fn damaged_relations() {
    let make = |random: &mut Random, _| lines::relation(random);
    damaged(134, File::X, OF_RELATIONS, make, &[0, 3, 4, 5, 6, 20]);
}

/// Every line of made sets, as they are and with changes, and those just beyond them.
fn files(salt: u64, make: fn(&mut Random) -> Set) {
    let (mut random, mut tally) = (random(salt), Tally::new());
    for turn in 0..turns(400) {
        let made = make(&mut random);
        let (set, _) = damage_more(&mut random, made, turn as usize % 3);
        for file in File::ALL {
            for line in 0..=set.lines(file) + 2 {
                ask(&mut tally, &set, file, line as u64);
            }
        }
    }
    holds(&tally, &[0, 20], turns(500));
}

/// A file may be longer than those that are accepted; its lines end at 9,999.
#[test]
fn long_files() {
    let Line(columns) = small_sets::relation();
    let Line(record) = Line(columns).on_tape().expect("characters of a tape");
    let disc = [&columns[..], b"\r\n"].concat();
    for (medium, line) in [(Medium::Disc, &disc[..]), (Medium::Tape, &record)] {
        let (medium, x) = (medium as u64, line.repeat(10_002));
        let answer = |line| relation(Asked { medium, file: &x, line });
        assert_eq!([1, 9_999, 10_000, 10_001].map(answer), [0, 0, 20 << 40, 20 << 40]);
    }
}

#[test]
fn files_on_disc() {
    files(135, |random| sound(random).set);
}

#[test]
fn files_on_tape() {
    files(136, |random| plain(random).on_tape().expect("characters of a tape"));
}
