//! Receivers that are many, or far to seek.

use super::{below_header, last, own, record, SEED};
use small_sets::{marker, receiver, relation, shot, File, Line, Random, Set};

/// Each record covers each receiver.
pub fn all(lines: usize) -> Set {
    let most = own(lines);
    let line = |n| record(n).channels(1, most).receivers(1, most);
    below_header((1..=most).map(receiver), (0..most).map(shot), (0..most).map(line))
}

pub fn last_lacks(lines: usize) -> Set {
    last(all(lines), File::X, |line| line.receivers(2, own(lines) + 1))
}

/// Numbers, each with the indices 1 to 9.
fn with_nine_indices(numbers: u32) -> impl Iterator<Item = Line> {
    (1..=numbers).flat_map(|n| (1..=9).map(move |index| receiver(n).index(&index.to_string())))
}

/// Each record covers all of index 9.
pub fn nine_indices(lines: usize) -> Set {
    let (most, numbers) = (own(lines), own(lines) / 9);
    let line = |n| record(n).channels(1, numbers).receivers(1, numbers).receiver_index("9");
    below_header(with_nine_indices(numbers), (0..most).map(shot), (0..most).map(line))
}

/// Each record covers some of another index than the record before.
pub fn indices_in_turn(lines: usize) -> Set {
    let (most, numbers) = (own(lines), own(lines) / 9);
    let mut random = Random::new(SEED);
    let line = |n: u32| {
        let from = 1 + random.below(numbers as usize) as u32;
        let more = random.below((numbers - from + 1) as usize) as u32;
        let line = record(n).channels(1, more + 1).receivers(from, from + more);
        line.receiver_index(&(n % 9 + 1).to_string())
    };
    below_header(with_nine_indices(numbers), (0..most).map(shot), (0..most).map(line))
}

pub fn index_lacks(lines: usize) -> Set {
    let numbers = own(lines) / 9;
    let beyond = |line: Line| line.channels(1, numbers).receivers(2, numbers + 1);
    last(indices_in_turn(lines), File::X, beyond)
}

/// Markers in R and in S, and one point behind them.
pub fn markers(lines: usize) -> Set {
    let most = own(lines);
    let behind =
        |file, point: Line| vec![marker(file); most as usize - 1].into_iter().chain([point]);
    let line = |n| relation().record(n).channels(1, 1).receivers(101, 101);
    let (r, s) = (behind(File::R, receiver(101)), behind(File::S, shot(501)));
    below_header(r, s, (0..most).map(line))
}

/// The name of a number's line: at most 94 lines of 107 numbers.
fn name(n: u32) -> String {
    format!("LINE 2026 EAST {}", char::from(b'!' + (n / 107) as u8))
}

/// Receivers and shots alike; each record covers all of a line.
pub fn names_alike(lines: usize) -> Set {
    let most = own(lines);
    let point = |n| move |line: Line| line.name(&name(n)).point(n % 107);
    let line = |n: u32| {
        let (first, last) = (n / 107 * 107, (n / 107 * 107 + 106).min(most - 1));
        let line = record(n).source_name(&name(n)).source(n % 107).receiver_name(&name(n));
        line.channels(1, last - first + 1).receivers(0, last - first)
    };
    let receivers = (0..most).map(|n| point(n)(receiver(0)));
    below_header(receivers, (0..most).map(|n| point(n)(shot(0))), (0..most).map(line))
}

pub fn other_name(lines: usize) -> Set {
    last(names_alike(lines), File::X, |line| line.receiver_name("LINE 2026 EAST  "))
}
