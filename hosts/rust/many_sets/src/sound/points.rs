//! Receivers in their order, and shots in time.

use super::shape::{any_digit, Place};
use super::Size;
use crate::lines::time;
use small_sets::{File, Line, Random};
use std::collections::BTreeSet;

/// The highest point number.
const HIGHEST: usize = 99_999_999;

/// Up to two runs of numbers on each line, each number with one index or more.
pub fn receivers(random: &mut Random, size: &Size, names: &[String]) -> BTreeSet<Place> {
    let mut places = BTreeSet::new();
    for name in names {
        for _ in 0..random.below(3) {
            let length = 1 + random.below(size.run);
            let first = first_number(random, length);
            let indices: Vec<u8> = (0..1 + random.below(3)).map(|_| any_digit(random)).collect();
            for number in first..first + length as u32 {
                // At times a number lacks its index.
                for &index in indices.iter().filter(|_| random.below(2 * size.run) > 0) {
                    places.insert(Place { name: name.clone(), number, index });
                }
            }
        }
    }
    places
}

/// Where a run of numbers starts.
fn first_number(random: &mut Random, length: usize) -> u32 {
    let last_start = HIGHEST + 1 - length;
    let start = match random.below(6) {
        0 => 0,
        1 => last_start,
        2 => random.below(last_start + 1),
        _ => random.below(12),
    };
    start as u32
}

/// Shots of which no two are alike, in any order.
pub fn shots(random: &mut Random, size: &Size, names: &[String]) -> Vec<Place> {
    let mut shots: Vec<Place> = Vec::new();
    for _ in 0..random.below(size.shots + 1) {
        let name = names[random.below(names.len())].clone();
        let number = first_number(random, 1);
        let shot = Place { name, number, index: any_digit(random) };
        if !shots.contains(&shot) {
            shots.push(shot);
        }
        // One of another index only.
        if let Some(last) = shots.last().filter(|_| random.below(4) == 0) {
            let shot = Place { index: 1 + last.index % 9, ..last.clone() };
            if !shots.contains(&shot) {
                shots.push(shot);
            }
        }
    }
    shots
}

/// Those of some places that are killed: most often few, at times none or all.
pub fn killed<'a>(
    random: &mut Random,
    places: impl IntoIterator<Item = &'a Place>,
) -> BTreeSet<Place> {
    let of_eight = random.pick(&[0, 1, 1, 1, 1, 2, 4, 8]);
    places.into_iter().filter(|_| random.below(8) < of_eight).cloned().collect()
}

/// The lines of S: days and times ascend, and are often equal.
pub fn in_time(random: &mut Random, shots: &[Place], killed: &BTreeSet<Place>) -> Vec<Line> {
    let days = [1, 99, 100 + random.below(900) as u32];
    let times = ["000000", "235959", "071245", &time(random)].map(str::to_owned);
    let mut moments: Vec<(u32, &str)> =
        shots.iter().map(|_| (random.pick(&days), times[random.below(4)].as_str())).collect();
    moments.sort_unstable();
    let mut line = |(shot, (day, time)): (&Place, _)| {
        shot.point(random, File::S, killed.contains(shot)).day(day).time(time)
    };
    shots.iter().zip(moments).map(&mut line).collect()
}
