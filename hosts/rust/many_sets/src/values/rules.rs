//! Which numbers a field takes.

use crate::fields::value;
use crate::lines;
use small_sets::Random;
use std::collections::BTreeSet;

/// Where a number passes one, two, four and six bytes.
pub const BYTES: [i64; 4] = [1 << 8, 1 << 16, 1 << 32, 1 << 48];

/// The rule of a number.
#[derive(Clone, Copy)]
pub enum Rule {
    /// Those from the first to the second.
    Range(i64, i64),
    /// Tenths up to 99.9 metres, then whole metres up to 999.
    WaterDepth,
    /// hhmmss.
    Time,
}

impl Rule {
    pub fn takes(self, number: i64) -> bool {
        match self {
            Rule::Range(low, high) => (low..=high).contains(&number),
            Rule::WaterDepth => {
                let metres = number % 10 == 0 && (0..=9_990).contains(&number);
                metres || (0..=999).contains(&number)
            }
            Rule::Time => {
                let below_sixty = |part: i64| part % 100 < 60;
                (0..240_000).contains(&number) && below_sixty(number) && below_sixty(number / 100)
            }
        }
    }

    /// A number that it takes.
    pub fn any(self, random: &mut Random) -> i64 {
        match self {
            Rule::Range(low, high) => match any_number(random) {
                number if self.takes(number) => number,
                _ => value(random, &(low..=high)),
            },
            Rule::WaterDepth => value(random, &(0..=999)) * random.pick(&[1, 10]),
            Rule::Time => lines::time(random).parse().expect("six digits"),
        }
    }

    /// A number that it does not take: at a border, of any size, or one whose low bytes it takes.
    pub fn beyond(self, random: &mut Random) -> i64 {
        let borders: Vec<i64> = self.borders().into_iter().collect();
        loop {
            let number = match random.below(3) {
                0 => random.pick(&borders),
                1 => any_number(random),
                _ => self.any(random) + random.pick(&BYTES),
            };
            if !self.takes(number) {
                return number;
            }
        }
    }

    /// Its ends and the numbers beside them, those that have the same low bytes, and those where
    /// one more digit or byte is taken up.
    pub fn borders(self) -> BTreeSet<i64> {
        let ends: &[i64] = match self {
            Rule::Range(low, high) => &[low, high],
            Rule::WaterDepth => &[0, 999, 1_010, 9_985, 9_990, 10_010],
            Rule::Time => &[0, 59, 5_959, 6_000, 71_245, 235_959, 236_000, 240_000],
        };
        let beside = ends.iter().flat_map(|end| [end - 1, *end, end + 1]);
        let same_bytes = ends.iter().flat_map(|end| BYTES.map(|byte| end + byte));
        let digits = (0..=18).map(|digits| 10_i64.pow(digits));
        let longer = digits.chain(BYTES).flat_map(|first| [first - 1, first]);
        let longer = longer.flat_map(|size| [size, -size]);
        beside.chain(same_bytes).chain(longer).chain([i64::MIN, i64::MAX]).collect()
    }
}

/// A number of either sign and of any number of bits.
pub fn any_number(random: &mut Random) -> i64 {
    let bytes = random.bytes(8);
    i64::from_le_bytes(std::array::from_fn(|at| bytes[at])) >> random.below(64)
}
