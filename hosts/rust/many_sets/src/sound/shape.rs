//! Points and relation lines by their values, and how they are written.

use crate::fields::{index, whole};
use crate::lines;
use small_sets::{File, Line, Random};
use std::collections::BTreeSet;

/// Line name, point number and index, in the order of R.
#[derive(Clone, Debug, PartialEq, Eq, PartialOrd, Ord)]
pub struct Place {
    pub name: String,
    pub number: u32,
    pub index: u8,
}

/// A tape of six columns and a record, with what its lines share.
#[derive(Clone)]
pub struct Record {
    pub tape: String,
    pub number: u32,
    pub increment: u8,
    pub instrument: u8,
    pub source: Place,
}

pub struct Relation {
    pub record: Record,
    pub from_channel: u32,
    pub components: u32,
    /// The lowest of the receivers.
    pub lowest: Place,
    pub receivers: u32,
}

impl Place {
    /// A receiver, or else a shot, at this place.
    pub fn point(&self, random: &mut Random, file: File, killed: bool) -> Line {
        let line = lines::point(random, file).name(&self.name);
        let line = match killed {
            true => line.code("KL"),
            false => line.code(&lines::live(random, file)),
        };
        line.at(18, &number(random, 8, self.number)).at(26, &digit(random, self.index))
    }
}

impl Relation {
    pub fn traces(&self) -> u64 {
        u64::from(self.receivers * self.components)
    }

    /// Those of them whose receivers are killed.
    pub fn dead_traces(&self, killed: &BTreeSet<Place>) -> u64 {
        let number = |at| Place { number: self.lowest.number + at, ..self.lowest.clone() };
        let dead = (0..self.receivers).filter(|&at| killed.contains(&number(at))).count();
        dead as u64 * u64::from(self.components)
    }

    /// How it is written; as often counted up as down.
    pub fn line(&self, random: &mut Random) -> Line {
        let Relation { record, from_channel, lowest, .. } = self;
        let to_channel = from_channel + self.traces() as u32 - 1;
        let highest = lowest.number + self.receivers - 1;
        let [from_receiver, to_receiver] = lines::either_way(random, lowest.number, highest);
        Line([b' '; 80])
            .at(1, "X")
            .tape(&record.tape)
            .at(8, &number(random, 4, record.number))
            .record_increment(&digit(random, record.increment))
            .instrument(&digit(random, record.instrument))
            .source_name(&record.source.name)
            .at(30, &number(random, 8, record.source.number))
            .source_index(&digit(random, record.source.index))
            .at(39, &number(random, 4, *from_channel))
            .at(43, &number(random, 4, to_channel))
            .increment(&digit(random, self.components as u8))
            .receiver_name(&lowest.name)
            .at(64, &number(random, 8, from_receiver))
            .at(72, &number(random, 8, to_receiver))
            .receiver_index(&digit(random, lowest.index))
    }
}

/// 1 to 9, where 1 is often chosen.
pub fn any_digit(random: &mut Random) -> u8 {
    match random.below(2) {
        0 => 1,
        _ => index(random).parse().unwrap_or(1),
    }
}

/// A number, with zeros before it at times.
fn number(random: &mut Random, width: usize, number: u32) -> String {
    whole(random, width, number.into()..=number.into())
}

/// 1 to 9, where 1 may be blank.
fn digit(random: &mut Random, digit: u8) -> String {
    match digit {
        1 if random.below(2) == 0 => " ".to_owned(),
        _ => digit.to_string(),
    }
}
