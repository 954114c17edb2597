//! The relation lines of the shots, record by record.

use super::names::tape;
use super::plan::Taken;
use super::shape::{any_digit, Place, Record, Relation};
use super::Size;
use small_sets::Random;
use std::collections::BTreeSet;

/// The highest channel.
const HIGHEST: u32 = 9_999;

/// One record or two for each shot, none of which is taken.
pub fn relations(
    random: &mut Random,
    size: &Size,
    receivers: &BTreeSet<Place>,
    shots: &[Place],
    taken: &mut Taken,
) -> Vec<Relation> {
    let mut relations = Vec::new();
    for source in shots {
        let mut wanted = 1 + random.below(4) / 3;
        while wanted > 0 {
            let (tape, number) = (tape(random), record_number(random));
            if taken.records.insert((tape.clone(), number)) {
                let (increment, instrument) = (any_digit(random), any_digit(random));
                let source = source.clone();
                let record = Record { tape, number, increment, instrument, source };
                relations.extend(lines_of(random, size, record, receivers));
                wanted -= 1;
            }
        }
    }
    relations
}

fn record_number(random: &mut Random) -> u32 {
    match random.below(6) {
        0 => 9_999,
        1 => random.below(10_000) as u32,
        _ => random.below(4) as u32,
    }
}

/// One line or more of a record: channels ascend, receivers come in any order
/// and each at most once.
fn lines_of(
    random: &mut Random,
    size: &Size,
    record: Record,
    receivers: &BTreeSet<Place>,
) -> Vec<Relation> {
    let mut lines: Vec<Relation> = Vec::new();
    let mut left = receivers.clone();
    let mut from_channel = first_channel(random);
    for _ in 0..1 + random.below(size.lines) {
        let Some(lowest) = left.iter().nth(random.below(left.len().max(1))).cloned() else { break };
        let room = HIGHEST + 1 - from_channel;
        let components = u32::from(any_digit(random)).min(room);
        let most = 1 + random.below((room / components).min(size.covered) as usize) as u32;
        let number = |at| Place { number: lowest.number + at, ..lowest.clone() };
        let receivers = (0..most).take_while(|&at| left.remove(&number(at))).count() as u32;
        let line = Relation { record: record.clone(), from_channel, components, lowest, receivers };
        from_channel += line.traces() as u32 + random.pick(&[0, 0, 0, 1, 2]);
        lines.push(line);
        if from_channel > HIGHEST {
            break;
        }
    }
    lines
}

/// 1, or any; at times so high that the last channels are used.
fn first_channel(random: &mut Random) -> u32 {
    match random.below(4) {
        0 => HIGHEST - random.below(12) as u32,
        1 => 1 + random.below(HIGHEST as usize) as u32,
        _ => 1,
    }
}
