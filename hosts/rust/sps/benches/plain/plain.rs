//! Rows written by a plain loop: the lines of R and X are parsed beforehand, by the naive reader,
//! and nothing is checked.

use small_sets::{File, Set};
use std::ops::RangeInclusive;

/// Line name, index and point number: those of a spread follow each other.
type Key = ([u8; 16], u64, u64);

/// The numbers of a set.
pub struct Parsed {
    /// R line and mark of each receiver, in the order of the keys.
    receivers: Vec<(u32, u8)>,
    spreads: Vec<Spread>,
}

/// A relation line.
struct Spread {
    x_line: u32,
    channels: RangeInclusive<u32>,
    components: u8,
    /// The place of its first receiver, and the way to the next.
    receiver: usize,
    step: isize,
}

/// The numbers of an accepted set.
pub fn parsed(set: &Set) -> Parsed {
    let mut receivers: Vec<(Key, (u32, u8))> = Vec::new();
    let medium = naive::medium(set.medium as u64).expect("a medium");
    for line in 1..=set.lines(File::R) as u64 {
        if let Ok(point) = naive::point_at(medium, File::R.kind(), &set.r, line) {
            if point.state != naive::PointValues::MARKER {
                let key = (point.name, point.index, point.number);
                receivers.push((key, (line as u32, point.state as u8)));
            }
        }
    }
    receivers.sort_unstable();
    let lines = 1..=set.lines(File::X) as u64;
    let spreads = lines.filter_map(|line| {
        let relation = naive::relation_at(medium, &set.x, line).ok()?;
        let first = (relation.receiver_name, relation.receiver_index, relation.from_receiver);
        Some(Spread {
            x_line: line as u32,
            channels: relation.from_channel as u32..=relation.to_channel as u32,
            components: relation.channel_increment as u8,
            receiver: receivers.binary_search_by_key(&first, |(key, _)| *key).ok()?,
            step: if relation.from_receiver > relation.to_receiver { -1 } else { 1 },
        })
    });
    let spreads = spreads.collect();
    Parsed { receivers: receivers.into_iter().map(|(_, receiver)| receiver).collect(), spreads }
}

/// Writes all rows, and answers how many.
pub fn write(parsed: &Parsed, rows: &mut [u8]) -> u64 {
    let (places, _) = rows.as_chunks_mut::<16>();
    let mut written = 0;
    for spread in &parsed.spreads {
        let (mut receiver, mut component) = (spread.receiver, 1);
        for channel in spread.channels.clone() {
            let (r_line, killed) = parsed.receivers[receiver];
            let place = &mut places[written];
            place[0..4].copy_from_slice(&spread.x_line.to_le_bytes());
            place[4..8].copy_from_slice(&channel.to_le_bytes());
            place[8..12].copy_from_slice(&r_line.to_le_bytes());
            place[12..16].copy_from_slice(&[component, killed, 0, 0]);
            written += 1;
            component += 1;
            if component > spread.components {
                component = 1;
                receiver = receiver.wrapping_add_signed(spread.step);
            }
        }
    }
    written as u64
}
