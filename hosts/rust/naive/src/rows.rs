//! All traces of an accepted set, in the order of X: line by line, channel by channel.

use crate::set::Set;
use crate::Trace;

/// A trace, with its line of X and its channel.
#[derive(Clone, Copy, Debug, PartialEq, Eq)]
pub struct Row {
    pub x_line: u32,
    pub channel: u16,
    pub trace: Trace,
}

impl Row {
    /// The sixteen bytes that a C host gets: three numbers of four bytes, the low one first, two
    /// bytes, and two of 0.
    pub fn place(&self) -> [u8; 16] {
        let Row { x_line, channel, trace } = *self;
        let mut place = [0; 16];
        let numbers = [x_line, channel.into(), trace.r_line.into()];
        for (bytes, number) in place.chunks_exact_mut(4).zip(numbers) {
            bytes.copy_from_slice(&number.to_le_bytes());
        }
        place[12] = trace.component;
        place[13] = trace.killed.into();
        place
    }
}

impl Set {
    /// Each channel of each relation line, looked up.
    pub fn rows(&self) -> impl Iterator<Item = Row> + '_ {
        self.x.numbered().flat_map(move |(x_line, relation)| {
            let channels = relation.from_channel..=relation.to_channel;
            channels.filter_map(move |channel| {
                let trace = self.receiver_of(relation, channel)?;
                Some(Row { x_line, channel, trace })
            })
        })
    }
}
