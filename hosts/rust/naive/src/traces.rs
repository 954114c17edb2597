//! Questions of an accepted set: the lookup, the way back, the spread table.

use crate::fields::is_name;
use crate::set::{Set, Station};
use crate::{placeless, Refusal, Relation, Trace};
use std::ops::RangeInclusive;

/// A tape and record within their ranges.
pub type Asked = ([u8; 6], u16);

/// A number of a question within its range, or 20.
pub fn within(number: u64, range: RangeInclusive<u64>) -> Result<u16, Refusal> {
    if range.contains(&number) {
        Ok(number as u16)
    } else {
        Err(placeless(20))
    }
}

/// The tape and record of a question, or 20.
pub fn asked(tape: &[u8], record: u64) -> Result<Asked, Refusal> {
    let record = within(record, 0..=9999)?;
    match <[u8; 6]>::try_from(tape) {
        Ok(tape) if is_name(&tape) => Ok((tape, record)),
        _ => Err(placeless(20)),
    }
}

impl Set {
    /// The relation lines of a record.
    fn lines_of(&self, asked: Asked) -> impl Iterator<Item = &Relation> {
        self.x.data.iter().filter(move |r| r.record() == asked)
    }

    /// The receiver that a channel of one relation line leads to.
    pub fn receiver_of(&self, relation: &Relation, channel: u16) -> Option<Trace> {
        let (receiver, component) = relation.leads_to(channel)?;
        let Station { line, killed } = *self.receivers.get(&receiver)?;
        Some(Trace { r_line: line as u16, component, killed })
    }

    pub fn trace(&self, asked: Asked, channel: u16) -> Option<Trace> {
        self.lines_of(asked).find_map(|relation| self.receiver_of(relation, channel))
    }

    pub fn channel(&self, asked: Asked, r_line: u16, component: u16) -> Option<u16> {
        let r_line = u32::from(r_line);
        let (receiver, _) = self.receivers.iter().find(|(_, station)| station.line == r_line)?;
        self.lines_of(asked).find_map(|relation| relation.channel_of(*receiver, component as u8))
    }

    pub fn spread(
        &self,
        asked: Asked,
        lines: &mut [u16],
        components: &mut [u8],
    ) -> Result<u16, Refusal> {
        let highest = self.lines_of(asked).map(|r| r.to_channel).max();
        let highest = highest.unwrap_or(0);
        let places = usize::from(highest);
        if lines.len() < places || components.len() < places {
            return Err(placeless(21));
        }
        lines[..places].fill(0);
        components[..places].fill(0);
        for relation in self.lines_of(asked) {
            for channel in relation.from_channel..=relation.to_channel {
                if let Some(trace) = self.receiver_of(relation, channel) {
                    lines[usize::from(channel) - 1] = trace.r_line;
                    components[usize::from(channel) - 1] = trace.component;
                }
            }
        }
        Ok(highest)
    }
}
