//! A line of X: its fields (5), whether they agree (6), and what it covers.

use crate::fields::field;
use crate::{Fault, Line, Place};
use std::ops::RangeInclusive;

/// The relation between the channels of a record and receivers.
#[derive(Clone, Copy, Debug, PartialEq, Eq)]
pub struct Relation {
    pub tape: [u8; 6],
    pub record: u16,
    pub record_increment: u8,
    pub instrument: u8,
    pub source: Place,
    pub from_channel: u16,
    pub to_channel: u16,
    pub channel_increment: u8,
    pub receiver_name: [u8; 16],
    pub from_receiver: u32,
    pub to_receiver: u32,
    pub receiver_index: u8,
}

/// Reads a line field by field from the left, then holds its numbers together.
pub fn read(line: &Line) -> Result<Relation, Fault> {
    let relation = fields(line)?;
    match relation.disagreement() {
        Some(column) => Err(Fault { number: 6, column }),
        None => Ok(relation),
    }
}

fn fields(line: &Line) -> Result<Relation, Fault> {
    let at = |first, last| field(line, first, last);
    Ok(Relation {
        tape: at(2, 7).name()?,
        record: at(8, 11).whole(0..=9999)? as u16,
        record_increment: at(12, 12).one_to_nine()?,
        instrument: at(13, 13).one_to_nine()?,
        source: Place {
            name: at(14, 29).name()?,
            number: at(30, 37).point()?,
            index: at(38, 38).one_to_nine()?,
        },
        from_channel: at(39, 42).whole(1..=9999)? as u16,
        to_channel: at(43, 46).whole(1..=9999)? as u16,
        channel_increment: at(47, 47).one_to_nine()?,
        receiver_name: at(48, 63).name()?,
        from_receiver: at(64, 71).point()?,
        to_receiver: at(72, 79).point()?,
        receiver_index: at(80, 80).one_to_nine()?,
    })
}

impl Relation {
    /// The column that 6 names, if any, in the order in which they are tried.
    fn disagreement(&self) -> Option<u8> {
        if self.from_channel > self.to_channel {
            return Some(39);
        }
        let channels = u32::from(self.to_channel - self.from_channel) + 1;
        let increment = u32::from(self.channel_increment);
        if channels % increment != 0 {
            return Some(47);
        }
        let receivers = self.from_receiver.abs_diff(self.to_receiver) + 1;
        (channels / increment != receivers).then_some(72)
    }

    /// The number of its traces.
    pub(crate) fn traces(&self) -> u64 {
        u64::from(self.to_channel - self.from_channel) + 1
    }

    /// Tape and record.
    pub(crate) fn record(&self) -> ([u8; 6], u16) {
        (self.tape, self.record)
    }

    /// Whether its receivers are counted downwards.
    fn descends(&self) -> bool {
        self.from_receiver > self.to_receiver
    }

    /// The numbers of the receivers it covers, whichever way they are counted.
    fn numbers(&self) -> RangeInclusive<u32> {
        if self.descends() {
            self.to_receiver..=self.from_receiver
        } else {
            self.from_receiver..=self.to_receiver
        }
    }

    /// The receivers it covers.
    pub(crate) fn covered(&self) -> impl Iterator<Item = Place> + '_ {
        self.numbers().map(|number| self.receiver(number))
    }

    /// The receiver and component that a channel leads to.
    pub(crate) fn leads_to(&self, channel: u16) -> Option<(Place, u8)> {
        if channel < self.from_channel || channel > self.to_channel {
            return None;
        }
        let step = channel - self.from_channel;
        let increment = u16::from(self.channel_increment);
        let receivers = u32::from(step / increment);
        let number = if self.descends() {
            self.from_receiver - receivers
        } else {
            self.from_receiver + receivers
        };
        Some((self.receiver(number), (step % increment) as u8 + 1))
    }

    /// The channel that leads to a receiver and component.
    pub(crate) fn channel_of(&self, receiver: Place, component: u8) -> Option<u16> {
        let inside = self.numbers().contains(&receiver.number);
        if !inside || receiver != self.receiver(receiver.number) {
            return None;
        }
        if component > self.channel_increment {
            return None;
        }
        let receivers = self.from_receiver.abs_diff(receiver.number) as u16;
        let step = receivers * u16::from(self.channel_increment) + u16::from(component) - 1;
        Some(self.from_channel + step)
    }

    fn receiver(&self, number: u32) -> Place {
        Place { name: self.receiver_name, number, index: self.receiver_index }
    }
}
