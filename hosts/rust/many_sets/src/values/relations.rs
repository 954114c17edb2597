//! The values of relations.

use super::rules::{Rule::Range, BYTES};
use super::{name, NameField, NumberField, Spoil, Values};
use crate::lines::agreeing;
use naive::RelationValues;
use small_sets::Random;

impl Values for RelationValues {
    const NUMBERS: &'static [NumberField<Self>] = &[
        ("field record", Range(0, 9_999), |values, number| values.record = number as u64),
        ("record increment", Range(1, 9), |values, number| {
            values.record_increment = number as u64;
        }),
        ("instrument", Range(1, 9), |values, number| values.instrument = number as u64),
        ("source point", Range(0, 99_999_999), |values, number| {
            values.source_number = number as u64;
        }),
        ("source index", Range(1, 9), |values, number| values.source_index = number as u64),
        ("from channel", Range(1, 9_999), |values, number| {
            put_both(number, &mut values.from_channel, &mut values.to_channel);
        }),
        ("to channel", Range(1, 9_999), |values, number| {
            put_both(number, &mut values.to_channel, &mut values.from_channel);
        }),
        ("channel increment", Range(1, 9), put_increment),
        ("from receiver", Range(0, 99_999_999), |values, number| {
            put_both(number, &mut values.from_receiver, &mut values.to_receiver);
        }),
        ("to receiver", Range(0, 99_999_999), |values, number| {
            put_both(number, &mut values.to_receiver, &mut values.from_receiver);
        }),
        ("receiver index", Range(1, 9), |values, number| values.receiver_index = number as u64),
    ];

    const NAMES: &'static [NameField<Self>] = &[
        ("tape", |values| &mut values.tape),
        ("source line name", |values| &mut values.source_name),
        ("receiver line name", |values| &mut values.receiver_name),
    ];

    const SPOILS: &'static [Spoil<Self>] = &[("channels and receivers", disagree)];

    fn legal(random: &mut Random) -> Self {
        let mut values = RelationValues::least(random);
        for (_, rule, put) in Self::NUMBERS {
            put(&mut values, rule.any(random));
        }
        let components = 1 + random.below(9);
        let (channels, receivers) = agreeing(random, components);
        values.channel_increment = components as u64;
        [values.from_channel, values.to_channel] = channels.map(|channel| channel as u64);
        [values.from_receiver, values.to_receiver] = receivers.map(|receiver| receiver as u64);
        values
    }

    /// One channel of one receiver.
    fn least(random: &mut Random) -> Self {
        RelationValues {
            tape: name(random),
            record: 0,
            record_increment: 1,
            instrument: 1,
            source_name: name(random),
            source_number: 0,
            source_index: 1,
            from_channel: 1,
            to_channel: 1,
            channel_increment: 1,
            receiver_name: name(random),
            from_receiver: 0,
            to_receiver: 0,
            receiver_index: 1,
        }
    }

    /// 6, and the ranges of the numbers that it holds together.
    fn agree(&self) -> bool {
        let receivers = u128::from(self.from_receiver.abs_diff(self.to_receiver)) + 1;
        let traces = receivers * u128::from(self.channel_increment);
        (1..=9).contains(&self.channel_increment)
            && (1..=self.to_channel).contains(&self.from_channel)
            && self.to_channel <= 9_999
            && self.from_receiver.max(self.to_receiver) <= 99_999_999
            && u128::from(self.from_channel) + traces == u128::from(self.to_channel) + 1
    }
}

/// Puts a number in one place, and moves that of the other by as much.
fn put_both(number: i64, one: &mut u64, other: &mut u64) {
    *other = other.wrapping_add((number as u64).wrapping_sub(*one));
    *one = number as u64;
}

/// As many receivers with another number of components.
fn put_increment(values: &mut RelationValues, number: i64) {
    let receivers = values.from_receiver.abs_diff(values.to_receiver).wrapping_add(1);
    let traces = receivers.wrapping_mul(number as u64);
    values.channel_increment = number as u64;
    values.to_channel = values.from_channel.wrapping_add(traces).wrapping_sub(1);
}

/// Breaks 6 with numbers that are in range, or with one whose low bytes alone agree.
fn disagree(random: &mut Random, values: &mut RelationValues) {
    let agreed = *values;
    while values.agree() {
        *values = agreed;
        match random.below(5) {
            0 => std::mem::swap(&mut values.from_channel, &mut values.to_channel),
            1 => values.to_channel = 1 + random.below(9_999) as u64,
            2 => values.channel_increment = 1 + random.below(9) as u64,
            3 => values.to_receiver = (values.to_receiver + random.pick(&[1, 2])) % 100_000_000,
            _ => *held_together(values)[random.below(5)] += random.pick(&BYTES) as u64,
        }
    }
}

/// The numbers that 6 is about.
fn held_together(values: &mut RelationValues) -> [&mut u64; 5] {
    [
        &mut values.from_channel,
        &mut values.to_channel,
        &mut values.channel_increment,
        &mut values.from_receiver,
        &mut values.to_receiver,
    ]
}
