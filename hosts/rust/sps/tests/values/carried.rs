//! Values in the sixteen places in which a host has them, and with the wrapper's names.

use crate::wrapped;
use naive::{PointValues, RelationValues};
use small_sets::File;
use sps::{Point, PointState, Relation};

/// The numbers of the places.
pub type Numbers = [u64; 16];

/// What stands for an absent value.
pub const ABSENT: i64 = i64::MIN;

/// The places of a marker that are free text.
pub const FREE: [usize; 8] = [2, 6, 7, 8, 9, 10, 14, 15];

/// The places as a host lends them.
pub fn bytes_of(numbers: Numbers) -> Vec<u8> {
    numbers.iter().flat_map(|number| number.to_le_bytes()).collect()
}

/// Bytes as one number, the high byte first.
pub fn packed(bytes: &[u8]) -> u64 {
    bytes.iter().fold(0, |number, &byte| number << 8 | u64::from(byte))
}

pub fn of_point(values: &PointValues) -> Numbers {
    let signed = |value: i64| value as u64;
    let held = |value: Option<i64>| signed(value.unwrap_or(ABSENT));
    [
        packed(&values.name[..8]),
        packed(&values.name[8..]),
        values.number,
        values.index,
        packed(&values.code),
        values.state,
        held(values.static_correction),
        signed(values.depth),
        signed(values.datum),
        held(values.uphole),
        held(values.water_depth),
        signed(values.easting),
        signed(values.northing),
        signed(values.elevation),
        values.day,
        values.time,
    ]
}

pub fn of_relation(values: &RelationValues) -> Numbers {
    [
        packed(&values.tape),
        values.record,
        values.record_increment,
        values.instrument,
        packed(&values.source_name[..8]),
        packed(&values.source_name[8..]),
        values.source_number,
        values.source_index,
        values.from_channel,
        values.to_channel,
        values.channel_increment,
        packed(&values.receiver_name[..8]),
        packed(&values.receiver_name[8..]),
        values.from_receiver,
        values.to_receiver,
        values.receiver_index,
    ]
}

/// The file and the point of values whose letter and state have a name.
pub fn point(values: &PointValues) -> Option<(sps::File, Point)> {
    let state = match values.state {
        PointValues::LIVE => PointState::Live,
        PointValues::KILLED => PointState::Killed,
        PointValues::MARKER => PointState::Marker,
        _ => return None,
    };
    let point = Point {
        name: values.name,
        number: values.number,
        index: values.index,
        code: values.code,
        state,
        static_correction: values.static_correction,
        depth: values.depth,
        datum: values.datum,
        uphole: values.uphole,
        water_depth: values.water_depth,
        easting: values.easting,
        northing: values.northing,
        elevation: values.elevation,
        day: values.day,
        time: values.time,
    };
    Some((wrapped::file(File::of_kind(values.letter)?), point))
}

pub fn relation(values: &RelationValues) -> Relation {
    Relation {
        tape: values.tape,
        record: values.record,
        record_increment: values.record_increment,
        instrument: values.instrument,
        source_name: values.source_name,
        source_number: values.source_number,
        source_index: values.source_index,
        from_channel: values.from_channel,
        to_channel: values.to_channel,
        channel_increment: values.channel_increment,
        receiver_name: values.receiver_name,
        from_receiver: values.from_receiver,
        to_receiver: values.to_receiver,
        receiver_index: values.receiver_index,
    }
}
