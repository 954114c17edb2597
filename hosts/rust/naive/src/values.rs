//! The values that a line is written from, in numbers wide enough for wrong ones too.

use crate::{File, Marker, Place, Point, PointLine, Relation};

/// The values of a line of R or S. Depth, water depth, coordinates and elevation are in
/// tenths, the time is hhmmss as one number.
#[derive(Clone, Copy, Debug, PartialEq, Eq)]
pub struct PointValues {
    /// The byte of R or S.
    pub letter: u64,
    /// `LIVE`, `KILLED` or `MARKER`.
    pub state: u64,
    pub name: [u8; 16],
    pub number: u64,
    pub index: u64,
    pub code: [u8; 2],
    pub static_correction: Option<i64>,
    pub depth: i64,
    pub datum: i64,
    pub uphole: Option<i64>,
    pub water_depth: Option<i64>,
    pub easting: i64,
    pub northing: i64,
    pub elevation: i64,
    pub day: u64,
    pub time: u64,
}

/// The values of a line of X.
#[derive(Clone, Copy, Debug, PartialEq, Eq)]
pub struct RelationValues {
    pub tape: [u8; 6],
    pub record: u64,
    pub record_increment: u64,
    pub instrument: u64,
    pub source_name: [u8; 16],
    pub source_number: u64,
    pub source_index: u64,
    pub from_channel: u64,
    pub to_channel: u64,
    pub channel_increment: u64,
    pub receiver_name: [u8; 16],
    pub from_receiver: u64,
    pub to_receiver: u64,
    pub receiver_index: u64,
}

impl PointValues {
    pub const LIVE: u64 = 0;
    pub const KILLED: u64 = 1;
    pub const MARKER: u64 = 2;

    /// The values of a line as it is read; what a marker does not have is absent or 0.
    pub fn of(file: File, read: &PointLine) -> PointValues {
        match read {
            PointLine::Live(point) => of_point(file, Self::LIVE, point),
            PointLine::Killed(point) => of_point(file, Self::KILLED, point),
            PointLine::Marker(marker) => of_marker(file, marker),
        }
    }
}

fn of_point(file: File, state: u64, point: &Point) -> PointValues {
    let Place { name, number, index } = point.place;
    PointValues {
        letter: file.letter().into(),
        state,
        name,
        number: number.into(),
        index: index.into(),
        code: point.code,
        static_correction: point.static_correction,
        depth: point.depth,
        datum: point.datum,
        uphole: point.uphole,
        water_depth: point.water_depth,
        easting: point.easting,
        northing: point.northing,
        elevation: point.elevation,
        day: point.day.into(),
        time: point.time.into(),
    }
}

fn of_marker(file: File, marker: &Marker) -> PointValues {
    let Marker { name, index, easting, northing, elevation } = *marker;
    let point = Point {
        place: Place { name, number: 0, index },
        code: *b"PM",
        static_correction: None,
        depth: 0,
        datum: 0,
        uphole: None,
        water_depth: None,
        easting,
        northing,
        elevation,
        day: 0,
        time: 0,
    };
    of_point(file, PointValues::MARKER, &point)
}

impl From<&Relation> for RelationValues {
    fn from(relation: &Relation) -> RelationValues {
        let Place { name, number, index } = relation.source;
        RelationValues {
            tape: relation.tape,
            record: relation.record.into(),
            record_increment: relation.record_increment.into(),
            instrument: relation.instrument.into(),
            source_name: name,
            source_number: number.into(),
            source_index: index.into(),
            from_channel: relation.from_channel.into(),
            to_channel: relation.to_channel.into(),
            channel_increment: relation.channel_increment.into(),
            receiver_name: relation.receiver_name,
            from_receiver: relation.from_receiver.into(),
            to_receiver: relation.to_receiver.into(),
            receiver_index: relation.receiver_index.into(),
        }
    }
}
