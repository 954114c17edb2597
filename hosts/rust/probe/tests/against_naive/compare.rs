//! One line, both readers: the fault, and every value where there is none.

use naive::{read_point, read_relation, Fault, File, Marker, Place, PointLine};
use probe::{Point, Refusal, Relation, State};
use small_sets::Line;

/// What a line holds.
enum Values {
    Header,
    Point(PointLine),
    Relation(naive::Relation),
}

/// Holds the readers together on a line of a file, and returns what they agree on.
pub fn compare(file: File, line: Line) -> Result<(), Fault> {
    let Line(line) = line;
    let shown = format!("{file:?} {}", line.escape_ascii());
    let read = read(file, &line);
    let refusal = read.as_ref().err().map(|fault| Refusal {
        number: fault.number.into(),
        file: file as u64 + 1,
        line: 1,
        column: fault.column.into(),
    });
    assert_eq!(probe::refusal(&line, file as u8 + 1), refusal, "{shown}");
    match read? {
        Values::Header => {}
        Values::Point(PointLine::Live(values)) => {
            assert_eq!(probe::point(&line), point(values, State::Live), "{shown}");
        }
        Values::Point(PointLine::Killed(values)) => {
            assert_eq!(probe::point(&line), point(values, State::Killed), "{shown}");
        }
        Values::Point(PointLine::Marker(values)) => {
            let found = probe::point(&line);
            assert_eq!(found, marker(values, found), "{shown}");
        }
        Values::Relation(values) => {
            assert_eq!(probe::relation(&line), relation(values), "{shown}");
        }
    }
    Ok(())
}

fn read(file: File, line: &[u8; 80]) -> Result<Values, Fault> {
    match file {
        _ if line[0] == b'H' => header(line).map(|()| Values::Header),
        File::R | File::S => read_point(file, line).map(Values::Point),
        File::X => read_relation(line).map(Values::Relation),
    }
}

/// "Header: columns 2-3 two digits (a field), column 4 blank or a digit (a field)."
fn header(line: &[u8; 80]) -> Result<(), Fault> {
    let digits = |columns: &[u8]| columns.iter().all(u8::is_ascii_digit);
    if !digits(&line[1..3]) {
        return Err(Fault { number: 5, column: 2 });
    }
    if line[3] != b' ' && !digits(&line[3..4]) {
        return Err(Fault { number: 5, column: 4 });
    }
    Ok(())
}

/// Bytes as one number, high byte first.
fn packed(bytes: &[u8]) -> u64 {
    bytes.iter().fold(0, |number, &byte| number << 8 | u64::from(byte))
}

fn name(bytes: [u8; 16]) -> [u64; 2] {
    [packed(&bytes[..8]), packed(&bytes[8..])]
}

fn point(values: naive::Point, state: State) -> Point {
    let Place { name: bytes, number, index } = values.place;
    Point {
        name: name(bytes),
        number: number.into(),
        index: index.into(),
        code: packed(&values.code),
        state,
        static_correction: values.static_correction,
        depth: values.depth,
        datum: values.datum,
        uphole: values.uphole,
        water_depth: values.water_depth,
        easting: values.easting,
        northing: values.northing,
        elevation: values.elevation,
        day: values.day.into(),
        time: values.time.into(),
    }
}

/// A marker; what stands for its free columns is as it was found.
fn marker(values: Marker, found: Point) -> Point {
    Point {
        name: name(values.name),
        index: values.index.into(),
        code: packed(b"PM"),
        state: State::Marker,
        easting: values.easting,
        northing: values.northing,
        elevation: values.elevation,
        ..found
    }
}

fn relation(values: naive::Relation) -> Relation {
    let Place { name: bytes, number, index } = values.source;
    Relation {
        tape: packed(&values.tape),
        record: values.record.into(),
        record_increment: values.record_increment.into(),
        instrument: values.instrument.into(),
        source_name: name(bytes),
        source: number.into(),
        source_index: index.into(),
        from_channel: values.from_channel.into(),
        to_channel: values.to_channel.into(),
        channel_increment: values.channel_increment.into(),
        receiver_name: name(values.receiver_name),
        from_receiver: values.from_receiver.into(),
        to_receiver: values.to_receiver.into(),
        receiver_index: values.receiver_index.into(),
    }
}
