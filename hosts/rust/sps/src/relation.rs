//! The values of a line of X: read, and written.

use crate::places::{self, name, numbers_of_name, Numbers};
use crate::{archive, Medium, Refusal};

/// The values of a line of X.
///
/// ```
/// # use sps::{read_relation, Medium::Disc};
/// # let mut x = std::fs::read("../../../examples/set_a/set.x01")?;
/// let mut relation = read_relation(Disc, &x, 25)?;
/// assert_eq!((&relation.tape, relation.record), (b"100   ", 11));
/// (relation.from_receiver, relation.to_receiver) = (103, 101);
/// relation.write(&mut x[24 * 82..])?;
/// assert_eq!(&x[24 * 82..][63..79], b"     103     101");
/// # Ok::<(), Box<dyn std::error::Error>>(())
/// ```
#[derive(Clone, Copy, Debug, PartialEq, Eq, Hash)]
pub struct Relation {
    /// The tape with its blanks: bytes 32 to 126, the first no blank.
    pub tape: [u8; 6],
    /// The field record, 0 to 9,999.
    pub record: u64,
    /// The record increment, 1 to 9.
    pub record_increment: u64,
    /// The instrument, 1 to 9.
    pub instrument: u64,
    /// The line name of the shot, as that of a point.
    pub source_name: [u8; 16],
    /// Its point number, 0 to 99,999,999.
    pub source_number: u64,
    /// Its index, 1 to 9.
    pub source_index: u64,
    /// The first channel, 1 to 9,999.
    pub from_channel: u64,
    /// The last channel, 1 to 9,999.
    pub to_channel: u64,
    /// How many channels a receiver has, 1 to 9.
    pub channel_increment: u64,
    /// The line name of the receivers, as that of a point.
    pub receiver_name: [u8; 16],
    /// The receiver of the first channel, 0 to 99,999,999.
    pub from_receiver: u64,
    /// The receiver of the last channel, below the other where they descend.
    pub to_receiver: u64,
    /// The index of the receivers, 1 to 9.
    pub receiver_index: u64,
}

/// Reads a line of X, from 1, by itself: other lines of the file are not looked at. A line that
/// is not there and a header line are refused first (20), then 3 to 6 of the line.
///
/// ```
/// # use sps::{read_relation, Medium::Disc, Number};
/// # let x = std::fs::read("../../../examples/odd_channel/set.x01")?;
/// assert_eq!(read_relation(Disc, &x, 25).unwrap_err().to_string(), "REFUSED 6 X 25 72");
/// assert_eq!(read_relation(Disc, &x, 26).unwrap_err().number, Number::QuestionRange);
/// # Ok::<(), std::io::Error>(())
/// ```
pub fn read_relation(medium: Medium, x: &[u8], line: u64) -> Result<Relation, Refusal> {
    let read = |values: &mut [u8]| archive::read_relation(medium.number(), x, line, values);
    Ok(Relation::of(places::read(read)?.1))
}

impl Relation {
    /// Writes the relation over the first 82 bytes of a slice, as a line of X with CR and LF;
    /// later bytes stay. Values that no line has, those that break 6 among them, are refused first
    /// (22), then a slice that is too short (23); a refusal writes nothing.
    ///
    /// ```
    /// # use sps::{read_relation, Medium::Disc, Number, Relation};
    /// # let x = std::fs::read("../../../examples/set_a/set.x01")?;
    /// let relation = read_relation(Disc, &x, 25)?;
    /// let mut line = [0; 82];
    /// relation.write(&mut line)?;
    /// assert_eq!(line, x[24 * 82..][..82]);
    /// let apart = Relation { to_channel: 4, ..relation };
    /// assert_eq!(apart.write(&mut line).unwrap_err().number, Number::ValueRange);
    /// # Ok::<(), Box<dyn std::error::Error>>(())
    /// ```
    pub fn write(&self, line: &mut [u8]) -> Result<(), Refusal> {
        places::write(self.numbers(), |values| archive::write_relation(values, line))
    }

    fn of(numbers: Numbers) -> Relation {
        let [tape, record, record_increment, instrument, rest @ ..] = numbers;
        let [source_high, source_low, source_number, source_index, rest @ ..] = rest;
        let [from_channel, to_channel, channel_increment, rest @ ..] = rest;
        let [receiver_high, receiver_low, from_receiver, to_receiver, receiver_index] = rest;
        let [_, _, tape @ ..] = tape.to_be_bytes();
        Relation {
            tape,
            record,
            record_increment,
            instrument,
            source_name: name(source_high, source_low),
            source_number,
            source_index,
            from_channel,
            to_channel,
            channel_increment,
            receiver_name: name(receiver_high, receiver_low),
            from_receiver,
            to_receiver,
            receiver_index,
        }
    }

    fn numbers(&self) -> Numbers {
        let [source_high, source_low] = numbers_of_name(self.source_name);
        let [receiver_high, receiver_low] = numbers_of_name(self.receiver_name);
        let [a, b, c, d, e, f] = self.tape;
        [
            u64::from_be_bytes([0, 0, a, b, c, d, e, f]),
            self.record,
            self.record_increment,
            self.instrument,
            source_high,
            source_low,
            self.source_number,
            self.source_index,
            self.from_channel,
            self.to_channel,
            self.channel_increment,
            receiver_high,
            receiver_low,
            self.from_receiver,
            self.to_receiver,
            self.receiver_index,
        ]
    }
}
