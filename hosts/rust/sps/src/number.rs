//! The refusal numbers of the paper, by name.

use std::fmt;

/// What a set, a question or a line to write is refused for, in the paper's order. Shown, it is
/// the paper's reason in words.
///
/// ```
/// # use sps::Number;
/// assert_eq!(Number::ShotNotNamed.code(), 15);
/// assert_eq!(Number::of(15), Number::ShotNotNamed);
/// assert_eq!(Number::ShotNotNamed.to_string(), "no relation line names this shot");
/// ```
#[derive(Clone, Copy, Debug, PartialEq, Eq, Hash)]
#[non_exhaustive]
pub enum Number {
    /// 1: the file's length is no multiple of 82, on tape of 80.
    FileLength,
    /// 2: more than 9,999 lines, on tape with the EOF record.
    TooManyLines,
    /// 3: a byte that is not taken, or no CR or LF at 81, 82 of a disc.
    Byte,
    /// 4: column 1 is not H or the file's letter, or H stands after data.
    Letter,
    /// 5: a field breaks its rule; the column is its first.
    Field,
    /// 6: the channels of a relation line are crossed, or do not fit its receivers.
    Channels,
    /// 7: R's header lacks one of the types 00 to 20.
    HeaderType,
    /// 8: an H18 that holds nothing, or N/A.
    H18,
    /// 9: the header of S or X differs from R's.
    HeaderDiffers,
    /// 10: a receiver is not above the one before it, in the medium's own bytes.
    ReceiverOrder,
    /// 11: a shot is earlier than the one before it.
    ShotEarlier,
    /// 12: a shot repeats an earlier one.
    ShotRepeated,
    /// 13: no shot is the relation line's source, or a killed one is.
    NoShot,
    /// 14: its shot stands in S before that of the previous relation line.
    ShotOrder,
    /// 15: no relation line names a shot that is not killed.
    ShotNotNamed,
    /// 16: the lines of a record do not stand together, or differ.
    Record,
    /// 17: the channels of a record do not ascend.
    ChannelOrder,
    /// 18: a covered receiver is not there.
    NoReceiver,
    /// 19: a receiver is covered twice in a record.
    CoveredTwice,
    /// 20: a medium, a kind of file, a line or a question is out of range.
    QuestionRange,
    /// 21: a slice of the spread table is too short, or a buffer has no room for a row.
    SliceLength,
    /// 22: values that no line has, or a marker's.
    ValueRange,
    /// 23: the slice for a line is shorter than 82 bytes.
    LineLength,
    /// 24: a first record of a code table names a code that an earlier one names.
    CodeNamedTwice,
    /// 25: a code or an instrument is used that no first record names.
    CodeNotNamed,
    /// 29: no EOF record ends the tape, or records follow the first.
    TapeEnd,
    /// No number of the paper; the calls are proved to give none.
    Unknown(u64),
}

use Number::*;

impl Number {
    /// The numbers of the paper, 1 to 25 and 29.
    ///
    /// ```
    /// # use sps::Number;
    /// let numbers = Number::ALL.iter().map(|number| number.code());
    /// assert!(numbers.eq((1..=25).chain([29])));
    /// ```
    pub const ALL: [Number; 26] = [
        FileLength,
        TooManyLines,
        Byte,
        Letter,
        Field,
        Channels,
        HeaderType,
        H18,
        HeaderDiffers,
        ReceiverOrder,
        ShotEarlier,
        ShotRepeated,
        NoShot,
        ShotOrder,
        ShotNotNamed,
        Record,
        ChannelOrder,
        NoReceiver,
        CoveredTwice,
        QuestionRange,
        SliceLength,
        ValueRange,
        LineLength,
        CodeNamedTwice,
        CodeNotNamed,
        TapeEnd,
    ];

    /// The number as the paper has it.
    ///
    /// ```
    /// # use sps::Number;
    /// assert_eq!(Number::CoveredTwice.code(), 19);
    /// ```
    pub fn code(self) -> u64 {
        match self {
            FileLength => 1,
            TooManyLines => 2,
            Byte => 3,
            Letter => 4,
            Field => 5,
            Channels => 6,
            HeaderType => 7,
            H18 => 8,
            HeaderDiffers => 9,
            ReceiverOrder => 10,
            ShotEarlier => 11,
            ShotRepeated => 12,
            NoShot => 13,
            ShotOrder => 14,
            ShotNotNamed => 15,
            Record => 16,
            ChannelOrder => 17,
            NoReceiver => 18,
            CoveredTwice => 19,
            QuestionRange => 20,
            SliceLength => 21,
            ValueRange => 22,
            LineLength => 23,
            CodeNamedTwice => 24,
            CodeNotNamed => 25,
            TapeEnd => 29,
            Unknown(code) => code,
        }
    }

    /// The name of a number.
    ///
    /// ```
    /// # use sps::Number;
    /// assert_eq!(Number::of(3), Number::Byte);
    /// assert_eq!(Number::of(26), Number::Unknown(26));
    /// ```
    pub fn of(code: u64) -> Number {
        let named = Number::ALL.into_iter().find(|number| number.code() == code);
        named.unwrap_or(Unknown(code))
    }

    /// What the paper says of a number.
    fn words(self) -> &'static str {
        match self {
            FileLength => {
                "the length of the file is no multiple of a line's: 82 bytes on disc, with CR and \
                 LF, 80 on tape"
            }
            TooManyLines => {
                "the file has more than 9,999 lines; on tape the EOF record is one of them"
            }
            Byte => {
                "a byte is outside its range: on disc 32 to 126 in columns 1 to 80, CR in column \
                 81, LF in column 82; on tape, in code page 037, a blank, a letter, a digit or one \
                 of . , ; : ( ) - + / & ' % * = ? _ < >"
            }
            Letter => "column 1 is not H or the file's own letter, or an H line stands after data",
            Field => "a field breaks its rule",
            Channels => {
                "the from channel is above the to channel (column 39), the number of channels is \
                 no multiple of the channel increment (47), or does not lead to as many receivers \
                 as are named, counted up or down (72)"
            }
            HeaderType => "the header of R lacks one of the types H00 to H20",
            H18 => "an H18 line says nothing, or N/A, in columns 33 to 80 before a semicolon",
            HeaderDiffers => "the header differs from that of R",
            ReceiverOrder => {
                "a receiver is not above the receiver line before it, by line name, point number \
                 and index; on tape letters come before digits"
            }
            ShotEarlier => "a shot is earlier, by day then time, than the shot line before it",
            ShotRepeated => "a shot repeats an earlier shot's line name, point number and index",
            NoShot => {
                "no shot has the source line name, point and index of the relation line, or the \
                 shot that has them is killed"
            }
            ShotOrder => {
                "the shot of the relation line stands in S before that of the previous relation \
                 line"
            }
            ShotNotNamed => "no relation line names this shot",
            Record => {
                "an earlier relation line has the same tape and record, and the line just before \
                 has not; or it has, and differs in source, record increment or instrument"
            }
            ChannelOrder => {
                "the line just before has the same tape and record, and the from channel is not \
                 above its to channel"
            }
            NoReceiver => "a covered receiver number has no receiver of that line name and index",
            CoveredTwice => {
                "a covered receiver is covered by an earlier line of the same tape and record"
            }
            QuestionRange => {
                "the question is out of range: a medium is disc or tape, a file is R, S or X, \
                 a tape name is 6 columns of bytes 32 to 126 that start with a non-blank, a record \
                 is at most 9999, a channel and an R line are 1 to 9999, a component is 1 to 9, \
                 a code is that of a receiver, a source or an instrument, as is asked, and not PM \
                 or KL, a line to read is one of the file, and no header line"
            }
            SliceLength => {
                "a slice of the spread table is shorter than the record's highest channel, or a \
                 buffer for rows is shorter than a row, 16 bytes"
            }
            ValueRange => {
                "no line has these values: a marker is not written, a name or a tape is bytes 32 \
                 to 126 that start with a non-blank, a code is one of the file with its state, a \
                 number is within its rule and its columns, channels fit their receivers"
            }
            LineLength => "the slice for a line is shorter than 82 bytes",
            CodeNamedTwice => {
                "the first record of a code table names a code, in columns 33 and 34, that the \
                 first record of an earlier one names"
            }
            CodeNotNamed => {
                "no first record of a code table in the header of R names this code: H600, H610 to \
                 H690 name receivers, H700, H720 to H880 sources, H400, H420 to H560 instruments"
            }
            TapeEnd => "no EOF record ends the tape, or records follow the first one",
            Unknown(_) => "no number of the paper",
        }
    }
}

impl fmt::Display for Number {
    fn fmt(&self, f: &mut fmt::Formatter) -> fmt::Result {
        f.write_str(self.words())
    }
}
