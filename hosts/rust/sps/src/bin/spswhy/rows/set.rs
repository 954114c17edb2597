//! The words of 7 to 19, 24 and 25, the rules over the set.

use super::{row, Row};
use crate::words::Words;
use sps::Number::*;

pub const TYPE_MISSING: Words = Words("the header of R lacks one of the types H00 to H20");
pub const MISSING: Words = Words("missing: {types}");
pub const DOES_NOT_COUNT: Words = Words("line {line} is {header}, which does not count as {type}");

pub const NO_PROJECTION: Words = Words("an H18 line names no projection");
pub const PROJECTION: Words = Words(
    "columns 33 to 80: found {text}, which names no projection; needs a name, and not N/A, before \
     any semicolon",
);

pub const HEADER_DIFFERS: Words = Words("the header differs from that of R");
pub const COLUMN_OF_R: Words = Words("column {column}: found {character}; R has {character}");
pub const HEADER_ENDS: Words =
    Words("the header of {file} ends after {lines}; that of R has {lines}");
pub const HEADER_GOES_ON: Words =
    Words("the header of {file} has {lines}; that of R ends after {lines}");
pub const LINE_OF_R: Words = Words("the line of R");
pub const LACKING: Words = Words("the line of R that is lacking");
pub const NOT_IN_HEADER_OF_R: Words = Words("the line that R lacks");

pub const RECEIVER_ORDER: Words = Words(
    "a receiver is not above the receiver line before it, by line name, point number and index",
);
pub const NAME_BEFORE: Words = Words("{name} stands before {name}: names compare byte by byte");
pub const NAME_BEFORE_ON_TAPE: Words = Words(
    "{name} stands before {name}: names compare by the tape's own bytes, letters before digits",
);
pub const POINT_BELOW: Words = Words("point {point} is below {point} of line {line}");
pub const INDEX_BELOW: Words = Words("index {index} is below {index} of line {line}");
pub const THE_SAME: Words = Words("the same as line {line}");
pub const RECEIVER_BEFORE: Words = Words("the receiver line before it");

pub const SHOT_EARLIER: Words =
    Words("a shot is earlier, by day then time, than the shot line before it");
pub const EARLIER: Words =
    Words("day {day} time {time} is earlier than day {day} time {time} of line {line}");
pub const SHOT_BEFORE: Words = Words("the shot line before it");

pub const SHOT_REPEATED: Words =
    Words("a shot repeats an earlier shot's line name, point number and index");
pub const SHOT_AS: Words = Words("shot {shot} is the same as line {line}");
pub const REPEATED: Words = Words("the shot that it repeats");

pub const NO_SHOT: Words = Words("no shot is the source of the relation line");
pub const NOT_IN_S: Words = Words("shot {shot} is not in S");
pub const NEAREST: Words = Words("the nearest of that name: {shots}");
pub const S_HAS_INDEX: Words = Words("S has it with index {index}");
pub const S_HAS_KILLED: Words = Words("S has it with index {index}, killed");
pub const S_MARKER: Words = Words("S line {line} is a marker");
pub const NO_NAME_IN_S: Words = Words("S has no shot of that name; it has {names}");
pub const NEAR_SHOT: Words = Words("a near shot");
pub const S_MARKER_LINE: Words = Words("the marker");
pub const SHOT_KILLED: Words = Words("the source of the relation line is a killed shot");
pub const THAT_SHOT_KILLED: Words = Words("that shot is killed (S line {line})");
pub const KILLED: Words = Words("the killed shot");

pub const SHOT_ORDER: Words =
    Words("the shot of the relation line stands in S before that of the relation line before it");
pub const STANDS_BEFORE: Words =
    Words("shot {shot} is S line {line}; the line before names {shot}, S line {line}");
pub const RELATION_BEFORE: Words = Words("the relation line before it");

pub const SHOT_NOT_NAMED: Words = Words("no relation line names this shot");
pub const NOT_NAMED: Words = Words("shot {shot} needs a relation line");
pub const BEFORE_NAMED: Words =
    Words("the shot before it, S line {line}, is named by X line {line}");
pub const AFTER_NAMED: Words = Words("the shot after it, S line {line}, is named by X line {line}");
pub const AFTER_NOT_NAMED: Words = Words("the shot after it, S line {line}, is not named either");
pub const OF_BEFORE: Words = Words("the relation line of the shot before it");
pub const OF_AFTER: Words = Words("the relation line of the shot after it");

pub const RECORD_APART: Words = Words("the relation lines of a record do not stand together");
pub const APART: Words = Words(
    "line {line} is of tape {tape} record {record} too; line {line} between them is of tape {tape} \
     record {record}",
);
pub const EARLIER_OF_RECORD: Words = Words("the earlier line of that record");
pub const RECORD_DIFFERS: Words =
    Words("a relation line differs from the line before it, of the same tape and record");
pub const SOURCE_DIFFERS: Words = Words("source {shot}; line {line} has {shot}");
pub const RECORD_INCREMENT: Words =
    Words("record increment {increment}; line {line} has {increment}");
pub const INSTRUMENT: Words = Words("instrument {instrument}; line {line} has {instrument}");
pub const BEFORE_OF_RECORD: Words = Words("the line before it, of the same tape and record");

pub const CHANNEL_ORDER: Words =
    Words("the channels do not go on above those of the line before, of the same tape and record");
pub const NOT_ABOVE: Words =
    Words("from channel {channel} is not above to channel {channel} of line {line}");

pub const NO_RECEIVER: Words = Words("a covered receiver is not in R");
pub const NOT_IN_R: Words =
    Words("receiver {receiver} is not in R; this line covers {from} to {to}");
pub const R_MARKER: Words = Words("R line {line} is a marker");
pub const R_HAS_INDEX: Words = Words("R has it with index {index}");
pub const NO_NAME_IN_R: Words = Words("R has no receiver of that name; it has {names}");
pub const NEAR_RECEIVER: Words = Words("the line of R with that name and number");

pub const COVERED_TWICE: Words =
    Words("a covered receiver is covered by an earlier line of the same tape and record");
pub const COVERED: Words = Words(
    "receiver {receiver} is covered by channel {channel} of this line, and by channel {channel} of \
     line {line}",
);
pub const COVERS: Words = Words("the line that covers it before");

pub const NAMED_TWICE: Words = Words("a code table names a code that an earlier one names");
pub const NAMED_BEFORE: Words = Words("line {line}, {header}, names {code} before it");
pub const FIRST_NAME: Words = Words("the line that names it first");

pub const CODE_NOT_NAMED: Words = Words("no code table in the header of R names this code");
pub const THESE_NAMED: Words = Words("found {code}; the header names these {kind}:");
pub const NONE_NAMED: Words = Words("found {code}; the header names no {kind}");
pub const TABLES: Words = Words("{kind} are named in columns 33 and 34 of {headers}");
pub const TABLES_OF_X: Words =
    Words("{kind} are named by a digit in column 33 and a comma in column 34 of {headers}");
pub const NAMED: Words = Words("{code}  line {line}, {header}");

pub const ROWS: [Row; 17] = [
    row(HeaderType, TYPE_MISSING, &[MISSING, DOES_NOT_COUNT], &[]),
    row(H18, NO_PROJECTION, &[PROJECTION], &[]),
    row(
        HeaderDiffers,
        HEADER_DIFFERS,
        &[COLUMN_OF_R, HEADER_ENDS, HEADER_GOES_ON],
        &[LINE_OF_R, LACKING, NOT_IN_HEADER_OF_R],
    ),
    row(
        ReceiverOrder,
        RECEIVER_ORDER,
        &[NAME_BEFORE, NAME_BEFORE_ON_TAPE, POINT_BELOW, INDEX_BELOW, THE_SAME],
        &[RECEIVER_BEFORE],
    ),
    row(ShotEarlier, SHOT_EARLIER, &[EARLIER], &[SHOT_BEFORE]),
    row(ShotRepeated, SHOT_REPEATED, &[SHOT_AS], &[REPEATED]),
    row(
        NoShot,
        NO_SHOT,
        &[NOT_IN_S, NEAREST, S_HAS_INDEX, S_HAS_KILLED, S_MARKER, NO_NAME_IN_S],
        &[NEAR_SHOT, S_MARKER_LINE],
    ),
    row(NoShot, SHOT_KILLED, &[THAT_SHOT_KILLED], &[KILLED]),
    row(ShotOrder, SHOT_ORDER, &[STANDS_BEFORE], &[RELATION_BEFORE]),
    row(
        ShotNotNamed,
        SHOT_NOT_NAMED,
        &[NOT_NAMED, BEFORE_NAMED, AFTER_NAMED, AFTER_NOT_NAMED],
        &[OF_BEFORE, OF_AFTER],
    ),
    row(Record, RECORD_APART, &[APART], &[EARLIER_OF_RECORD]),
    row(
        Record,
        RECORD_DIFFERS,
        &[SOURCE_DIFFERS, RECORD_INCREMENT, INSTRUMENT],
        &[BEFORE_OF_RECORD],
    ),
    row(ChannelOrder, CHANNEL_ORDER, &[NOT_ABOVE], &[BEFORE_OF_RECORD]),
    row(
        NoReceiver,
        NO_RECEIVER,
        &[NOT_IN_R, R_MARKER, R_HAS_INDEX, NO_NAME_IN_R],
        &[NEAR_RECEIVER],
    ),
    row(CoveredTwice, COVERED_TWICE, &[COVERED], &[COVERS]),
    row(CodeNamedTwice, NAMED_TWICE, &[NAMED_BEFORE], &[FIRST_NAME]),
    row(CodeNotNamed, CODE_NOT_NAMED, &[TABLES, TABLES_OF_X, THESE_NAMED, NAMED, NONE_NAMED], &[]),
];
