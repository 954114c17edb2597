//! The words of 1 to 6 and 29, the rules of one file.

use super::{row, Row};
use crate::words::Words;
use sps::Number::{Byte, Channels, Field, FileLength, Letter, TapeEnd, TooManyLines};

pub const DISC_LENGTH: Words =
    Words("the length of the file is no multiple of 82 bytes, a line of 80 columns, CR and LF");
pub const TAPE_LENGTH: Words = Words("the length of the tape is no multiple of 80 bytes, a record");
pub const BYTES_AND_LINES: Words = Words("{bytes} are {lines} of {width} and {bytes} more");

pub const PACKED: Words = Words("The file is compressed (gzip): unpack it");
pub const UTF_8_MARK: Words = Words("The file starts with a UTF-8 mark, 3 bytes that must go");
pub const CTRL_Z: Words = Words("The last byte is Ctrl-Z (26), which must go");
pub const LF_ALONE: Words = Words("Line {line} ends in LF without CR (Unix line ends)");
pub const CR_ALONE: Words = Words("Line {line} ends in CR without LF");
pub const CUT_BLANKS: Words =
    Words("Line {line} has {columns} and not 80 before CR and LF (trailing blanks may be cut)");
pub const OTHER_WIDTH: Words = Words("Line {line} has {columns} and not 80 before CR and LF");
pub const NO_LINE_END: Words = Words("Line {line}, the last, has {columns} and no CR and LF");

pub const MANY_LINES: Words = Words("the file has more than 9,999 lines");
pub const LINES_AND_LIMIT: Words = Words("{lines} lines; at most 9,999 are taken");
pub const RECORDS_AND_LIMIT: Words =
    Words("{records} records, the EOF record among them; at most 9,999 are taken");

pub const NO_CHARACTER: Words = Words("a byte is none of those that columns 1 to 80 take");
pub const NEEDS_CHARACTER: Words =
    Words("column {column}: found {byte}; columns 1 to 80 take bytes 32 to 126");
pub const NEEDS_TAKEN: Words = Words(
    "column {column}: found {byte}; taken are, in code page 037, a blank, letters, digits and \
     . , ; : ( ) - + / & ' % * = ? _ < >",
);
pub const NO_CR: Words = Words("column 81 is not CR");
pub const NEEDS_CR: Words = Words("column 81: found {byte}; needs CR (13)");
pub const NO_LF: Words = Words("column 82 is not LF");
pub const NEEDS_LF: Words = Words("column 82: found {byte}; needs LF (10)");

pub const OTHER_LETTER: Words = Words("column 1 is neither H nor the letter of the file");
pub const NEEDS_LETTER: Words = Words("column 1: found {byte}; needs {letters}");
pub const LOOKS_LIKE: Words = Words("this looks like an {letter} file");
pub const ORDER_OF_FILES: Words = Words(
    "below their headers the files begin with {letters}; needed are R, S and X, in this order",
);
pub const LATE_HEADER: Words = Words("a header line stands below data");
pub const NEEDS_OWN: Words = Words("column 1: found \"H\"; below line {line} needs {letter}");
pub const FIRST_DATA: Words = Words("the first line that is no header line");

pub const BROKEN_FIELD: Words = Words("a field breaks its rule");
pub const WRONG: Words = Words("{field}, {columns}: found {text}; {wrong}");
pub const BLANK: Words = Words("must not be blank");
pub const FIRST_BLANK: Words = Words("must begin in the first column");
pub const NOT_LAST: Words = Words("must end in the last column");
pub const PLUS: Words = Words("takes no plus sign");
pub const MINUS: Words = Words("takes no minus");
pub const BLANK_INSIDE: Words = Words("takes no blank inside");
pub const NO_DIGIT: Words = Words("{character} is no digit");
pub const NO_DIGITS: Words = Words("has no digit");
pub const POINT: Words = Words("takes no point");
pub const BEFORE_POINT: Words = Words("needs a digit before the point");
pub const AFTER_POINT: Words = Words("needs exactly one digit after the point");
pub const ABOVE: Words = Words("{value} is above {limit}");
pub const BELOW: Words = Words("{value} is below {limit}");
pub const TENTHS_ABOVE: Words =
    Words("without a point it counts tenths, and {value} is above {limit}");
pub const TENTHS_BELOW: Words =
    Words("without a point it counts tenths, and {value} is below {limit}");
pub const NOT_1_TO_9: Words = Words("needs 1 to 9, or a blank for 1");
pub const OTHER_CODE: Words = Words("is a code of {file} and not of {file}");
pub const NO_CODE: Words = Words("is no code of {file}");
pub const SIX_DIGITS: Words = Words("needs six digits");
pub const TIME_PART: Words = Words("{part} {value} is above {limit}");
pub const TWO_DIGITS: Words = Words("needs two digits");
pub const BLANK_OR_DIGIT: Words = Words("needs a blank or a digit");
pub const TAKES: Words = Words("{field} takes: {rule}");
pub const FAMILY: Words = Words("{codes}  {family}");

pub const CROSSED: Words = Words("the from channel is above the to channel");
pub const FROM_ABOVE_TO: Words = Words("channels {from} to {to}: {from} is above {to}");
pub const NO_MULTIPLE: Words = Words("the channels are no multiple of the channel increment");
pub const CHANNELS_BY: Words =
    Words("channels {from} to {to} are {channels}, which is no multiple of {increment}");
pub const OTHER_RECEIVERS: Words =
    Words("the channels do not lead to as many receivers as are named");
pub const CHANNELS_AND_RECEIVERS: Words = Words(
    "{number} {channels} by {increment} are {number} {receivers}; {from} to {to} are {number}",
);

pub const NO_END: Words = Words("no EOF record ends the tape");
pub const NONE_WITH_EOF: Words = Words("{records}, none with EOF in columns 1 to 3; needs one");
pub const LATE_RECORDS: Words = Words("records follow the EOF record");
pub const EOF_AND_MORE: Words =
    Words("record {record} has EOF in columns 1 to 3 and must be the last; behind it: {records}");
pub const EOF_RECORD: Words = Words("the EOF record");

pub const ROWS: [Row; 14] = [
    row(
        FileLength,
        DISC_LENGTH,
        &[
            BYTES_AND_LINES,
            PACKED,
            UTF_8_MARK,
            LF_ALONE,
            CR_ALONE,
            CUT_BLANKS,
            OTHER_WIDTH,
            NO_LINE_END,
            CTRL_Z,
        ],
        &[],
    ),
    row(FileLength, TAPE_LENGTH, &[BYTES_AND_LINES, PACKED], &[]),
    row(TooManyLines, MANY_LINES, &[LINES_AND_LIMIT, RECORDS_AND_LIMIT], &[]),
    row(
        Byte,
        NO_CHARACTER,
        &[
            NEEDS_CHARACTER,
            NEEDS_TAKEN,
            PACKED,
            UTF_8_MARK,
            LF_ALONE,
            CR_ALONE,
            CUT_BLANKS,
            OTHER_WIDTH,
            NO_LINE_END,
            CTRL_Z,
        ],
        &[],
    ),
    row(Byte, NO_CR, &[NEEDS_CR, LF_ALONE, CR_ALONE, OTHER_WIDTH, NO_LINE_END, CTRL_Z], &[]),
    row(Byte, NO_LF, &[NEEDS_LF, CR_ALONE, CTRL_Z], &[]),
    row(Letter, OTHER_LETTER, &[NEEDS_LETTER, LOOKS_LIKE, ORDER_OF_FILES], &[]),
    row(Letter, LATE_HEADER, &[NEEDS_OWN], &[FIRST_DATA]),
    Row {
        number: Field,
        rule: BROKEN_FIELD,
        found: &[WRONG, TAKES, FAMILY],
        wrong: &[
            BLANK,
            FIRST_BLANK,
            NOT_LAST,
            PLUS,
            MINUS,
            BLANK_INSIDE,
            NO_DIGIT,
            NO_DIGITS,
            POINT,
            BEFORE_POINT,
            AFTER_POINT,
            ABOVE,
            BELOW,
            TENTHS_ABOVE,
            TENTHS_BELOW,
            NOT_1_TO_9,
            OTHER_CODE,
            NO_CODE,
            SIX_DIGITS,
            TIME_PART,
            TWO_DIGITS,
            BLANK_OR_DIGIT,
        ],
        others: &[],
    },
    row(Channels, CROSSED, &[FROM_ABOVE_TO], &[]),
    row(Channels, NO_MULTIPLE, &[CHANNELS_BY], &[]),
    row(Channels, OTHER_RECEIVERS, &[CHANNELS_AND_RECEIVERS], &[]),
    row(TapeEnd, NO_END, &[NONE_WITH_EOF], &[]),
    row(TapeEnd, LATE_RECORDS, &[EOF_AND_MORE], &[EOF_RECORD]),
];
