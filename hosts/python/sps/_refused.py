"""A refusal: its number by name, its place and its words."""

from __future__ import annotations

from enum import IntEnum
from typing import Optional


class Number(IntEnum):
    """What files, a question or a line to write are refused for, as the header names it.

    >>> sps.Number.NO_SHOT
    <Number.NO_SHOT: 13>
    >>> sps.Number.NO_SHOT.words
    "no shot is the relation line's source, or a killed one is"
    """

    words: str

    def __new__(cls, number: int, words: str) -> "Number":
        member = int.__new__(cls, number)
        member._value_ = number
        member.words = words
        return member

    FILE_LENGTH = 1, "the file's length is no multiple of 82, on tape of 80"
    TOO_MANY_LINES = 2, "more than 9,999 lines, on tape with the EOF record"
    BYTE = 3, "a byte that is not taken, or no CR or LF at 81, 82 of a disc"
    LETTER = 4, "column 1 is not H or the file's letter, or H after data"
    FIELD = 5, "a field breaks its rule; the column is its first"
    CHANNELS = 6, "channels are crossed, or do not fit their receivers"
    HEADER_TYPE = 7, "R's header lacks one of the types 00 to 20"
    H18 = 8, "an H18 that holds nothing, or N/A"
    HEADER_DIFFERS = 9, "the header of S or X differs from R's"
    RECEIVER_ORDER = 10, "a receiver is not above the one before, in the medium's bytes"
    SHOT_EARLIER = 11, "a shot is earlier than the one before it"
    SHOT_REPEATED = 12, "a shot repeats an earlier one"
    NO_SHOT = 13, "no shot is the relation line's source, or a killed one is"
    SHOT_ORDER = 14, "its shot stands in S before that of the previous relation line"
    SHOT_NOT_NAMED = 15, "no relation line names a shot that is not killed"
    RECORD = 16, "the lines of a record do not stand together, or differ"
    CHANNEL_ORDER = 17, "the channels of a record do not ascend"
    NO_RECEIVER = 18, "a covered receiver is not there"
    COVERED_TWICE = 19, "a receiver is covered twice in a record"
    QUESTION_RANGE = 20, "a medium, a kind, a line or a question is out of range"
    SLICE_LENGTH = 21, "a slice of the spread table is too short"
    VALUE_RANGE = 22, "values that no line has, or a marker's"
    LINE_LENGTH = 23, "the slice for a line is shorter than 82 bytes"
    CODE_NAMED_TWICE = 24, "a code table names a code that an earlier one names"
    CODE_NOT_NAMED = 25, "a code or an instrument is used that no code table names"
    TAPE_END = 29, "no EOF record ends the tape, or records follow the first"


class Refused(Exception):
    """Files, a question or values that are refused: the first breach of the rules.

    >>> why = sps.Refused(5 << 40 | 3 << 32 | 25 << 8 | 14)
    >>> why.number, why.file, why.line, why.column
    (<Number.FIELD: 5>, 'X', 25, 14)
    >>> why.verdict
    'REFUSED 5 X 25 14'
    >>> print(why)
    REFUSED 5 X 25 14: a field breaks its rule; the column is its first
    """

    number: int
    """The number, one of `Number`."""
    words: str
    """What the number says."""
    file: Optional[str]
    """'R', 'S' or 'X', and None of a question or values."""
    line: int
    """The line, from 1; 0 where there is none."""
    column: int
    """The column, from 1; 0 where the breach is of none."""

    def __init__(self, answer: int) -> None:
        super().__init__(answer)
        code = answer >> 40
        try:
            number = Number(code)
            self.number, self.words = number, number.words
        except ValueError:
            self.number, self.words = code, "a number that this package does not know"
        self.file = {1: "R", 2: "S", 3: "X"}.get(answer >> 32 & 255)
        self.line, self.column = answer >> 8 & 0xFFFFFF, answer & 255

    @property
    def verdict(self) -> str:
        """The line that spswhy prints."""
        place = f" {self.file} {self.line} {self.column}" if self.file else ""
        return f"REFUSED {int(self.number)}{place}"

    def __str__(self) -> str:
        return f"{self.verdict}: {self.words}"


def told(answer: int) -> int:
    """An answer that is no refusal; one that is, is raised."""
    if answer >> 40:
        raise Refused(answer)
    return answer
