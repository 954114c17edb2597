"""The values of a line of X: read, and written."""

from __future__ import annotations

import struct
from dataclasses import dataclass
from typing import TYPE_CHECKING

from ._lent import lent, number, writable
from ._library import library
from ._refused import told
from ._set import DISC
from ._values import LEN, LINE_LEN, PLACES, columns, numbers, value

if TYPE_CHECKING:
    from _typeshed import ReadableBuffer


@dataclass(frozen=True)
class Relation:
    """The values of a line of X. Names are 16 columns and the tape is six, with their blanks.

    >>> relation = sps.read_relation(set_a.x, 25)
    >>> relation.from_channel, relation.to_channel
    (1, 3)
    """

    tape: str
    record: int
    record_increment: int
    instrument: int
    source_name: str
    source_number: int
    source_index: int
    from_channel: int
    to_channel: int
    channel_increment: int
    receiver_name: str
    from_receiver: int
    to_receiver: int
    receiver_index: int


def read_relation(x: ReadableBuffer, line: int, *, medium: int = DISC) -> Relation:
    """The values of one line of X, from 1. Other lines are not looked at.

    >>> relation = sps.read_relation(set_a.x, 25)
    >>> relation.tape, relation.record, relation.from_receiver, relation.to_receiver
    ('100   ', 11, 101, 103)
    """
    values = bytearray(LEN)
    with lent(x) as words:
        call = library().sps_read_relation
        told(call(number(medium), *words, number(line), *writable(values)))
    places = struct.unpack(PLACES, values)
    return Relation(
        columns(places[:1], 6),
        *places[1:4],
        columns(places[4:6], 16),
        *places[6:11],
        columns(places[11:13], 16),
        *places[13:],
    )


def write_relation(relation: Relation) -> bytes:
    """The line of X on disc, 82 bytes, that has the values, in the one spelling.

    >>> from dataclasses import replace
    >>> relation = sps.read_relation(set_a.x, 25)
    >>> sps.write_relation(relation) == set_a.x[24 * 82 : 25 * 82]
    True
    >>> sps.write_relation(replace(relation, to_channel=4))
    Traceback (most recent call last):
    sps.Refused: REFUSED 22: values that no line has, or a marker's
    """
    record = [relation.record, relation.record_increment, relation.instrument]
    channels = [relation.from_channel, relation.to_channel, relation.channel_increment]
    receivers = [relation.from_receiver, relation.to_receiver, relation.receiver_index]
    places = [
        *numbers(relation.tape, 6),
        *map(value, record),
        *numbers(relation.source_name, 16),
        *map(value, [relation.source_number, relation.source_index, *channels]),
        *numbers(relation.receiver_name, 16),
        *map(value, receivers),
    ]
    line = bytearray(LINE_LEN)
    values = struct.pack(PLACES, *places)
    told(library().sps_write_relation(values, LEN, *writable(line)))
    return bytes(line)
