"""The values of a line of R or S: read, and written."""

from __future__ import annotations

import struct
from dataclasses import dataclass
from typing import TYPE_CHECKING, Optional

from ._lent import lent, letter, number, writable
from ._library import library
from ._refused import told
from ._set import DISC
from ._values import LEN, LINE_LEN, PLACES, columns, held, numbers, value

if TYPE_CHECKING:
    from _typeshed import ReadableBuffer


@dataclass(frozen=True)
class Point:
    """The values of a line of R or S. Depths, coordinates and the elevation are in tenths: 326260.1
    is 3262601. Of a marker the name, index, code, coordinates and elevation alone say something.

    >>> sps.read_point("R", killed.r, 26).killed
    True
    """

    name: str
    """The line name, 16 columns with its blanks."""
    number: int
    index: int
    code: str
    """A code of the file, as G1 or V1; KL of a killed point, PM of a marker."""
    static: Optional[int]
    depth: int
    datum: int
    uphole: Optional[int]
    water_depth: Optional[int]
    easting: int
    northing: int
    elevation: int
    day: int
    time: int
    """hhmmss as one number: 071245 is 71245."""

    @property
    def killed(self) -> bool:
        """Whether it is a killed receiver or shot."""
        return self.code == "KL"

    @property
    def marker(self) -> bool:
        """Whether it is a marker, which is no point."""
        return self.code == "PM"


def read_point(kind: str, file: ReadableBuffer, line: int, *, medium: int = DISC) -> Point:
    """The values of one line, from 1, of "R" or "S". Other lines are not looked at.

    >>> point = sps.read_point("R", set_a.r, 25)
    >>> point.name, point.number, point.code, point.water_depth
    ('L1              ', 101, 'G1', None)
    >>> sps.read_point("R", set_a.r, 24)
    Traceback (most recent call last):
    sps.Refused: REFUSED 20: a medium, a kind, a line or a question is out of range
    """
    values = bytearray(LEN)
    with lent(file) as words:
        call = library().sps_read_point
        asked = [number(medium), letter(kind), *words, number(line)]
        told(call(*asked, *writable(values)))
    high, low, point, index, code, _, static, *rest = struct.unpack(PLACES, values)
    depth, datum, uphole, water, easting, northing, elevation, day, time = rest
    return Point(
        name=columns((high, low), 16),
        number=point,
        index=index,
        code=columns((code,), 2),
        static=held(static),
        depth=depth,
        datum=datum,
        uphole=held(uphole),
        water_depth=held(water),
        easting=easting,
        northing=northing,
        elevation=elevation,
        day=day,
        time=time,
    )


def write_point(kind: str, point: Point) -> bytes:
    """The line of "R" or "S" on disc, 82 bytes, that has the values, in the one spelling.

    >>> from dataclasses import replace
    >>> point = sps.read_point("R", set_a.r, 25)
    >>> sps.write_point("R", replace(point, easting=3262601))[46:55]
    b' 326260.1'
    >>> sps.write_point("S", point)
    Traceback (most recent call last):
    sps.Refused: REFUSED 22: values that no line has, or a marker's
    """
    state = 1 if point.killed else 2 if point.marker else 0
    before = [*numbers(point.name, 16), value(point.number), value(point.index)]
    after = [
        point.static,
        point.depth,
        point.datum,
        point.uphole,
        point.water_depth,
        point.easting,
        point.northing,
        point.elevation,
        point.day,
        point.time,
    ]
    places = [*before, *numbers(point.code, 2), state, *map(value, after)]
    line = bytearray(LINE_LEN)
    values = struct.pack(PLACES, *places)
    told(library().sps_write_point(letter(kind), values, LEN, *writable(line)))
    return bytes(line)
