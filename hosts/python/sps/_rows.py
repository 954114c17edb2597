"""The traces of a set as rows of 16 bytes, which are laid out alike for `struct` and for numpy."""

from __future__ import annotations

import struct
from typing import TYPE_CHECKING, Optional

from ._lent import number, writable

if TYPE_CHECKING:
    from ._set import Set

ROW = struct.Struct("<IIIB?2x")
"""A row: X line, channel, R line, component and killed; two bytes of 0 follow."""

ROW_DTYPE = "<u4,<u4,<u4,u1,?,<u2"
"""The same for numpy: `numpy.frombuffer(rows, dtype=sps.ROW_DTYPE)` takes rows without a copy."""

ROW_NAMES = ("x_line", "channel", "r_line", "component", "killed", "zero")
"""The names of these columns, which numpy calls f0 to f5: `table.dtype.names = sps.ROW_NAMES`."""


def rows(of: Set, first: int, count: Optional[int]) -> bytearray:
    """The rows of a set from a trace on, counted from 0: so many, or all that follow."""
    if first < 0 or (count is not None and count < 0):
        raise ValueError("traces are counted from 0")
    if count is None:
        count = max(of.ask("sps_traces", number(first), None, 0) - first, 0)
    room = bytearray(ROW.size * count)
    traces = of.ask("sps_traces", number(first), *writable(room))
    del room[ROW.size * max(traces - first, 0) :]
    return room
