"""The sixteen places in which the values of a line go over: signed numbers of eight bytes, the low
byte first, as the header has them."""

from __future__ import annotations

import operator
import struct
from typing import Optional, Sequence, Tuple, Union

from ._lent import text

PLACES = "<16q"
LEN = struct.calcsize(PLACES)
LINE_LEN = 82

ABSENT = -(2**63)
NO_VALUE = 2**63 - 1  # what no field of a line takes


def value(given: Optional[int]) -> int:
    """The number of a value. What 64 bits do not hold, and what stands for an absent value, becomes
    a number that no line has.

    >>> value(-5), value(None) == ABSENT, value(ABSENT) == value(2**63) == NO_VALUE
    (-5, True, True)
    """
    if given is None:
        return ABSENT
    given = operator.index(given)
    return given if ABSENT < given <= NO_VALUE else NO_VALUE


def held(number: int) -> Optional[int]:
    """The value of a number that may be absent."""
    return None if number == ABSENT else number


def numbers(columns: Union[str, bytes], width: int) -> Tuple[int, ...]:
    """Text of so many columns as numbers of at most eight bytes, the high one first. Text of other
    lengths becomes the numbers of none.

    >>> numbers("G1", 2), numbers("G", 2), len(numbers("L1".ljust(16), 16))
    ((18225,), (0,), 2)
    """
    said = text(columns)
    if len(said) != width:
        said = bytes(width)
    parts = (said[at : at + 8] for at in range(0, width, 8))
    return tuple(int.from_bytes(part, "big", signed=len(part) == 8) for part in parts)


def columns(parts: Sequence[int], width: int) -> str:
    """The text of such numbers.

    >>> columns(numbers("L1".ljust(16), 16), 16)
    'L1              '
    """
    sizes = [min(8, width - 8 * at) for at in range(len(parts))]
    joined = b"".join(
        part.to_bytes(size, "big", signed=size == 8) for part, size in zip(parts, sizes)
    )
    return joined.decode("latin-1")
