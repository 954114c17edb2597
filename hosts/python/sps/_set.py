"""The form of a file, and the cross-check of three."""

from __future__ import annotations

import struct
from enum import IntEnum
from typing import TYPE_CHECKING, Any, NamedTuple, Optional, Union

from ._lent import lent, letter, number, text, writable
from ._library import library
from ._record import Record
from ._refused import told
from ._rows import rows

if TYPE_CHECKING:
    from _typeshed import ReadableBuffer


class Medium(IntEnum):
    """What files are written on.

    >>> sps.form("R", tape_a.r, medium=sps.TAPE)
    """

    DISC = 1
    TAPE = 2


DISC, TAPE = Medium.DISC, Medium.TAPE


class Counts(NamedTuple):
    """What an accepted set holds. Shown, it is the line that spswhy prints.

    >>> counts = killed.cross()
    >>> counts
    Counts(receivers=3, shots=2, relations=1, traces=9, dead_traces=3)
    >>> print(counts)
    ACCEPTED 3 2 1 9 3
    """

    receivers: int
    shots: int
    relations: int
    traces: int
    dead_traces: int

    def __str__(self) -> str:
        return "ACCEPTED " + " ".join(map(str, self))


def form(kind: str, file: ReadableBuffer, *, medium: int = DISC) -> None:
    """Checks the form of one file, which needs no other. The kind, "R", "S" or "X", is what the
    file has to be, and is never guessed.

    >>> sps.form("R", set_a.r)
    >>> sps.form("R", set_a.s)
    Traceback (most recent call last):
    sps.Refused: REFUSED 4 R 25 1: column 1 is not H or the file's letter, or H after data
    """
    with lent(file) as words:
        told(library().sps_form(number(medium), letter(kind), *words))


def cross(
    r: ReadableBuffer, s: ReadableBuffer, x: ReadableBuffer, *, medium: int = DISC
) -> Counts:
    """Cross-checks three files, the form of each first, and counts what the set holds.

    >>> sps.cross(set_a.r, set_a.s, set_a.x).traces
    3
    >>> sps.cross(b"", b"", b"")
    Traceback (most recent call last):
    sps.Refused: REFUSED 7 R 1 0: R's header lacks one of the types 00 to 20
    """
    return Set(r, s, x, medium=medium).cross()


class Set:
    """Three files on a medium. They are lent to each call and never copied.

    >>> sps.Set(set_a.r, memoryview(set_a.s), bytearray(set_a.x)).cross().traces
    3
    """

    def __init__(
        self, r: ReadableBuffer, s: ReadableBuffer, x: ReadableBuffer, *, medium: int = DISC
    ) -> None:
        self.r, self.s, self.x, self.medium = r, s, x, medium

    def ask(self, call: str, *words: Any) -> int:
        """What a call of the header answers to the set, and to the words after its files.

        >>> set_a.ask("sps_cross")
        3
        """
        with lent(self.r, self.s, self.x) as files:
            return told(getattr(library(), call)(number(self.medium), *files, *words))

    def cross(self) -> Counts:
        """The cross-check: what the set holds, or the first breach.

        >>> print(set_a.cross())
        ACCEPTED 3 1 1 3 0
        """
        counts = bytearray(8 * len(Counts._fields))
        self.ask("sps_counts", *writable(counts))
        return Counts(*struct.unpack("<5Q", counts))

    def record(self, tape: Union[str, bytes], number: int) -> Record:
        """A record, to ask questions of. The tape is its six columns, blanks included.

        >>> set_a.record("100   ", 11).channel(4) is None
        True
        >>> set_a.record("100", 11).channel(1)
        Traceback (most recent call last):
        sps.Refused: REFUSED 20: a medium, a kind, a line or a question is out of range
        """
        return Record(self, text(tape), number)

    def rows(self, first: int = 0, count: Optional[int] = None) -> bytearray:
        """The traces in the order of X, line by line and channel by channel, as rows of 16 bytes
        laid out as `ROW` and `ROW_DTYPE` say: from one on, counted from 0, and so many, or all.
        All cost two checks of the set, and so many cost one.

        >>> for row in sps.ROW.iter_unpack(set_a.rows()):
        ...     print(row)  # X line, channel, R line, component, killed
        (25, 1, 25, 1, False)
        (25, 2, 26, 1, False)
        (25, 3, 27, 1, False)
        >>> [channel for _, channel, *_ in sps.ROW.iter_unpack(set_a.rows(first=1, count=1))]
        [2]
        """
        return rows(self, first, count)

    def table_line(self, kind: str, code: Union[str, bytes]) -> Optional[int]:
        """The header line of R that names a code of receivers "R", sources "S" or instruments "X".

        >>> set_a.table_line("R", "G1"), set_a.table_line("R", "G2")
        (23, None)
        """
        code = text(code)
        return self.ask("sps_table_line", letter(kind), code, len(code)) or None
