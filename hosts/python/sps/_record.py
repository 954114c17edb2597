"""Questions on a record of a set: the lookup, the way back, the spread table."""

from __future__ import annotations

import struct
from typing import TYPE_CHECKING, Any, Dict, NamedTuple, Optional, Tuple

from ._lent import number, writable

if TYPE_CHECKING:
    from ._set import Set

MOST_CHANNELS = 9_999


class Trace(NamedTuple):
    """Where a trace comes from.

    >>> trace = killed.record("100   ", 11).channel(4)
    >>> trace.r_line, trace.component, trace.killed
    (26, 1, True)
    """

    r_line: int
    """The line of its receiver in R, headers included."""
    component: int
    """Its component, from 1."""
    killed: bool
    """Whether its receiver is killed, so that the trace is dead."""


class Record:
    """A record of a set. Each question checks the whole set first, and costs what `cross` does.

    >>> record = set_a.record("100   ", 11)
    >>> record.channel(0)
    Traceback (most recent call last):
    sps.Refused: REFUSED 20: a medium, a kind, a line or a question is out of range
    """

    def __init__(self, of: Set, tape: bytes, number: int) -> None:
        self._set, self._tape, self._number = of, tape, number

    def _ask(self, call: str, *words: Any) -> int:
        return self._set.ask(call, self._tape, len(self._tape), number(self._number), *words)

    def channel(self, channel: int) -> Optional[Trace]:
        """The receiver that a channel leads to; None is no trace.

        >>> set_a.record("100   ", 11).channel(2)
        Trace(r_line=26, component=1, killed=False)
        """
        answer = self._ask("sps_trace", number(channel))
        if answer == 0:
            return None
        return Trace(answer >> 4 & 0xFFFFFFF, answer & 15, answer >> 32 & 1 == 1)

    def receiver(self, line: int, component: int) -> Optional[int]:
        """The channel that leads to a line of R and a component, also of a killed receiver; None
        is no trace.

        >>> set_a.record("100   ", 11).receiver(26, 1)
        2
        """
        return self._ask("sps_channel", number(line), number(component)) or None

    def spread(self) -> Dict[int, Tuple[int, int]]:
        """The line of R and the component of each covered channel; nothing of an absent record.

        >>> set_a.record("100   ", 11).spread()
        {1: (25, 1), 2: (26, 1), 3: (27, 1)}
        >>> set_a.record("100   ", 12).spread()
        {}
        """
        lines, components = bytearray(2 * MOST_CHANNELS), bytearray(MOST_CHANNELS)
        highest = self._ask("sps_spread", *writable(lines), *writable(components))
        places = zip(struct.unpack_from(f"<{highest}H", lines), components)
        return {at: place for at, place in enumerate(places, 1) if place != (0, 0)}
