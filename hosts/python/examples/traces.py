"""Reads the set in a folder into a table of its traces, and prints it with commas.

    PYTHONPATH=hosts/python python3 hosts/python/examples/traces.py FOLDER [--tape]

The status is 0 where the set is accepted, 1 where it is refused, 2 where a file cannot be read.
"""

from __future__ import annotations

import csv
import sys
from functools import lru_cache
from pathlib import Path
from typing import Iterator, List, NamedTuple

import sps


class Row(NamedTuple):
    """A trace, and the receiver that it comes from."""

    tape: str
    record: int
    channel: int
    line_name: str
    point: int
    index: int
    component: int
    dead: bool


def table(r: bytes, s: bytes, x: bytes, medium: int) -> Iterator[Row]:
    """The traces of a set, in the order of X. Each line of X and R that one needs is read once."""
    relation = lru_cache(None)(lambda line: sps.read_relation(x, line, medium=medium))
    receiver = lru_cache(None)(lambda line: sps.read_point("R", r, line, medium=medium))
    rows = sps.Set(r, s, x, medium=medium).rows()
    for x_line, channel, r_line, component, dead in sps.ROW.iter_unpack(rows):
        of, to = relation(x_line), receiver(r_line)
        place = (to.name.rstrip(), to.number, to.index, component, dead)
        yield Row(of.tape.rstrip(), of.record, channel, *place)


def main(words: List[str]) -> int:
    medium = sps.TAPE if words[1:] == ["--tape"] else sps.DISC
    if len(words) != (2 if medium == sps.TAPE else 1):
        print("usage: traces.py FOLDER [--tape]", file=sys.stderr)
        return 2
    try:
        r, s, x = (Path(words[0], f"set.{letter}01").read_bytes() for letter in "rsx")
        rows = list(table(r, s, x, medium))
    except sps.Refused as why:
        print(why, file=sys.stderr)
        return 1
    except OSError as error:
        print(error, file=sys.stderr)
        return 2
    out = csv.writer(sys.stdout, lineterminator="\n")
    out.writerow(Row._fields)
    out.writerows(rows)
    return 0


if __name__ == "__main__":
    sys.exit(main(sys.argv[1:]))
