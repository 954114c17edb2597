"""The proved checker and writer of SPS sets, for Python.

    import sps

    r, s, x = (open(f"set.{letter}01", "rb").read() for letter in "rsx")
    sps.form("R", r)                          # R alone
    print(sps.cross(r, s, x))                 # ACCEPTED 3 1 1 3 0
    record = sps.Set(r, s, x).record("100   ", 11)
    print(record.channel(2))                  # Trace(r_line=26, component=1, killed=False)

A refusal is the exception `Refused`, with its number, file, line, column and words. Files are bytes
or any other buffer, a read-only one too, and are lent without a copy. Nobody may change them during
a call, so that a mapped file which others write is copied first, with `bytes(mapped)`. Calls share
nothing and leave other threads running.

Each question checks the whole set first, and costs what `cross` does; `Set.rows` tells all traces
at once, as a buffer that numpy takes without a copy. The calls are those of `include/sps.h`. In the
examples `set_a`, `tape_a` and `killed` are sets of the folder `examples`.
"""

from ._point import Point, read_point, write_point
from ._record import Record, Trace
from ._refused import Number, Refused
from ._relation import Relation, read_relation, write_relation
from ._rows import ROW, ROW_DTYPE, ROW_NAMES
from ._set import DISC, TAPE, Counts, Medium, Set, cross, form

__all__ = [
    "DISC",
    "ROW",
    "ROW_DTYPE",
    "ROW_NAMES",
    "TAPE",
    "Counts",
    "Medium",
    "Number",
    "Point",
    "Record",
    "Refused",
    "Relation",
    "Set",
    "Trace",
    "cross",
    "form",
    "read_point",
    "read_relation",
    "write_point",
    "write_relation",
]

# They are shown by the name under which they are used.
for _name in __all__:
    _public = globals()[_name]
    if isinstance(_public, type) or callable(_public):
        _public.__module__ = __name__
