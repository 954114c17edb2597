"""The shared library: where it is found, and its calls with their types."""

from __future__ import annotations

import ctypes
import os
import sys
from functools import lru_cache
from pathlib import Path
from typing import Any, Iterator

from ._lent import U64

NAME = "libsps.so"
SONAME = "libsps.so.0"

_SIZE = ctypes.c_size_t
_BYTES = [ctypes.c_void_p, _SIZE]
_FILES = [U64, *_BYTES, *_BYTES, *_BYTES]
_RECORD = [*_BYTES, U64]

_CALLS = {
    "sps_form": [U64, U64, *_BYTES],
    "sps_cross": _FILES,
    "sps_counts": [*_FILES, *_BYTES],
    "sps_trace": [*_FILES, *_RECORD, U64],
    "sps_channel": [*_FILES, *_RECORD, U64, U64],
    "sps_spread": [*_FILES, *_RECORD, *_BYTES, *_BYTES],
    "sps_traces": [*_FILES, U64, *_BYTES],
    "sps_table_line": [*_FILES, U64, *_BYTES],
    "sps_read_point": [U64, U64, *_BYTES, U64, *_BYTES],
    "sps_read_relation": [U64, *_BYTES, U64, *_BYTES],
    "sps_write_point": [U64, *_BYTES, *_BYTES],
    "sps_write_relation": [*_BYTES, *_BYTES],
}


def _places() -> Iterator[str]:
    """Where the library is looked for, in this order; SPS_LIBRARY alone where it is set."""
    named = os.environ.get("SPS_LIBRARY")
    if named:
        yield named
        return
    package = Path(__file__).resolve().parent
    for place in (package / NAME, Path(sys.prefix) / "lib" / NAME):
        if place.exists():
            yield str(place)
    yield SONAME  # on the loader's own path


@lru_cache(maxsize=None)
def library() -> Any:
    """The library, loaded at the first call."""
    reasons = []
    for place in _places():
        try:
            loaded = ctypes.CDLL(place)
            for name, arguments in _CALLS.items():
                call = getattr(loaded, name)
                call.argtypes, call.restype = arguments, U64
            return loaded
        except (OSError, AttributeError) as error:
            reasons.append(str(error))
    raise ImportError(
        "libsps.so is not found: set SPS_LIBRARY to it, or make it with `python3 -m sps.build` ("
        + "; ".join(reasons)
        + ")"
    )
