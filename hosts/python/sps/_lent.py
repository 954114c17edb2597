"""Memory that a call is lent, without a copy, and numbers that are not cut.

`ctypes` itself takes read-only memory from `bytes` alone, so that the buffer protocol of CPython
is asked for the address.
"""

from __future__ import annotations

import ctypes
import operator
from contextlib import contextmanager
from typing import TYPE_CHECKING, Any, Iterator, List, Optional, Union

if TYPE_CHECKING:
    from _typeshed import ReadableBuffer

U64 = ctypes.c_uint64
MOST = 2**64 - 1


class _Buffer(ctypes.Structure):
    """`Py_buffer` of the C API of Python."""

    _fields_ = [
        ("buf", ctypes.c_void_p),
        ("obj", ctypes.py_object),
        ("len", ctypes.c_ssize_t),
        ("itemsize", ctypes.c_ssize_t),
        ("readonly", ctypes.c_int),
        ("ndim", ctypes.c_int),
        ("format", ctypes.c_char_p),
        ("shape", ctypes.c_void_p),
        ("strides", ctypes.c_void_p),
        ("suboffsets", ctypes.c_void_p),
        ("internal", ctypes.c_void_p),
    ]


_get = ctypes.pythonapi.PyObject_GetBuffer
_get.argtypes = [ctypes.py_object, ctypes.POINTER(_Buffer), ctypes.c_int]
_get.restype = ctypes.c_int
_release = ctypes.pythonapi.PyBuffer_Release
_release.argtypes = [ctypes.POINTER(_Buffer)]
_release.restype = None

_SIMPLE = 0  # the bytes in one run, read only


@contextmanager
def lent(*files: ReadableBuffer) -> Iterator[List[Optional[int]]]:
    """The address and the length of each file, as the calls take them, until the block ends.

    >>> with lent(b"abc", memoryview(b"abcd")[1:], b"") as words:
    ...     ctypes.string_at(words[0], words[1]), ctypes.string_at(words[2], words[3]), words[5]
    (b'abc', b'bcd', 0)
    >>> with lent("text") as words: pass
    Traceback (most recent call last):
    TypeError: a file is bytes or another buffer, and not str
    """
    held: List[_Buffer] = []
    words: List[Optional[int]] = []
    try:
        for file in files:
            buffer = _Buffer()
            try:
                _get(file, buffer, _SIMPLE)
            except TypeError:
                kind = type(file).__name__
                raise TypeError(f"a file is bytes or another buffer, and not {kind}") from None
            held.append(buffer)
            words += [buffer.buf, buffer.len]
        yield words
    finally:
        for buffer in held:
            _release(buffer)


def writable(room: bytearray) -> List[Any]:
    """Memory that a call writes, and its length.

    >>> room = bytearray(3)
    >>> ctypes.memset(*writable(room)[:1], 7, 2) and room
    bytearray(b'\\x07\\x07\\x00')
    """
    return [(ctypes.c_uint8 * len(room)).from_buffer(room), len(room)]


def number(value: int) -> int:
    """A number of a question. One that 64 bits do not hold becomes one that every question refuses.

    >>> number(11), number(-1) == MOST, number(2**64 + 11) == MOST
    (11, True, True)
    """
    value = operator.index(value)
    return value if 0 <= value <= MOST else MOST


def letter(kind: str) -> int:
    """The number of a kind, which is its letter; 0, which is none, for anything longer.

    >>> letter("R"), letter("RS")
    (82, 0)
    """
    return ord(kind) if len(kind) == 1 else 0


def text(columns: Union[str, bytes]) -> bytes:
    """A tape, a name or a code as bytes. A character that no byte is becomes one that none takes.

    >>> text("100   "), text(b"G1"), text("\\u2026")
    (b'100   ', b'G1', b'\\xff')
    """
    if isinstance(columns, str):
        return bytes(min(ord(character), 255) for character in columns)
    return bytes(columns)
