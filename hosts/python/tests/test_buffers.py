"""Files in every kind of memory, none of which is copied."""

import array
import ctypes
import mmap
import threading
import unittest

import sps
from sps._lent import lent

from . import EXAMPLES, example

SET = example("set_a")


class Buffers(unittest.TestCase):
    def test_each_kind(self):
        padded = b"?" + SET.r + b"?"
        kinds = [
            SET.r,
            bytearray(SET.r),
            memoryview(SET.r),
            memoryview(padded)[1:-1],
            array.array("B", SET.r),
            (ctypes.c_uint8 * len(SET.r)).from_buffer_copy(SET.r),
        ]
        for r in kinds:
            sps.form("R", r)
            self.assertEqual(sps.cross(r, SET.s, SET.x), SET.cross())

    def test_mapped(self):
        with open(EXAMPLES / "set_a/set.r01", "rb") as file:
            with mmap.mmap(file.fileno(), 0, access=mmap.ACCESS_READ) as mapped:
                sps.form("R", mapped)
                self.assertEqual(sps.cross(mapped, SET.s, SET.x), SET.cross())

    def test_of_no_length(self):
        for x in (b"", bytearray(), memoryview(b""), array.array("B")):
            sps.form("X", x)
            with self.assertRaises(sps.Refused) as caught:
                sps.form("X", x, medium=sps.TAPE)
            self.assertEqual(caught.exception.verdict, "REFUSED 29 X 1 0")

    def test_wide_items_are_bytes(self):
        sps.form("R", memoryview(SET.r).cast("H"))
        sps.form("R", memoryview(SET.r).cast("B", (len(SET.r) // 82, 82)))

    def test_not_copied(self):
        room = bytearray(SET.r)
        with lent(room) as (address, length):
            self.assertEqual(length, len(room))
            self.assertEqual(address, ctypes.addressof(ctypes.c_char.from_buffer(room)))
            with self.assertRaises(BufferError):
                room.append(0)
        room.append(0)
        with self.assertRaises(sps.Refused) as caught:
            sps.form("R", room)
        self.assertEqual(caught.exception.number, sps.Number.FILE_LENGTH)

    def test_given_back_after_a_refusal(self):
        room = bytearray(b"?")
        with self.assertRaises(sps.Refused):
            sps.form("R", room)
        room.append(0)
        with self.assertRaises(TypeError):
            sps.cross(room, room, "text")
        room.append(0)

    def test_what_is_no_file(self):
        for file in ("text", None, 7, ["a"]):
            with self.assertRaises(TypeError):
                sps.form("R", file)
        with self.assertRaises(BufferError):
            sps.form("R", memoryview(SET.r)[::2])

    def test_at_the_same_time(self):
        found = []
        ask = lambda: found.append([SET.cross() for _ in range(200)])
        threads = [threading.Thread(target=ask) for _ in range(4)]
        for thread in threads:
            thread.start()
        for thread in threads:
            thread.join()
        self.assertEqual(found, [[SET.cross()] * 200] * 4)
