"""The traces of a set as rows."""

import ctypes
import importlib.util
import struct
import unittest
import unittest.mock

import sps

from . import example, folders


def asked(own):
    """The rows that questions on each channel of each relation line give."""
    rows = []
    for line in range(1, 40):
        try:
            relation = sps.read_relation(own.x, line, medium=own.medium)
        except sps.Refused:
            continue
        record = own.record(relation.tape, relation.record)
        for channel in range(relation.from_channel, relation.to_channel + 1):
            rows.append((line, channel, *record.channel(channel)))
    return rows


def accepted():
    """The examples that are accepted."""
    for folder in folders():
        own = example(folder)
        try:
            own.cross()
        except sps.Refused:
            continue
        yield folder, own


class Rows(unittest.TestCase):
    def test_what_questions_say(self):
        seen = 0
        for folder, own in accepted():
            rows = own.rows()
            self.assertIsInstance(rows, bytearray)
            self.assertEqual(list(sps.ROW.iter_unpack(rows)), asked(own), folder)
            self.assertEqual(len(rows), sps.ROW.size * own.cross().traces)
            self.assertTrue(all(row[14:] == b"\0\0" for row in self.cut(rows)))
            seen += len(rows)
        self.assertGreater(seen, 0)

    def cut(self, rows):
        """The bytes of each row."""
        return [rows[at : at + 16] for at in range(0, len(rows), 16)]

    def test_parts(self):
        own = example("killed")
        rows = self.cut(own.rows())
        for first in range(len(rows) + 2):
            self.assertEqual(self.cut(own.rows(first)), rows[first:])
            for count in range(len(rows) + 2):
                self.assertEqual(self.cut(own.rows(first, count)), rows[first : first + count])
        for beyond in (10**9, 2**64 - 1, 2**64, 2**70):
            self.assertEqual(own.rows(beyond), bytearray())
            self.assertEqual(own.rows(beyond, 2), bytearray())
        for first, count in ((-1, None), (0, -1)):
            with self.assertRaises(ValueError):
                own.rows(first, count)

    def test_refused(self):
        own = example("odd_channel")
        for words in ((), (0, 0), (0, 5)):
            with self.assertRaises(sps.Refused) as caught:
                own.rows(*words)
            self.assertEqual(caught.exception.verdict, "REFUSED 6 X 25 72")

    def test_layout(self):
        """The string for numpy reads a row as `ROW` does, and each column has a name."""
        codes = {"<u4": "I", "u1": "B", "?": "?", "<u2": "H"}
        layout = struct.Struct("<" + "".join(codes[kind] for kind in self.kinds()))
        self.assertEqual(layout.size, sps.ROW.size)
        rows = example("killed").rows()
        found = [row[:-1] for row in layout.iter_unpack(rows)]
        self.assertEqual(found, list(sps.ROW.iter_unpack(rows)))
        self.assertEqual(len(set(sps.ROW_NAMES)), len(self.kinds()))

    def test_not_copied(self):
        """Rows are the memory that the call writes, and others read and write them in place."""
        own, lent = example("killed"), []
        ask = own.ask

        def told(call, first, room, *words):
            lent.append(room and ctypes.addressof(room))
            return ask(call, first, room, *words)

        with unittest.mock.patch.object(sps.Set, "ask", lambda _, *words: told(*words)):
            rows = own.rows()
        cells = [("<u4", ctypes.c_uint32), ("u1", ctypes.c_uint8), ("?", ctypes.c_bool)]
        cells = dict([*cells, ("<u2", ctypes.c_uint16)])
        fields = [(name, cells[kind]) for name, kind in zip(sps.ROW_NAMES, self.kinds())]
        row = type("Row", (ctypes.LittleEndianStructure,), {"_fields_": fields})
        table = (row * (len(rows) // sps.ROW.size)).from_buffer(rows)
        self.assertEqual(ctypes.addressof(table), lent[-1])
        self.assertEqual((table[4].r_line, table[4].component, table[4].killed), (26, 2, True))
        table[4].channel = 77
        self.assertEqual(sps.ROW.unpack_from(memoryview(rows), 4 * sps.ROW.size)[1], 77)

    def kinds(self):
        """The kinds of the columns of a row."""
        return sps.ROW_DTYPE.split(",")

    @unittest.skipUnless(importlib.util.find_spec("numpy"), "numpy is not on this machine")
    def test_numpy(self):
        import numpy

        rows = example("killed").rows()
        table = numpy.frombuffer(rows, dtype=sps.ROW_DTYPE)
        table.dtype.names = sps.ROW_NAMES
        names = [name for name in sps.ROW_NAMES if name != "zero"]
        self.assertEqual(table[names].tolist(), list(sps.ROW.iter_unpack(rows)))
        self.assertTrue(numpy.shares_memory(table, numpy.frombuffer(rows, dtype="u1")))
