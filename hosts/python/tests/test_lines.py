"""Lines that are read, changed and written."""

import unittest
from dataclasses import fields, replace

import sps

from . import example, folders, medium_of

ABSENT = -(2**63)


def lines(file, width):
    """The numbers and bytes of the lines of a file."""
    return enumerate((file[at : at + width] for at in range(0, len(file), width)), 1)


class ThereAndBack(unittest.TestCase):
    def test_each_line_of_the_examples(self):
        read = 0
        for folder in folders():
            own = example(folder)
            width = 82 if medium_of(folder) == sps.DISC else 80
            for kind, file in zip("RSX", (own.r, own.s, own.x)):
                for line, _ in lines(file, width):
                    read += self.one(kind, file, line, own.medium)
        self.assertGreater(read, 3 * len(folders()))

    def one(self, kind, file, line, medium):
        """Whether a line has values; those that are written are read again."""
        try:
            if kind == "X":
                values = sps.read_relation(file, line, medium=medium)
                written = sps.write_relation(values)
                self.assertEqual(sps.read_relation(written, 1), values)
            else:
                values = sps.read_point(kind, file, line, medium=medium)
                written = sps.write_point(kind, values)
                self.assertEqual(sps.read_point(kind, written, 1), values)
            return True
        except sps.Refused as why:
            self.assertIn(why.number, (20, 5, 6))
            return False

    def test_set_a_byte_for_byte(self):
        own = example("set_a")
        for line, columns in list(lines(own.r, 82))[24:]:
            self.assertEqual(sps.write_point("R", sps.read_point("R", own.r, line)), columns)
        for line, columns in list(lines(own.x, 82))[24:]:
            self.assertEqual(sps.write_relation(sps.read_relation(own.x, line)), columns)


class Refused(unittest.TestCase):
    def refused(self, call, *words):
        with self.assertRaises(sps.Refused) as caught:
            call(*words)
        self.assertEqual(caught.exception.number, sps.Number.VALUE_RANGE)

    def test_values_of_a_point(self):
        point = sps.read_point("R", example("set_a").r, 25)
        for field in fields(point):
            text = field.name in ("name", "code")
            tried = ["", "\u2026", "x" * 17] if text else [2**63, -(2**64), ABSENT, 2**64 + 1]
            for value in tried:
                self.refused(sps.write_point, "R", replace(point, **{field.name: value}))
        for kind in ("S", "X", "", "RS"):
            self.refused(sps.write_point, kind, point)
        self.refused(sps.write_point, "R", replace(point, code="PM"))
        sps.write_point("R", replace(point, code="KL", static=None, uphole=99, water_depth=9990))

    def test_values_of_a_relation(self):
        relation = sps.read_relation(example("set_a").x, 25)
        for field in fields(relation):
            text = field.name in ("tape", "source_name", "receiver_name")
            tried = ["", "\u2026", "x" * 17] if text else [2**63, -(2**64), ABSENT, 2**64 + 1]
            for value in tried:
                self.refused(sps.write_relation, replace(relation, **{field.name: value}))

    def test_lines_that_are_not_there(self):
        own = example("set_a")
        for line in (0, -1, 24, 28, 2**64 + 25):
            with self.assertRaises(sps.Refused) as caught:
                sps.read_point("R", own.r, line)
            self.assertEqual(caught.exception.number, sps.Number.QUESTION_RANGE)
