"""What sets, files and questions are answered."""

import pickle
import re
import unittest

import sps

from . import EXAMPLES, ROOT, example, folders, medium_of

TAPE = "100   "


def refused(call, *words, **named):
    """The refusal that a call has to raise."""
    try:
        answer = call(*words, **named)
    except sps.Refused as why:
        return why
    raise AssertionError(f"{answer} is no refusal")


class Verdicts(unittest.TestCase):
    def test_of_each_example(self):
        accepted = 0
        for folder in folders():
            verdict = (EXAMPLES / folder / "verdict").read_text().rstrip("\n")
            try:
                found = str(example(folder).cross())
                accepted += 1
            except sps.Refused as why:
                found = why.verdict
            self.assertEqual(found, verdict, folder)
        self.assertTrue(0 < accepted < len(folders()))

    def test_of_one_file(self):
        for folder in ("set_a", "set_a_tape"):
            own = example(folder)
            for number, (kind, file) in enumerate(zip("RSX", (own.r, own.s, own.x)), 1):
                for asked in "RSX":
                    if asked == kind:
                        sps.form(asked, file, medium=own.medium)
                        continue
                    why = refused(sps.form, asked, file, medium=own.medium)
                    self.assertEqual((why.number, why.file, why.column), (4, asked, 1))

    def test_of_the_other_medium(self):
        for folder in ("set_a", "set_a_tape"):
            other = example(folder)
            other.medium = sps.DISC + sps.TAPE - medium_of(folder)
            lengths = (sps.Number.FILE_LENGTH, sps.Number.TAPE_END)
            self.assertIn(refused(other.cross).number, lengths)


class Questions(unittest.TestCase):
    def test_there_and_back(self):
        for folder in ("set_a", "set_a_tape", "killed", "backwards", "three_components"):
            own = example(folder)
            record = own.record(TAPE, 11)
            spread = record.spread()
            self.assertEqual(len(spread), own.cross().traces)
            for channel, place in spread.items():
                trace = record.channel(channel)
                self.assertEqual((trace.r_line, trace.component), place)
                point = sps.read_point("R", own.r, trace.r_line, medium=own.medium)
                self.assertEqual(point.killed, trace.killed)
                self.assertEqual(record.receiver(*place), channel)

    def test_none(self):
        own = example("set_a")
        for record in (own.record(TAPE, 12), own.record("200   ", 11)):
            self.assertEqual((record.channel(1), record.receiver(25, 1)), (None, None))
            self.assertEqual(record.spread(), {})
        self.assertIsNone(own.record(b"100   ", 11).receiver(1, 1))

    def test_numbers_are_not_cut(self):
        own = example("set_a")
        record = own.record(TAPE, 11)
        turn = 2**64
        questions = [lambda at=at: record.channel(at) for at in (0, -1, turn + 1, 10000)]
        questions += [lambda at=at: record.receiver(at, 1) for at in (0, -turn + 25, turn + 25)]
        questions += [lambda at=at: record.receiver(25, at) for at in (0, 10, turn + 1)]
        questions += [lambda at=at: own.record(TAPE, at).channel(1) for at in (-1, turn + 11)]
        questions += [own.record(name, 11).spread for name in ("", "100", "100    ", "10\u2026   ")]
        questions += [lambda kind=kind: sps.form(kind, own.r) for kind in ("", "r", "RS", "\u2026")]
        questions += [lambda code=code: own.table_line("R", code) for code in ("", "G", "KL", "V1")]
        mediums = (0, 3, -1, turn + 1, 2**32 + 1)
        questions += [lambda at=at: sps.form("R", own.r, medium=at) for at in mediums]
        for question in questions:
            why = refused(question)
            self.assertEqual((why.number, why.file, why.line, why.column), (20, None, 0, 0))
        with self.assertRaises(TypeError):
            record.channel(1.0)


class Refusals(unittest.TestCase):
    def test_numbers_of_the_header(self):
        header = (ROOT / "include/sps.h").read_text()
        enum = re.search(r"enum sps_number \{(.*?)\};", header, re.DOTALL)[1]
        rows = re.findall(r"SPS_(\w+) = (\d+),? +/\* (.*?) \*/", enum)
        found = [(number.name, str(number.value), number.words) for number in sps.Number]
        self.assertEqual(found, rows)

    def test_parts(self):
        why = sps.Refused(6 << 40 | 3 << 32 | 25 << 8 | 72)
        self.assertEqual((why.number, why.file, why.line, why.column), (6, "X", 25, 72))
        self.assertEqual(why.words, sps.Number.CHANNELS.words)
        again = pickle.loads(pickle.dumps(why))
        self.assertEqual((str(again), again.number), (str(why), why.number))
        unknown = sps.Refused(77 << 40)
        self.assertEqual((unknown.number, unknown.verdict), (77, "REFUSED 77"))
