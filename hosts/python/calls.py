"""Every call of libsps from Python, through ctypes.

The arguments are a shared object made of the archive, the folders of set A on disc and on tape, and
that of a set with a killed receiver and a killed shot.
"""

import ctypes
import struct
import sys
from pathlib import Path

U64 = ctypes.c_uint64
SIZE = ctypes.c_size_t
FILES = [U64] + [ctypes.c_char_p, SIZE] * 3
RECORD = [ctypes.c_char_p, SIZE, U64]
BYTES = [ctypes.POINTER(ctypes.c_uint8), SIZE]

DISC, TAPE = 1, 2

# The tables of set A for 1, G1 and V1, and its receivers, by their lines in R.
OF_1, OF_G1, OF_V1, FIRST, SECOND, THIRD = 22, 23, 24, 25, 26, 27


def library(path):
    """The twelve calls with their types."""
    sps = ctypes.CDLL(path)
    types = {
        "sps_form": [U64, U64, ctypes.c_char_p, SIZE],
        "sps_cross": FILES,
        "sps_counts": FILES + BYTES,
        "sps_traces": FILES + [U64] + BYTES,
        "sps_trace": FILES + RECORD + [U64],
        "sps_channel": FILES + RECORD + [U64, U64],
        "sps_spread": FILES + RECORD + BYTES + BYTES,
        "sps_table_line": FILES + [U64, ctypes.c_char_p, SIZE],
        "sps_read_point": [U64, U64, ctypes.c_char_p, SIZE, U64] + BYTES,
        "sps_read_relation": [U64, ctypes.c_char_p, SIZE, U64] + BYTES,
        "sps_write_point": [U64, ctypes.c_char_p, SIZE] + BYTES,
        "sps_write_relation": [ctypes.c_char_p, SIZE] + BYTES,
    }
    for name, arguments in types.items():
        call = getattr(sps, name)
        call.argtypes = arguments
        call.restype = U64
    assert not hasattr(sps, "sps_check")
    return sps


def files(medium, folder):
    """The set of a folder, as the calls take it."""
    read = [Path(folder, name).read_bytes() for name in ("set.r01", "set.s01", "set.x01")]
    return [medium] + [part for file in read for part in (file, len(file))]


def refusal(number, file, line, column):
    """A refusal as one number."""
    return (number << 40) + (file << 32) + line * 256 + column


def forms(sps, set_a):
    """Each file of set A as each kind, and kinds that are none."""
    medium = set_a[0]
    for own, file in zip("RSX", (set_a[1:3], set_a[3:5], set_a[5:7])):
        for number, kind in enumerate("RSX", 1):
            expected = 0 if kind == own else refusal(4, number, FIRST, 1)
            assert sps.sps_form(medium, ord(kind), *file) == expected
        for kind in (0, 1, ord("r"), ord("H"), 2**32 + ord(own), 2**64 - 1):
            assert sps.sps_form(medium, kind, *file) == refusal(20, 0, 0, 0)
            assert sps.sps_form(medium, kind, None, 0) == refusal(20, 0, 0, 0)
        assert sps.sps_form(0, ord(own), *file) == refusal(20, 0, 0, 0)
    assert sps.sps_form(DISC, ord("X"), None, 0) == 0
    assert sps.sps_form(TAPE, ord("X"), None, 0) == refusal(29, 3, 1, 0)


def answers(sps, set_a):
    """What set A is answered."""
    record = [b"100   ", 6, 11]
    counts = (ctypes.c_uint8 * 41)(*[170] * 41)
    assert sps.sps_cross(*set_a) == 3
    assert sps.sps_counts(*set_a, counts, 41) == 3
    assert bytes(counts) == struct.pack("<5QB", 3, 1, 1, 3, 0, 170)
    assert sps.sps_trace(*set_a, *record, 2) == SECOND * 16 + 1
    assert sps.sps_channel(*set_a, *record, SECOND, 1) == 2
    assert sps.sps_trace(*set_a, *record, 4) == 0
    assert sps.sps_table_line(*set_a, ord("X"), b"1", 1) == OF_1
    assert sps.sps_table_line(*set_a, ord("R"), b"G1", 2) == OF_G1
    assert sps.sps_table_line(*set_a, ord("S"), b"V1", 2) == OF_V1
    assert sps.sps_table_line(*set_a, ord("R"), b"G2", 2) == 0

    lines = (ctypes.c_uint8 * 7)(*[238] * 7)
    components = (ctypes.c_uint8 * 3)()
    assert sps.sps_spread(*set_a, *record, lines, 7, components, 3) == 3
    assert bytes(lines) == bytes([FIRST, 0, SECOND, 0, THIRD, 0, 238])
    assert bytes(components) == bytes([1, 1, 1])


def killed(sps, asked):
    """Three components of each receiver, of which the second is killed."""
    record = [b"100   ", 6, 11]
    counts = (ctypes.c_uint8 * 40)()
    assert sps.sps_cross(*asked) == 9
    assert sps.sps_counts(*asked, counts, 40) == 9
    assert bytes(counts) == struct.pack("<5Q", 3, 2, 1, 9, 3)
    short = (ctypes.c_uint8 * 39)(*[170] * 39)
    assert sps.sps_counts(*asked, short, 39) == 9
    assert bytes(short) == struct.pack("<4Q", 3, 2, 1, 9) + bytes([170] * 7)
    for channel in range(1, 10):
        line, component = FIRST + (channel - 1) // 3, (channel - 1) % 3 + 1
        mark = 2**32 if line == SECOND else 0
        assert sps.sps_trace(*asked, *record, channel) == mark + line * 16 + component
        assert sps.sps_channel(*asked, *record, line, component) == channel
    lines = (ctypes.c_uint8 * 18)()
    components = (ctypes.c_uint8 * 9)()
    assert sps.sps_spread(*asked, *record, lines, 18, components, 9) == 9
    assert bytes(lines) == bytes([FIRST, 0] * 3 + [SECOND, 0] * 3 + [THIRD, 0] * 3)
    assert bytes(components) == bytes([1, 2, 3] * 3)
    rows = (ctypes.c_uint8 * 50)(*[170] * 50)
    assert sps.sps_traces(*asked, 2, rows, 50) == 9
    held = [(FIRST, 3, FIRST, 3, 0), (FIRST, 4, SECOND, 1, 1), (FIRST, 5, SECOND, 2, 1)]
    assert bytes(rows) == b"".join(struct.pack("<3I2B2x", *row) for row in held) + bytes([170] * 2)
    assert sps.sps_traces(*asked, 0, None, 0) == 9


def refusals(sps, set_a, last):
    """What is refused, and what that leaves; the last line of R is given."""
    counts = (ctypes.c_uint8 * 40)(*[170] * 40)
    medium, r, r_len = set_a[:3]
    cut = [medium, r, r_len - 1] + set_a[3:]
    assert sps.sps_form(medium, ord("R"), r, r_len - 1) == refusal(1, 1, last, 0)
    assert sps.sps_counts(*cut, counts, 40) == refusal(1, 1, last, 0)
    assert sps.sps_traces(*cut, 0, counts, 40) == refusal(1, 1, last, 0)
    for other in (0, 3, 2**32 + 1, 2**64 - 1):
        assert sps.sps_counts(other, *set_a[1:], counts, 40) == refusal(20, 0, 0, 0)
        assert sps.sps_cross(other, *cut[1:]) == refusal(20, 0, 0, 0)
    assert bytes(counts) == bytes([170] * 40)
    assert sps.sps_cross(DISC, None, 0, None, 0, None, 0) == refusal(7, 1, 1, 0)
    assert sps.sps_cross(TAPE, None, 0, None, 0, None, 0) == refusal(29, 1, 1, 0)
    assert sps.sps_trace(*set_a, b"100", 3, 11, 2) == refusal(20, 0, 0, 0)
    assert sps.sps_trace(*set_a, b"100   ", 6, 2**64 - 1, 2) == refusal(20, 0, 0, 0)
    others = (("R", b"V1"), ("S", b"KL"), ("X", b"1,"), ("H", b"G1"))
    for kind, code in (*((ord(kind), code) for kind, code in others), (2**32 + 82, b"G1")):
        assert sps.sps_table_line(*set_a, kind, code, 2) == refusal(20, 0, 0, 0)
    assert sps.sps_table_line(*cut, ord("R"), b"G1", 2) == refusal(1, 1, last, 0)

    lines = (ctypes.c_uint8 * 5)(*[238] * 5)
    components = (ctypes.c_uint8 * 3)(*[238] * 3)
    asked = [*set_a, b"100   ", 6, 11]
    assert sps.sps_spread(*asked, lines, 5, components, 3) == refusal(21, 0, 0, 0)
    assert sps.sps_spread(*asked, None, 0, None, 0) == refusal(21, 0, 0, 0)
    assert bytes(lines) == bytes([238] * 5)
    assert bytes(components) == bytes([238] * 3)


def text(name):
    """Bytes as one number, or as two of eight, the high byte first."""
    return [int.from_bytes(name[at : at + 8], "big") for at in range(0, len(name), 8)]


def lines(sps, set_a, disc):
    """A receiver and the relation line of set A, read on a medium, changed, and written on disc."""
    medium, r, r_len, _, _, x, x_len = set_a
    absent, name = -(2**63), text(b"L1".ljust(16))
    values, line = (ctypes.c_uint8 * 129)(*[170] * 129), (ctypes.c_uint8 * 83)(*[170] * 83)
    assert sps.sps_read_point(medium, ord("R"), r, r_len, FIRST, values, 129) == 0
    point = [*name, 101, 1, *text(b"G1"), 0, absent, 0, 0, absent, absent, 0, 0, 0, 113, 71245]
    assert bytes(values) == struct.pack("<16qB", *point, 170)
    assert sps.sps_write_point(ord("R"), struct.pack("<16q", *point), 128, line, 83) == 0
    first = slice((FIRST - 1) * 82, FIRST * 82)
    assert bytes(line) == disc[1][first] + bytes([170])
    point[13] = -5
    assert sps.sps_write_point(ord("R"), struct.pack("<16q", *point), 128, line, 83) == 0
    assert bytes(line)[65:71] == b"  -0.5"

    assert sps.sps_read_relation(medium, x, x_len, FIRST, values, 128) == 0
    relation = [*text(b"100   "), 11, 1, 1, *name, 501, 1, 1, 3, 1, *name, 101, 103, 1]
    assert bytes(values) == struct.pack("<16qB", *relation, 170)
    assert sps.sps_write_relation(struct.pack("<16q", *relation), 128, line, 83) == 0
    assert bytes(line) == disc[5][first] + bytes([170])


def refused_lines(sps, set_a):
    """Lines that are not read, values that are not written, and what that leaves."""
    medium, r, r_len, _, _, x, x_len = set_a
    stays = (ctypes.c_uint8 * 128)(*[170] * 128)
    no_lines = (0, FIRST - 1, THIRD + 1, 2**32 + FIRST)
    asked = [(medium, ord("R"), r, r_len, line) for line in no_lines]
    asked += [(medium, letter, r, r_len, FIRST) for letter in (0, ord("X"), 256 + ord("R"))]
    for question in asked + [(0, ord("R"), r, r_len, FIRST), (medium, ord("R"), None, 0, 1)]:
        assert sps.sps_read_point(*question, stays, 128) == refusal(20, 0, 0, 0)
    of_r = [medium, ord("S"), r, r_len, FIRST]
    assert sps.sps_read_point(*of_r, stays, 128) == refusal(4, 2, FIRST, 1)
    assert sps.sps_read_relation(medium, x, x_len, FIRST + 1, stays, 128) == refusal(20, 0, 0, 0)

    values = (ctypes.c_uint8 * 128)()
    assert sps.sps_read_relation(medium, x, x_len, FIRST, values, 128) == 0
    values = bytes(values)
    apart = values[:72] + struct.pack("<q", 4) + values[80:]
    assert sps.sps_write_relation(values, 128, stays, 81) == refusal(23, 0, 0, 0)
    assert sps.sps_write_relation(values, 127, stays, 82) == refusal(22, 0, 0, 0)
    assert sps.sps_write_relation(apart, 128, stays, 81) == refusal(22, 0, 0, 0)
    assert sps.sps_write_point(ord("R"), values, 128, stays, 82) == refusal(22, 0, 0, 0)
    assert sps.sps_write_point(ord("R"), None, 0, None, 0) == refusal(22, 0, 0, 0)
    assert bytes(stays) == bytes([170] * 128)


def main():
    shared, disc, tape, with_killed = sys.argv[1:]
    sps = library(shared)
    for set_a, last in ((files(DISC, disc), THIRD), (files(TAPE, tape), THIRD + 1)):
        forms(sps, set_a)
        answers(sps, set_a)
        refusals(sps, set_a, last)
        lines(sps, set_a, files(DISC, disc))
        refused_lines(sps, set_a)
    killed(sps, files(DISC, with_killed))


if __name__ == "__main__":
    main()
