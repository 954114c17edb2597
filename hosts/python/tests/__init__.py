"""The tests of the package, on the sets of the folder `examples`."""

from pathlib import Path

import sps

ROOT = Path(__file__).resolve().parents[3]
EXAMPLES = ROOT / "examples"
NAMES = ("set.r01", "set.s01", "set.x01")


def medium_of(folder):
    """What the files of an example are written on, which its name says."""
    return sps.TAPE if folder.endswith("_tape") else sps.DISC


def example(folder):
    """The set of an example."""
    files = [Path(EXAMPLES, folder, name).read_bytes() for name in NAMES]
    return sps.Set(*files, medium=medium_of(folder))


def folders():
    """The names of all examples."""
    return sorted(verdict.parent.name for verdict in EXAMPLES.glob("*/verdict"))
