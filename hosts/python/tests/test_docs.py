"""The examples of the package's own docs, each of which is run."""

import doctest
import importlib
import inspect
import pkgutil
import unittest

import sps

from . import example

NAMES = {
    "sps": sps,
    "set_a": example("set_a"),
    "tape_a": example("set_a_tape"),
    "killed": example("killed"),
}


def documented():
    """The functions and classes of the package, by name."""
    found = {}
    for module in pkgutil.iter_modules(sps.__path__, "sps."):
        for name, item in vars(importlib.import_module(module.name)).items():
            own = (getattr(item, "__module__", None) or "").split(".")[0] == "sps"
            if own and (inspect.isfunction(item) or inspect.isclass(item)):
                found[id(item)] = name, item
    return found.values()


def names_of(item):
    """What the examples of an item name: what stands beside a function, the package, the sets."""
    beside = inspect.unwrap(item).__globals__ if inspect.isfunction(item) else {}
    return {**beside, **NAMES}


def load_tests(loader, tests, pattern):
    """The examples join the tests of this file."""
    for name, item in documented():
        for test in doctest.DocTestFinder().find(item, name, module=False, globs=names_of(item)):
            if test.examples:
                tests.addTest(doctest.DocTestCase(test))
    return tests


class Documented(unittest.TestCase):
    def test_each_public_name_has_an_example(self):
        finder = doctest.DocTestFinder()
        for name in sps.__all__:
            item = getattr(sps, name)
            if inspect.isfunction(item) or inspect.isclass(item):
                own = finder.find(item, name, module=False, globs={})
                self.assertTrue(any(test.examples for test in own), name)
