"""Where the shared library is looked for, and the types of its calls."""

import ctypes
import os
import re
import subprocess
import sys
import unittest

from sps._library import _CALLS, SONAME

from . import ROOT

ASK = "import sps; sps.form('X', b'')"


class Library(unittest.TestCase):
    def run_with(self, library):
        named = {**os.environ, "SPS_LIBRARY": library}
        ask = [sys.executable, "-c", ASK]
        return subprocess.run(ask, env=named, capture_output=True, text=True)

    def test_the_one_that_is_named(self):
        self.assertEqual(self.run_with(os.environ["SPS_LIBRARY"]).returncode, 0)

    def test_one_that_is_not_there(self):
        found = self.run_with("/nowhere/libsps.so")
        self.assertEqual(found.returncode, 1)
        self.assertIn("ImportError: libsps.so is not found: set SPS_LIBRARY to it", found.stderr)

    def test_one_without_the_calls(self):
        found = self.run_with("libc.so.6")
        self.assertEqual(found.returncode, 1)
        self.assertIn("undefined symbol: sps_form", found.stderr)


class Version(unittest.TestCase):
    def test_the_name_that_install_gives(self):
        """The loader is asked for the library by its name with the major version."""
        manifest = (ROOT / "hosts/rust/Cargo.toml").read_text()
        major = re.search(r'^version = "(\d+)\.', manifest, re.MULTILINE).group(1)
        self.assertIn("soname=libsps.so.${version%%.*}\n", (ROOT / "install").read_text())
        self.assertEqual(SONAME, f"libsps.so.{major}")


class Calls(unittest.TestCase):
    def test_types_of_the_header(self):
        header = (ROOT / "include/sps.h").read_text()
        call = re.compile(r"^uint64_t (sps_\w+)\((.*?)\);", re.DOTALL | re.MULTILINE)
        declared = dict(call.findall(header))
        for name, types in _CALLS.items():
            found = [self.type_of(argument) for argument in declared[name].split(",")]
            self.assertEqual(found, types, name)

    def type_of(self, argument):
        """The type of an argument: memory, a length or a number."""
        if "*" in argument:
            return ctypes.c_void_p
        return {"size_t": ctypes.c_size_t, "uint64_t": ctypes.c_uint64}[argument.split()[0]]
