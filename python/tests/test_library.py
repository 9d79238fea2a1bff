"""The library that is found: of another version, or of other functions, it is told which and where. And the wheel, as pip reads it."""

import ast
import ctypes.util
import importlib.metadata
import os
import shutil
import tempfile
import unittest
from pathlib import Path

import agg
from agg import _library
from tests.common import run

TOLD = """
    try:
        import agg
    except ImportError as why:
        print(why)
    else:
        print("imported")
"""
try:
    INSTALLED = importlib.metadata.distribution("agg-tool")
except importlib.metadata.PackageNotFoundError:
    INSTALLED = None


class Library(unittest.TestCase):
    def told(self, old, new):
        """What the import says of the library, in a package that wants another text where it has one."""
        found = 0
        with tempfile.TemporaryDirectory() as folder:
            shutil.copytree(Path(agg.__file__).parent, Path(folder, "agg"))
            for source in Path(folder, "agg").glob("*.py"):
                text = source.read_text()
                found += text.count(old)
                source.write_text(text.replace(old, new))
            self.assertGreater(found, 0)
            told = run(TOLD, cwd=folder).strip()
            path = _library.LIBRARY._name
            return told, path if os.environ.get("AGG_LIBRARY") else path.replace(str(Path(agg.__file__).parent), f"{folder}/agg")

    def test_of_another_version(self):
        told, path = self.told(f'"{agg.__version__}"', '"9.8.7"')
        for part in (f"the library {path} is of version {agg.version()}; ", "package is of version 9.8.7", "AGG_LIBRARY names another"):
            self.assertIn(part, told)

    def test_without_a_function(self):
        told, path = self.told("agg_known", "agg_unknown")
        self.assertIn(f"the library {path} is of version {agg.version()}, without agg_unknown; ", told)

    def test_that_is_none(self):
        for path in ("/no/libagg.so.1", __file__):
            told = run(TOLD, AGG_LIBRARY=path)
            self.assertIn(path, told)
            self.assertIn("no library", told)

    def test_of_another_program(self):
        other = ctypes.util.find_library("c")
        told = run(TOLD, AGG_LIBRARY=other)
        self.assertIn(f"the library {other} is of version unknown, without agg_new and 1", told)


class Sources(unittest.TestCase):
    def test_nothing_rests_on_assert(self):
        # python -O leaves each out.
        for source in Path(agg.__file__).parent.glob("*.py"):
            found = [node.lineno for node in ast.walk(ast.parse(source.read_text())) if isinstance(node, ast.Assert)]
            self.assertEqual(found, [], source.name)


@unittest.skipUnless(INSTALLED, "the wheel is not installed")
class Wheel(unittest.TestCase):
    def test_tags(self):
        lines = INSTALLED.read_text("WHEEL").splitlines()
        tags = [line.partition(": ")[2] for line in lines if line.startswith("Tag: ")]
        self.assertEqual(len(tags), 1)
        # Of any Python 3, without an ABI of Python's, and of one machine.
        python, abi, platform = tags[0].split("-")
        self.assertEqual((python, abi, platform == "any"), ("py3", "none", False))
        self.assertIn("Root-Is-Purelib: false", lines)

    def test_what_it_needs(self):
        told = INSTALLED.metadata
        self.assertEqual((told["Name"], told["Version"], told["Requires-Python"]), ("agg-tool", agg.__version__, ">=3.9"))
        self.assertTrue(all("extra ==" in line for line in told.get_all("Requires-Dist")))


if __name__ == "__main__":
    unittest.main()
