"""Where the library is found, and what is said where it is not."""
import os
import shutil
import subprocess
import sys
import tempfile
import unittest
from pathlib import Path

from support import MODULE
from fullerecru import VERSION, _library
import fullerecru

ASK = "import fullerecru; print(fullerecru.version())"


def asked(folder, **variables):
    """The answer of another interpreter that imports the module from a folder."""
    known = {name: value for name, value in os.environ.items() if name != _library.VARIABLE}
    known.update(PYTHONPATH=str(folder), PYTHONDONTWRITEBYTECODE="1", **variables)
    return subprocess.run(
        [sys.executable, "-c", ASK], env=known, cwd="/", stdout=subprocess.PIPE,
        stderr=subprocess.PIPE, universal_newlines=True,
    )


class Library(unittest.TestCase):
    def setUp(self):
        self.folder = tempfile.TemporaryDirectory()
        self.addCleanup(self.folder.cleanup)
        self.outside = Path(self.folder.name)
        shutil.copytree(MODULE / "fullerecru", self.outside / "fullerecru")

    def test_version(self):
        self.assertEqual(fullerecru.version(), VERSION)
        self.assertEqual(fullerecru.__version__, _library.version_text(VERSION))
        self.assertEqual(_library.version_text(12_034_056), "12.34.56")

    def test_named_by_the_variable(self):
        answer = asked(self.outside, FULLERECRU_LIBRARY=_library.path())
        self.assertEqual((answer.stdout, answer.stderr), (f"{VERSION}\n", ""))

    def test_named_and_not_there(self):
        answer = asked(self.outside, FULLERECRU_LIBRARY="/no/such/lib.so")
        self.assertIn("/no/such/lib.so", answer.stderr)
        self.assertIn("ImportError", answer.stderr)

    def test_no_library(self):
        answer = asked(self.outside)
        if answer.returncode == 0:
            self.skipTest("the system has a library of Fullerecru installed")
        for place in (_library.VARIABLE, "target/lib/libfullerecru.so", _library.LOADED_NAME):
            self.assertIn(place, answer.stderr)

    def test_found_by_the_loader(self):
        shutil.copy(_library.path(), self.outside / _library.LOADED_NAME)
        answer = asked(self.outside, LD_LIBRARY_PATH=str(self.outside))
        self.assertEqual((answer.stdout, answer.stderr), (f"{VERSION}\n", ""))

    def test_other_version(self):
        with open(self.outside / "fullerecru" / "sizes.py", "a", encoding="utf-8") as sizes:
            sizes.write('\nVERSION, VERSION_TEXT = 999_999_999_999, "another one"\n')
        answer = asked(self.outside, FULLERECRU_LIBRARY=_library.path())
        told = f"has version {_library.version_text(VERSION)}, and this module is for another one"
        self.assertIn(told, answer.stderr)

    def test_another_library(self):
        maps = Path("/proc/self/maps").read_text()
        other = next(line.split()[-1] for line in maps.splitlines() if "libc.so" in line)
        answer = asked(self.outside, FULLERECRU_LIBRARY=other)
        self.assertIn("has no fullerecru_version", answer.stderr)


if __name__ == "__main__":
    unittest.main()
