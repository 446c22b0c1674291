"""What the tests of tools/fullerecru share: where things lie, and ways to run the command."""
import contextlib
import io
import os
import subprocess
import sys
import tempfile
import unittest
from pathlib import Path

ROOT = Path(__file__).resolve().parents[2]
COMMAND = ROOT / "tools" / "fullerecru"
sys.path[:0] = [str(ROOT / "tools"), str(ROOT / "bindings" / "python")]

from fullerecru_command.main import main  # noqa: E402  (found by the path above)

TAPES = sorted((ROOT / "examples" / "tapes").glob("*.tape"))
MACHINE = ROOT / "examples" / "limits" / "machine-m.limits"
POCKET = ROOT / "examples" / "tapes" / "square-pocket.tape"
PROGRAMS = ROOT / "target" / "bin"


def command(*words, **variables):
    """The command in a process of its own: status, standard output (bytes) and standard error."""
    done = subprocess.run(
        [sys.executable, COMMAND, *words], env={**os.environ, **variables},
        stdout=subprocess.PIPE, stderr=subprocess.PIPE,
    )
    return done.returncode, done.stdout, done.stderr.decode()


class InFolder(unittest.TestCase):
    """A test with a folder of its own."""

    def setUp(self):
        self.temporary = tempfile.TemporaryDirectory()
        self.addCleanup(self.temporary.cleanup)
        self.folder = Path(self.temporary.name)

    def file(self, name, content):
        """A file of the folder, of text or of bytes."""
        path = self.folder / name
        path.write_bytes(content if isinstance(content, bytes) else content.encode())
        return path

    def made(self, *words):
        """What the command writes to a file."""
        out = self.folder / "out"
        status, said = self.called(*words, "-o", out)
        self.assertEqual((status, said), (0, ""))
        return out.read_bytes()

    def called(self, *words):
        """Status and standard error of the command in this process."""
        said = io.StringIO()
        with contextlib.redirect_stderr(said):
            status = main([str(word) for word in words])
        return status, said.getvalue()

    def fault(self, *words):
        """The message of a command that must end with status 1, without writing what it was to."""
        out = self.folder / "kept"
        out.write_bytes(b"kept")
        before = sorted(os.listdir(self.folder))
        status, said = self.called(*words, "-o", out)
        self.assertEqual(status, 1, said)
        self.assertEqual(out.read_bytes(), b"kept")
        self.assertEqual(sorted(os.listdir(self.folder)), before)
        return said
