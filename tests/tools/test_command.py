"""The command line: help, statuses, and what becomes of the output."""
import os
import pty
import subprocess
import sys
import unittest

from support import COMMAND, MACHINE, POCKET, ROOT, InFolder, command


class Words(unittest.TestCase):
    def test_help(self):
        for words in ((), ("limits",), ("tape",), ("text",), ("plot",)):
            status, out, said = command(*words, "--help")
            self.assertEqual((status, said), (0, ""))
            self.assertIn(b"example: tools/fullerecru", out)

    def test_wrong_use(self):
        wrong = [
            (), ("draw",), ("limits",), ("tape", "one"), ("tape", "--back", "one", "two"),
            ("tape", "one", "two", "three"), ("text", "one"), ("plot", "a.tape", "-o", "a.jpg"),
        ]
        for words in wrong:
            status, out, said = command(*words)
            self.assertEqual((status, out), (2, b""), words)
            self.assertIn("usage: fullerecru", said)

    def test_no_library(self):
        status, out, said = command("limits", MACHINE, FULLERECRU_LIBRARY="/no/such/lib.so")
        self.assertEqual((status, out), (1, b""))
        self.assertIn("fullerecru: no library of Fullerecru: /no/such/lib.so", said)
        self.assertNotIn("Traceback", said)


class Outputs(InFolder):
    def test_standard_output(self):
        status, out, said = command("limits", MACHINE)
        self.assertEqual((status, len(out), said), (0, 24, ""))
        status, text, said = command("limits", "--back", POCKET)
        self.assertEqual((status, said), (0, ""))
        self.assertIn("tick = ", text.decode())

    def on_terminal(self, *words):
        """Status, standard output of a terminal, and standard error."""
        ours, theirs = pty.openpty()
        done = subprocess.run([sys.executable, COMMAND, *words], stdout=theirs, stderr=subprocess.PIPE)
        os.set_blocking(ours, False)
        try:
            shown = os.read(ours, 4096)
        except (BlockingIOError, OSError):
            shown = b""
        os.close(theirs)
        os.close(ours)
        return done.returncode, shown, done.stderr.decode()

    def test_terminal(self):
        status, shown, said = self.on_terminal("limits", MACHINE)
        self.assertEqual((status, shown), (1, b""))
        self.assertIn("not for a terminal", said)
        status, shown, said = self.on_terminal("limits", "--back", POCKET)
        self.assertEqual((status, said), (0, ""))
        self.assertIn("tick = ", shown.decode())

    def test_over_its_own_input(self):
        path = self.file("machine", MACHINE.read_bytes())
        link = self.folder / "link"
        link.symlink_to(path)
        for out in (path, link):
            status, said = self.called("limits", path, "-o", out)
            self.assertEqual(status, 1)
            self.assertIn("machine: it is read here, and would be overwritten", said)
            self.assertEqual(path.read_bytes(), MACHINE.read_bytes())

    def test_write_protected(self):
        path = self.file("old", b"old")
        path.chmod(0o444)
        status, said = self.called("limits", MACHINE, "-o", path)
        self.assertEqual(status, 1)
        self.assertIn("old: it is write-protected", said)
        self.assertEqual(path.read_bytes(), b"old")

    def test_mode_of_the_old_file_stays(self):
        path = self.file("old", b"old")
        path.chmod(0o600)
        self.assertEqual(self.called("limits", MACHINE, "-o", path), (0, ""))
        self.assertEqual((len(path.read_bytes()), path.stat().st_mode & 0o777), (24, 0o600))

    def test_link(self):
        target, link = self.file("target", b"old"), self.folder / "link"
        link.symlink_to(target)
        self.assertEqual(self.called("limits", MACHINE, "-o", link), (0, ""))
        self.assertTrue(link.is_symlink())
        self.assertEqual(len(target.read_bytes()), 24)

    def test_mode_is_the_users(self):
        out = self.folder / "out"
        self.assertEqual(self.called("limits", MACHINE, "-o", out), (0, ""))
        mask = os.umask(0)
        os.umask(mask)
        self.assertEqual(out.stat().st_mode & 0o777, 0o666 & ~mask)

    def test_device_stays(self):
        self.assertEqual(self.called("limits", MACHINE, "-o", "/dev/null"), (0, ""))
        self.assertTrue(os.path.exists("/dev/null") and not os.path.isfile("/dev/null"))

    def test_no_such_folder(self):
        status, said = self.called("limits", MACHINE, "-o", self.folder / "none" / "out")
        self.assertEqual(status, 1)
        self.assertIn("No such file or directory", said)

    def test_full_device(self):
        with open("/dev/full", "wb") as full:
            done = subprocess.run([sys.executable, COMMAND, "limits", MACHINE], stdout=full,
                                  stderr=subprocess.PIPE)
        said = b"fullerecru: standard output: No space left on device\n"
        self.assertEqual((done.returncode, done.stderr), (1, said))

    def test_closed_pipe(self):
        reader, writer = os.pipe()
        os.close(reader)
        moves = ROOT / "examples" / "tapes" / "mould-row.tape"
        done = subprocess.run([sys.executable, COMMAND, "tape", "--back", moves], stdout=writer,
                              stderr=subprocess.PIPE)
        os.close(writer)
        self.assertEqual((done.returncode, done.stderr), (1, b""))


if __name__ == "__main__":
    unittest.main()
