"""The stack that a thread needs which plans or reports tapes, as the README says."""
import subprocess
import sys
import unittest

from support import MODULE, TAPES
from fullerecru import _library

# Bytes of stack, in whole pages, and not above the 200 kB of the README.
STACK = 48 * 4_096

# Makes every call on a whole tape in a thread with so much stack.
CALLS = """
import sys, threading
import fullerecru

def run():
    fullerecru.plan_tape(tape)
    fullerecru.list_tape(tape)
    fullerecru.held_by(tape)
    fullerecru.Report().add(tape)
    print("answered")

with open(sys.argv[2], "rb") as file:
    tape = file.read()
threading.stack_size(int(sys.argv[1]))
thread = threading.Thread(target=run)
thread.start()
thread.join()
"""


def calls_on(stack):
    """What another interpreter does with so many bytes of stack: one that has too few dies."""
    known = {"PYTHONPATH": str(MODULE), "PYTHONDONTWRITEBYTECODE": "1", _library.VARIABLE: str(_library.path())}
    return subprocess.run(
        [sys.executable, "-c", CALLS, str(stack), str(TAPES[0])], env=known,
        stdout=subprocess.PIPE, stderr=subprocess.PIPE, universal_newlines=True,
    )


class Threads(unittest.TestCase):
    def test_stack_of_the_readme(self):
        done = calls_on(STACK)
        self.assertEqual((done.returncode, done.stdout, done.stderr), (0, "answered\n", ""))

    def test_a_stack_too_small_ends_the_process(self):
        done = calls_on(16 * 4_096)
        self.assertNotEqual(done.returncode, 0)
        self.assertEqual(done.stdout, "")


if __name__ == "__main__":
    unittest.main()
