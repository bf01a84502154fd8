"""What the tests of the client have in common."""
import os
import sys
import unittest
from pathlib import Path

HERE = Path(__file__).resolve().parent
ROOT = HERE.parents[1]


def decay(_, y):
    return [-value for value in y]


def no_child():
    """Whether this process has no child left, not even one that ended and was not waited for."""
    try:
        os.waitpid(-1, os.WNOHANG)
    except ChildProcessError:
        return True
    return False


def alive(pid):
    """Whether a process of anyone's goes on. One that ended and that nobody waited for does not."""
    try:
        with open(f"/proc/{pid}/stat", encoding="ascii", errors="replace") as file:
            return file.read().rpartition(")")[2].split()[0] not in "ZX"
    except FileNotFoundError:
        return False


class Clean(unittest.TestCase):
    """A test after which no process is left."""

    def tearDown(self):
        self.assertTrue(no_child())


def program(*words):
    """A command of Python's that begins with what replay says first, and then does something else."""
    start = "import sys; sys.stdin.buffer.read(16); sys.stdout.write('3FF8000000000000\\n'); sys.stdout.flush(); "
    return [sys.executable, "-c", start + "; ".join(words)]
