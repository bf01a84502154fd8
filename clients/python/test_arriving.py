#!/usr/bin/env python3
"""What `replay` prints does not depend on how its words arrive, and it answers before it waits."""
import os
import pty
import random
import struct
import subprocess
import sys
import termios
import threading
import unittest
from pathlib import Path

sys.dont_write_bytecode = True
sys.path[:0] = [str(Path(__file__).resolve().parent)]

from replaying import HOME, command

CASES = HOME / "crates" / "replay"


def words(*numbers):
    return b"".join(struct.pack(">d" if isinstance(number, float) else ">Q", number) for number in numbers)


class Arriving(unittest.TestCase):
    def begun(self):
        process = subprocess.Popen(command(), stdin=subprocess.PIPE, stdout=subprocess.PIPE)
        self.addCleanup(process.stdout.close)
        self.addCleanup(process.wait)
        self.addCleanup(process.kill)
        return process

    def printed(self, pieces):
        """What it prints where its input comes in these pieces."""
        process, found = self.begun(), []
        reader = threading.Thread(target=lambda: found.append(process.stdout.read()))
        reader.start()
        with process.stdin:
            for piece in pieces:
                process.stdin.write(piece)
                process.stdin.flush()
        reader.join(30)
        return b"".join(found)

    def pieces(self, data, draw, most):
        at = 0
        while at < len(data):
            size = draw.randint(1, most)
            yield data[at : at + size]
            at += size

    def test_the_stored_cases(self):
        """In pieces of a few bytes, of some words, and all at once."""
        data, expected = (CASES / "stdin").read_bytes(), (CASES / "stdout").read_bytes()
        for most in (11, 300, 70_000, len(data)):
            self.assertEqual(self.printed(self.pieces(data, random.Random(most), most)), expected, most)

    def test_it_answers_before_it_waits(self):
        """Byte by byte, and each answer is there before the next case is sent."""
        process = self.begun()
        for x, answer in ((4.0, b"4000000000000000\n"), (2.25, b"3FF8000000000000\n")) * 3:
            for byte in words(1, x):
                process.stdin.write(bytes([byte]))
                process.stdin.flush()
            self.assertEqual(process.stdout.readline(), answer)
        process.stdin.close()
        self.assertEqual(process.stdout.read(), b"")

    def test_a_read_that_gives_nothing_within_a_word(self):
        """As at a terminal, where an end may be typed there: it is the end only if no more comes, and the rest of the word does."""
        typed, end, case = pty.openpty(), b"\x04", words(1, 4.0)
        self.addCleanup(os.close, typed[0])
        flags = termios.tcgetattr(typed[1])
        flags[0], flags[3] = 0, termios.ICANON
        termios.tcsetattr(typed[1], termios.TCSANOW, flags)
        process = subprocess.Popen(command(), stdin=typed[1], stdout=subprocess.PIPE)
        os.close(typed[1])
        self.addCleanup(process.wait)
        self.addCleanup(process.kill)
        os.write(typed[0], case[:12] + end + end + case[12:] + end + end)
        self.assertEqual(process.communicate(timeout=30)[0], b"4000000000000000\n")

    def test_streams_that_are_none(self):
        """The answers before it, then X: a stream that ends within a case or within a word, and what is no kind."""
        good = words(1, 4.0)
        for rest in (words(1), words(1, 4.0)[:-3], b"\0", words(6), words(2**64 - 1), words(0, 65), words(0, 1, 10, 4)):
            self.assertEqual(self.printed([good, rest]), b"4000000000000000\nX\n", rest)
        self.assertEqual(self.printed([]), b"")

    def test_a_refused_beginning(self):
        """It says its number, and the next case may begin in the same process."""
        process = self.begun()
        process.stdin.write(words(0, 1, 0, 4, 0, 0.0, 1.0, 0.0, 0.0, 0.0, 0.0, 2**64 - 1, 1e-3, 2**64 - 1, 1e-6, 1.0))
        process.stdin.flush()
        self.assertEqual(process.stdout.readline(), b"R 6\n")
        process.stdin.write(words(1, 4.0))
        process.stdin.flush()
        self.assertEqual(process.stdout.readline(), b"4000000000000000\n")
        process.stdin.close()


if __name__ == "__main__":
    unittest.main()
