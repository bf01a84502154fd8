#!/usr/bin/env python3
"""Runs the tests of the client: every file test_*.py beside this one, each of which can also be run alone. They want the program replay: what
CUZZIMBRA_REPLAY names, or the one that is built."""
import sys
import unittest
from pathlib import Path

sys.dont_write_bytecode = True
HERE = Path(__file__).resolve().parent
sys.path[:0] = [str(HERE)]


def load_tests(loader, _, __):
    return loader.discover(str(HERE), "test_*.py")


if __name__ == "__main__":
    unittest.main()
