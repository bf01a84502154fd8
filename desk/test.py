#!/usr/bin/env python3
"""Runs the tests of the desk: every file tests/test_*.py, each of which can also be run alone. Those that run circuits want the job program: what
RUN_JOB names, or the one that is built."""
import sys
import unittest
from pathlib import Path

sys.dont_write_bytecode = True
HERE = Path(__file__).resolve().parent
sys.path[:0] = [str(HERE.parent)]


def load_tests(loader, _, __):
    return loader.discover(str(HERE / "tests"), "test_*.py")


if __name__ == "__main__":
    unittest.main()
