#!/usr/bin/env python3
"""Problems that others published come out as published, the page's lines run as they stand, and the circuits draw themselves. Without SciPy."""
import contextlib
import io
import os
import random
import re
import subprocess
import sys
import tempfile
import unittest
import unittest.mock
from pathlib import Path
from xml.dom import minidom

sys.dont_write_bytecode = True
sys.path[:0] = [str(Path(__file__).resolve().parent)]

import compare
import drawing
from cuzzimbra import Unfinished, solve
from problems import HIRES, PROBLEMS, RING_MODULATOR, ROBERTSON, VAN_DER_POL, references
from samples import ROOT, Clean, decay

# The digits that are there at least: one less than docs/PUBLISHED-PROBLEMS.md shows.
LEAST = ((ROBERTSON, 2.6, 5.1), (VAN_DER_POL, 2.1, 4.7), (HIRES, 2.4, 5.7))


class Published(Clean):
    def test_digits(self):
        for problem, *least in LEAST:
            for rtol, digits in zip((1e-4, 1e-7), least):
                for jac in (problem.jac, None):
                    with self.subTest(problem=problem.name, rtol=rtol, differences=jac is None):
                        run = solve(problem.fun, problem.span, problem.y0, jac=jac, rtol=rtol, atol=problem.atol(rtol))
                        self.assertGreater(problem.digits(run.end), digits)

    def test_the_ring_modulator_begins(self):
        """The whole of it takes minutes: its first part ends unfinished, and says so."""
        problem = RING_MODULATOR
        run = solve(problem.fun, problem.span, problem.y0, jac=problem.jac, rtol=1e-4, atol=problem.atol(1e-4), max_steps=2000)
        self.assertEqual(run.status, "NeedLargerNMax")
        with self.assertRaises(Unfinished):
            run.end

    def test_jacobians(self):
        """Each is the slope of its right side: by central differences at random points."""
        dice = random.Random(3)
        for problem in PROBLEMS:
            for _ in range(5):
                x, y = dice.uniform(*problem.span), [value + dice.gauss(0, 0.1) for value in problem.y0]
                rows = problem.jac(x, y)
                largest = [max(map(abs, row)) for row in rows]
                for j in range(len(y)):
                    above, below = ([*y[:j], y[j] + move, *y[j + 1 :]] for move in (1e-6, -1e-6))
                    for i, (up, down) in enumerate(zip(problem.fun(x, above), problem.fun(x, below))):
                        self.assertAlmostEqual((up - down) / 2e-6, rows[i][j], delta=1e-5 * largest[i])

    def test_references(self):
        """What SciPy's Radau gave is what was published."""
        known = references()
        for problem in PROBLEMS:
            self.assertGreater(problem.digits(known["ends"][problem.name]), 6 if problem is RING_MODULATOR else 11)
            self.assertIn("Radau", known["how"][problem.name])

    def test_the_page(self):
        """It is made without SciPy too, and then says less."""
        with unittest.mock.patch.object(compare, "scipy", None), unittest.mock.patch.object(compare, "RTOLS", (1e-4,)):
            page = compare.page([HIRES])
        self.assertRegex(page, r"\| HIRES \| 0.0001 \| [0-9.]+ \| [0-9]+ \| [0-9]+ \| [0-9]+ \|\n")
        self.assertNotIn("SciPy: digits", page)


class ThePage(Clean):
    def test_ten_lines(self):
        """The lines of docs/OWN-RIGHT-SIDES.md, from the repository's root."""
        page = (ROOT / "docs" / "OWN-RIGHT-SIDES.md").read_text(encoding="utf-8")
        code = re.search(r"```python\n(.*?)```", page, re.S)[1]
        self.assertEqual(len([line for line in code.splitlines() if line]), 8)
        done = subprocess.run([sys.executable, "-B", "-c", code], cwd=ROOT, stdout=subprocess.PIPE, check=True).stdout.decode()
        status, end = done.splitlines()
        self.assertTrue(status.startswith("Success"))
        found = [float(word) for word in end.strip("[]").split(",")]
        self.assertGreater(VAN_DER_POL.digits(found), 3)


class Drawn(Clean):
    def shown(self, run, folder, names=("y",)):
        said = io.StringIO()
        with contextlib.redirect_stdout(said):
            status = drawing.show(run, os.path.join(folder, "mine.py"), list(names), "A title", "x", folder=folder)
        svg = Path(folder, "mine.svg").read_text(encoding="utf-8")
        minidom.parseString(svg)
        return status, said.getvalue().splitlines(), svg

    def test_kinds(self):
        """The status is the first line, and stands in the picture; each picture takes the place of the one before."""
        with tempfile.TemporaryDirectory() as folder:
            status, lines, svg = self.shown(solve(decay, (0, 1), [1]), folder)
            self.assertEqual((status, lines[0].startswith("Success, unchecked"), ">UNFINISHED<" in svg), (0, True, False))
            status, lines, svg = self.shown(solve(decay, (0, 1), [1], max_steps=3), folder)
            self.assertEqual((status, lines[0].startswith("NeedLargerNMax: UNFINISHED"), ">UNFINISHED<" in svg), (3, True, True))
            self.assertIn("NOT the end's", lines[1])
            status, lines, svg = self.shown(solve(lambda x, y: [1e308], (0, 1), [1e308], first_step=1, jac=[[0]]), folder)
            self.assertEqual((status, lines[0].startswith("Success, but OVERFLOWED"), ">OVERFLOWED<" in svg), (3, True, True))
            self.assertEqual(os.listdir(folder), ["mine.svg"])

    def test_circuits(self):
        for name in ("diode-clipper", "moog-ladder"):
            with self.subTest(name=name), tempfile.TemporaryDirectory() as folder:
                words = [sys.executable, "-B", str(Path("examples", f"{name}.py")), folder]
                said = subprocess.run(words, cwd=ROOT, stdout=subprocess.PIPE, check=True).stdout.decode()
                self.assertTrue(said.startswith("Success"), said)
                minidom.parse(os.path.join(folder, f"{name}.svg"))


if __name__ == "__main__":
    unittest.main()
