#!/usr/bin/env python3
"""The papers are true where a test can tell: listings are the sources, files that are named are there, no paper is cited that is not here."""
import re
import sys
import unittest
from pathlib import Path

sys.dont_write_bytecode = True
sys.path[:0] = [str(Path(__file__).resolve().parents[2])]

from samples import ROOT

# What tells of the past names files as they were.
HISTORY = ("docs/LANDINGS.md", "docs/DECISIONS.md", "docs/PORT.md", "docs/DESIGN-PASS.md", "docs/LOOK-BACK.md")
PAPERS = sorted(path for path in (*ROOT.glob("*.md"), *ROOT.glob("*/*.md")) if "target" not in path.parts)


class Papers(unittest.TestCase):
    def test_listings(self):
        """Each file that docs/USING.md shows whole."""
        text = (ROOT / "docs" / "USING.md").read_text()
        names = ("src/run.rt", "src/main.rt", "src/decimal.rt", "proofs/decimal/millionths/Answers.antt")
        for path in (ROOT / "crates" / "discharge" / name for name in names):
            source = path.read_text()
            shown = "".join(f"    {line}\n" if line else "\n" for line in source.rstrip("\n").split("\n"))
            self.assertIn(shown, text, path)
        self.assertIn("".join(f"    {line}\n" for line in (ROOT / "crates" / "discharge" / "stdout").read_text().splitlines()), text)

    def test_files_that_are_named(self):
        for paper in PAPERS:
            if str(paper.relative_to(ROOT)) in HISTORY:
                continue
            for name in re.findall(r"`((?:crates|desk|docs|examples|oracle|bench|clients)/[\w./-]+)`", paper.read_text()):
                self.assertTrue((ROOT / name).exists() or (ROOT / name.rstrip("/")).exists(), f"{paper.name}: {name}")

    def test_no_paper_that_is_not_here(self):
        for paper in PAPERS:
            text = paper.read_text()
            if paper.name not in ("LANDINGS.md", "RULES.md"):
                self.assertNotRegex(text, "[Dd]ocument 01", paper)
            for name in re.findall(r"\bdocs/[\w-]+\.md", text):
                self.assertTrue((ROOT / name).exists(), f"{paper.name}: {name}")

    def test_the_tables_of_words(self):
        """README's table of lines has every word of a circuit, and its table of first lines every kind."""
        from desk.packed import SPOKEN, WORDS
        from desk.verdict import IN_SHORT, MISTAKE

        text = (ROOT / "README.md").read_text()
        for word in WORDS + SPOKEN:
            self.assertIn(f"`{word}`", text)
        for kind, words in IN_SHORT.items():
            if kind != MISTAKE:
                self.assertIn(words, text)


if __name__ == "__main__":
    unittest.main()
