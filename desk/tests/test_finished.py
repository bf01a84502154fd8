#!/usr/bin/env python3
"""No output that is cut off, refused or thinned out looks finished."""
import sys
import unittest
from pathlib import Path
from xml.dom import minidom

sys.dont_write_bytecode = True
sys.path[:0] = [str(Path(__file__).resolve().parents[2])]

from desk import causes, circuit, outcome, picture, verdict
from samples import AUTOMATIC, FIRST, FIRST_LINES, NONE


def read(text, exit_status=0, job=FIRST):
    return outcome.read(circuit.of_text(job, "t"), text.encode().splitlines(keepends=True), exit_status)


class Finished(unittest.TestCase):
    def drawn(self, came):
        """The picture and the first line agree on whether it is finished."""
        found = verdict.of_run(came) or verdict.unchecked("a test")
        svg = picture.draw(came, found)
        minidom.parseString(svg)
        across = {verdict.UNFINISHED: ">UNFINISHED</text>", verdict.REFUSED: ">REFUSED</text>", verdict.OVERFLOWED: ">OVERFLOWED</text>"}
        for kind, words in across.items():
            self.assertEqual(words in svg, kind == found.kind)
        self.assertEqual(found.line.startswith("Success"), came.finished)
        self.assertEqual(found.kind in across, not came.finished or found.kind == verdict.OVERFLOWED)

    def test_whole(self):
        self.assertTrue(read(FIRST_LINES).finished)
        self.drawn(read(FIRST_LINES))

    def test_cut_off_anywhere(self):
        for length in range(len(FIRST_LINES)):
            came = read(FIRST_LINES[:length])
            self.assertFalse(came.finished, FIRST_LINES[:length])
            self.drawn(came)

    def test_a_line_missing_or_twice(self):
        lines = FIRST_LINES.splitlines(keepends=True)
        for i in range(len(lines)):
            self.assertFalse(read("".join(lines[:i] + lines[i + 1 :])).finished)
            self.assertFalse(read("".join(lines[: i + 1] + lines[i:])).finished)

    def test_other_ends(self):
        for status in "123":
            came = read(FIRST_LINES.replace("E 0", f"E {status}"), job=FIRST.replace("100000", "2"))
            self.assertFalse(came.finished)
            self.assertIn("UNFINISHED", came.status())
            self.drawn(came)
        for lines in ("R 17\n", "R 8\n", FIRST_LINES.replace("E 0", "E 4"), FIRST_LINES.replace("E 0", "E 00"), FIRST_LINES.replace(" ", "  ")):
            self.assertFalse(read(lines).finished)
            self.drawn(read(lines))

    def test_counters_that_do_not_add_up(self):
        self.assertFalse(read(FIRST_LINES.replace(" 2 2 0 ", " 3 2 0 ")).finished)

    def test_an_end_line_that_lacks_the_start(self):
        came = read(FIRST_LINES.replace(" 3 1 1 0\n", " 3 1 1\n"))
        self.assertFalse(came.finished)
        self.assertIn("line 4 of the output is the end line of an older program", came.status())
        self.assertIn("Do NOT take the last value for the end's", causes.progress(came))
        self.drawn(came)
        for counts in (" 3 1 1 0 0\n", " 3 1\n", "\n", " 3 1 1 \n", " 3 1 1 2\n", " 3 1 1 00\n"):
            came = read(FIRST_LINES.replace(" 3 1 1 0\n", counts))
            self.assertIn("line 4 of the output is no end line", came.status())

    def test_the_start_in_words(self):
        self.assertEqual(read(FIRST_LINES).counted(), "2 attempts, 2 accepted, 0 rejected, 3 derivatives and none for the start, 1 Jacobians, 1 factorings")
        lines = FIRST_LINES.replace(" 3 1 1 0\n", " 3 1 1 1\n")
        came = read(lines, job=AUTOMATIC)
        self.assertTrue(came.finished)
        self.assertIn("3 derivatives and 1 for the start, ", came.counted())

    def test_a_start_that_is_another_job_s(self):
        for lines, text in ((FIRST_LINES.replace(" 1 0\n", " 1 1\n"), FIRST), (FIRST_LINES, AUTOMATIC)):
            came = read(lines, job=text)
            self.assertFalse(came.finished)
            self.assertIn("for the start, but this job takes", came.status())
            self.drawn(came)

    def test_lines_of_another_job(self):
        """The beginning, the limits and the counters are held against the job, to the bit."""
        for old, new, words in (
            ("x0 0", "x0 -0.0", "the output begins at x = 0.0, but x0 is -0.0"),
            ("x0 0", "x0 5e-324", "the output begins at x = 0.0, but x0 is 5e-324"),
            ("y0 1", "y0 1.0000000000000002", "the output begins with y1 = 1.0, but y0 has 1.0000000000000002 there"),
            ("max_steps 100000", "max_steps 1", "the end line counts 2 attempts, but max_steps is 1"),
        ):
            came = read(FIRST_LINES, job=FIRST.replace(old, new))
            self.assertFalse(came.finished)
            self.assertIn(f"UNFINISHED: {words}: the lines are another job's", came.status())
            self.drawn(came)
        for old, new in ((" 3 1 1 0", " 9 1 1 0"), (" 3 1 1 0", " 3 5 1 0"), (" 3 1 1 0", " 3 1 3 0")):
            came = read(FIRST_LINES.replace(old, new), job=FIRST.replace("maxiter 4", "maxiter 1"))
            self.assertIn("more derivatives, Jacobians or factorings than this job can take", came.status())
        self.assertTrue(read(FIRST_LINES.replace(" 3 1 1 0", " 6 4 2 0"), job=FIRST.replace("maxiter 4", "maxiter 0")).finished)
        came = read(FIRST_LINES.replace("E 0", "E 2"))
        self.assertIn("the steps were used up after 2, but max_steps is 100000", came.status())
        self.assertIsNone(read(FIRST_LINES.replace("E 0", "E 2"), job=FIRST.replace("100000", "2")).fault)
        nan = "7FF8000000000000"
        lines = FIRST_LINES.replace("I 0000000000000000 3FF0000000000000", f"I 0000000000000000 {nan}")
        self.assertTrue(read(lines, job=FIRST.replace("y0 1", "y0 0xFFF0000000000001")).finished)  # every NaN is printed as one

    def test_every_component_and_both_directions(self):
        two = FIRST.replace("n 1", "n 2").replace("y0 1", "y0 1 0.5").replace("  0\n", "  0 0\n  0 0\n")
        half = "3FE0000000000000"
        lines = FIRST_LINES.replace("3FF0000000000000\n", f"3FF0000000000000 {half}\n").replace(f"E 0 {half} {half}", f"E 0 {half}")
        self.assertTrue(read(lines, job=two).finished, read(lines, job=two).fault)
        self.assertIn("with y2 = 0.5, but y0 has 0.25", read(lines, job=two.replace("0.5\nA", "0.25\nA")).status())
        backward = FIRST.replace("xend 1", "xend -1")
        back = FIRST_LINES.replace("S 3", "S B")
        self.assertTrue(read(back, job=backward).finished)
        self.assertFalse(read(back.replace("S BFF0", "S BFE8"), job=backward).finished)
        self.assertIn("beyond xend", read(back.replace("S BFF0", "S BFF8"), job=backward).status())

    def test_lines_out_of_place(self):
        first_line = FIRST_LINES.split("\n")[0] + "\n"
        for lines in (
            first_line + "R 8\n",
            FIRST_LINES.replace("S 3FF", "I 3FF"),
            FIRST_LINES.replace("E 0", first_line + "E 0"),
            FIRST_LINES.replace(" 2 2 0 3 ", " 2 2 0  3 "),
            FIRST_LINES.replace(" 2 2 0 ", " 02 2 0 "),
        ):
            self.assertFalse(read(lines).finished, lines)
            self.drawn(read(lines))
        self.assertIn("refuses a run that had begun", read(first_line + "R 8\n").status())
        self.assertIn("not a number that a job is refused by", read("R 99\n").status())

    def test_no_component(self):
        end = "E 0 0000000000000000 0 0 0 0 0 0 0\n"
        self.assertTrue(read(end, job=NONE).finished)
        for lines in ("I 0000000000000000\n" + end, end.replace("E 0", "E 3"), "", end.replace(" 0\n", " 1\n")):
            self.assertFalse(read(lines, job=NONE).finished, lines)

    def test_no_first_line(self):
        came = read("E 0 3FE0000000000000 0 0 0 0 0 0 0\n")
        self.assertIn("no first line", came.status())

    def test_success_short_of_the_end(self):
        self.assertFalse(read(FIRST_LINES.replace("S 3FF0000000000000", "S 3FEFFFFFFFFFFFFF")).finished)

    def test_the_program_fails_at_last(self):
        self.assertFalse(read(FIRST_LINES, exit_status=1).finished)

    def test_numbers_that_cannot_be_drawn(self):
        for bits in ("7FF8000000000000", "7FF0000000000000", "7FEFFFFFFFFFFFFF", "0000000000000001", "FFEFFFFFFFFFFFFF"):
            self.drawn(read(FIRST_LINES.replace("S 3FE0000000000000 3FF0000000000000", f"S 3FE0000000000000 {bits}")))
            self.drawn(read(FIRST_LINES.replace("3FF0000000000000\nS", f"{bits}\nS")))


if __name__ == "__main__":
    unittest.main()
