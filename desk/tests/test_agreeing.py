#!/usr/bin/env python3
"""What `agree.py` and `forms.py` put, and that no answer that differs is taken for the expected one."""
import random
import subprocess
import sys
import unittest
from pathlib import Path
from unittest import mock

sys.dont_write_bytecode = True
sys.path[:0] = [str(Path(__file__).resolve().parents[2])]

import agree
import forms
from desk import circuit, packed
from samples import form


class Agreeing(unittest.TestCase):
    """What `agree.py` compares by: its own packing and spelling, and where it parts the writer's answers."""

    def test_packing_and_spelling(self):
        draw = random.Random(2)
        for row, one, _ in forms.some_forms(draw, 300):
            found = packed.refusal(one)
            if found is None:
                self.assertEqual(forms.packing(one), one.packed())
                self.assertEqual(circuit.of_text(forms.spelled(one, forms.by_its_digits), "t").packed(), one.packed())
            self.assertTrue(found is None or row in ("one damage", "several damages"))

    def test_each_number_is_met(self):
        draw = random.Random(3)
        for some in (forms.each_bound, forms.each_two):
            met = {found and found[0] for found in (packed.refusal(one) for _, one, _ in some(draw))}
            self.assertLessEqual({1, 17, 5, 6, 7, 8}, met)

    def test_any_bytes(self):
        """Some of them are jobs, and none of these has many steps."""
        written = []
        for row, data, _ in forms.some_files(random.Random(4), 1000):
            case = agree.of_file(row, data, forms.LONGEST_ROOM)
            if row == "any bytes" and case.number is None:
                written.append(packed.of_bytes(data, row))
        self.assertGreater(len([job for job in written if job.n > 0]), 2)
        self.assertLessEqual(max(job.max_steps for job in written), forms.FEW)

    def test_answers(self):
        said = b"W 2\nR \n1\xa5" + b"R 17\n" + b"R 5\n\xa5\xa5"
        expected = [("W 2", b"R \n1\xa5"), ("R 17", b""), ("R 5", b"\xa5\xa5")]
        self.assertEqual(self.parted(said), expected)
        for length in range(len(said)):
            self.assertNotEqual(self.parted(said[:length])[-1], expected[-1])
        for more in (b"\n", b"X\n", b"R 1\n"):
            self.assertNotEqual(self.parted(said + more)[-1], expected[-1])
            self.assertEqual(len(self.parted(more + said)), 3)

    def parted(self, output):
        with mock.patch("agree.put", lambda *_: output):
            return agree.written("", [], [5, 0, 2])

    def test_no_case_has_no_answer(self):
        with mock.patch("agree.put", lambda *_: b"R 1\n"):
            self.assertEqual(agree.written("", [], []), [])

    def test_how_a_program_ended(self):
        for status, line in ((0, b""), (1, b"exit status 1\n"), (-11, b"ended by a signal\n")):
            for printed, answer in ((b"R 5\n", "R 5"), (b"I 0\nE 0\n", "E")):
                with mock.patch("subprocess.run", lambda *_, **__: subprocess.CompletedProcess([], status, printed)):
                    self.assertEqual(agree.put("", b""), printed + line)
                    self.assertEqual(agree.ran.__wrapped__("", b"") == answer, status == 0)


class Making(unittest.TestCase):
    """What `make` leaves is held to the case, with an older file and without: an error in it is seen."""

    GOOD, REFUSED = form(1), form(1, max_steps=0)

    def agrees(self, one):
        case = agree.of_form("", one, 0, packed.written)
        return [agree.made.__wrapped__(case.text, older) == case.left(older) for older in (None, agree.OLDER)]

    def test_as_it_is(self):
        self.assertEqual(self.agrees(self.GOOD), [True, True])
        self.assertEqual(self.agrees(self.REFUSED), [True, True])

    def test_another_file_is_left(self):
        def half(data, path):
            Path(path).write_bytes(data[:20])

        def two(data, path):
            Path(path).write_bytes(data)
            Path(path + ".part").write_bytes(data)

        for save in (half, two, lambda *_: None):
            with mock.patch("desk.saving.save", save):
                self.assertEqual(self.agrees(self.GOOD), [False, False])

    def test_a_refusal_leaves_a_file(self):
        def opened_too_soon(path, of_file=circuit.of_file):
            Path(path + ".job").write_bytes(b"")
            return of_file(path)

        def taken_away(path, of_file=circuit.of_file):
            if Path(path + ".job").exists():
                Path(path + ".job").unlink()
            return of_file(path)

        for of_file, agrees in ((opened_too_soon, [False, False]), (taken_away, [True, False])):
            with mock.patch("desk.circuit.of_file", of_file):
                self.assertEqual(self.agrees(self.REFUSED), agrees)

    def test_another_number(self):
        for number in (5, None):
            with mock.patch("desk.circuit.of_file", side_effect=packed.Wrong("t, line 2: wrong", number)):
                self.assertEqual(self.agrees(self.REFUSED), [False, False])
                self.assertEqual(self.agrees(self.GOOD), [False, False])
        with mock.patch("desk.filing.to_save", lambda one, _: one.packed()), mock.patch("desk.circuit.refusal", lambda _: None):
            self.assertEqual(agree.made.__wrapped__(self.REFUSED.text(), None)[0], "saved")


if __name__ == "__main__":
    unittest.main()
