#!/usr/bin/env python3
"""A text packs to the bytes that docs/JOB-FORMAT.md says and comes back; what is wrong is told by its line, by the writer's rules and in
its order."""
import itertools
import random
import sys
import tempfile
import unittest
from pathlib import Path

sys.dont_write_bytecode = True
sys.path[:0] = [str(Path(__file__).resolve().parents[2])]

from desk import circuit, packed
from samples import AUTOMATIC, EXAMPLES, FIRST, FIRST_BYTES, NONE, first, form



class Packing(unittest.TestCase):
    def test_first_job(self):
        self.assertEqual(first().packed(), bytes.fromhex(FIRST_BYTES))
        automatic = circuit.of_text(AUTOMATIC, "first").packed()
        self.assertEqual(automatic[:5].hex(), "0461a80240")
        self.assertEqual(automatic[21:29], bytes(8))

    def test_examples_come_back(self):
        for path in EXAMPLES.glob("*.txt"):
            data = circuit.of_file(str(path)).packed()
            shown = packed.of_bytes(data, path.name).text()
            self.assertEqual(circuit.of_text(shown, path.name).packed(), data, path.name)

    def test_any_bits_come_back(self):
        numbers = random.Random(1)
        for n in (0, 1, 2, 5, 32):
            for _ in range(20):
                count = 5 + n + n * n
                doubles = [numbers.choice([numbers.getrandbits(64), 1 << 63, 1, 0x7FF0 << 48, 0xFFF0 << 48, (0x7FF0 << 48) + 1]) for _ in range(count)]
                doubles[2:5] = [numbers.getrandbits(62) + 1, numbers.getrandbits(63), numbers.getrandbits(63)]
                head = n << 34 | numbers.randint(1, 1_000_000) << 14 | numbers.randint(0, 64) << 7
                data = head.to_bytes(5, "big") + b"".join(bits.to_bytes(8, "big") for bits in doubles)
                self.assertEqual(circuit.of_text(packed.of_bytes(data, "job").text(), "text").packed(), data)

    def test_unfit_files(self):
        good = first().packed()
        automatic = circuit.of_text(AUTOMATIC, "first").packed()
        minus_zero = automatic[:21] + bytes([0x80]) + automatic[22:]
        unfit = [b"", good[:4], good[:-1], good + b"\0", good[:4] + b"\1" + good[5:], minus_zero]
        above = [bytes([33 << 2]) + good[1:], bytes([63 << 2, 0, 0, 0, 1])]
        for data, number in [(data, 17) for data in unfit] + [(data, 1) for data in above]:
            with self.assertRaises(packed.Wrong) as told:
                packed.of_bytes(data, "job")
            self.assertIn(f"(refused by number {number})", str(told.exception))
            self.assertEqual(told.exception.number, number)

    def test_what_fits_no_file_is_not_packed(self):
        for n, change, number in ((33, {}, 1), (1, {"max_steps": 1 << 20}, 17), (1, {"newton_maxiter": 128}, 17), (0, {"y0": [0]}, 17)):
            with self.assertRaises(packed.Wrong) as told:
                form(n, **change).packed()
            self.assertEqual(told.exception.number, number)


class Telling(unittest.TestCase):
    """What is wrong with a text is told with its line."""

    # What stands in a text, what is put in its place, and what is told.
    WRONG = [
        ("x0 0", "x0 0,5", "t, line 4: 0,5 is no number (such as 0.5, -1e-3, infinity, or 0x and 16 digits); write the decimal point as a point"),
        ("x0 0", "x0 \u22121", "t, line 4: \u22121 is no number"),
        ("x0 0", "x0 0x3FF", "t, line 4: 0x3FF: after 0x come the 16"),
        ("x0 0", "x0 1e999", "t, line 4: 1e999 is too large"),
        ("x0 0", "x0 1e-999", "t, line 4: 1e-999 is too small"),
        ("x0 0", "x0 0 1", "t, line 4: x0 wants one value, here are 2"),
        ("x0 0", "start 0", "t, line 4: 'start': a line begins with one of"),
        ("x0 0", "xend 0", "t, line 5: xend already stands in line 4"),
        ("x0 0", "# x0 0", "t: there is no line that begins with x0"),
        ("n 1", "n 33", "t, line 1: n is 33, above 32 (the job program would refuse it by number 1)"),
        ("n 1", "n one", "t, line 1: one is no whole number"),
        ("n 1", "n -1", "t, line 1: -1 is no whole number"),
        ("n 1", "n \u0661", "t, line 1: \u0661 is no whole number"),
        ("n 1", "n 1" + 5000 * "0", "0 is no whole number that a job can have"),
        ("n 1", "n 2", "t, line 9: y0 has 1 number, but n is 2"),
        ("  0\n", "  0\n  1\n", "t, line 10: A has 2 rows, but n is 1"),
        ("  0\n", "  0 1\n", "t, line 11: row 1 of A has 2 numbers, but n is 1"),
        ("  0\n", "  zero\n", "t, line 11: zero is no number"),
        ("max_steps 100000", "max_steps 0", "t, line 2: max_steps is 0"),
        ("max_steps 100000", "max_steps 1000001", "t, line 2: max_steps is 1000001, above 1,000,000 ("),
        ("newton_maxiter 4", "newton_maxiter 65", "t, line 3: newton_maxiter is 65, above 64 ("),
        ("rtol 1e-3", "rtol -1e-3", "t, line 7: rtol is below 0"),
        ("first_step 0.5", "first_step -0.0", "t, line 6: first_step is 0; write automatic"),
        ("y0 1", "y0 1\nnames a b", "t, line 10: names has 2, but n is 1"),
        ("y0 1", "y0 1\nnames", "t, line 10: names has 0, but n is 1"),
        ("rtol 1e-3", "Rtol 1e-3", "t, line 7: 'Rtol': write rtol; a line begins with one of"),
        ("max_steps 100000", "max_step 100000", "t, line 2: 'max_step': write max_steps; "),
        ("newton_maxiter 4", "Newton-MaxIter 4", "t, line 3: 'Newton-MaxIter': write newton_maxiter; "),
        ("xend 1", "xend: 1", "t, line 5: 'xend:': write xend; "),
        ("A\n  0\n", "A\n  0\nTitle x\n", "t, line 12: 'Title': write title; "),
        ("x0 0", "x0 0#from here", "t, line 4: x0 wants one value, here are 2"),
        ("x0 0", "x0 0#start", "t, line 4: 0#start is no number (such as 0.5, -1e-3, infinity, or 0x and 16 digits); before the # of a comment leave a blank"),
        ("n 1", "n 1#", "t, line 1: 1# is no whole number that a job can have (such as 0, 4 or 1000); write digits alone"),
        ("max_steps 100000", "max_steps 1,000,000", "(such as 0, 4 or 1000); write digits alone"),
        ("x0 0", "x0 1,5e-3", "; write the decimal point as a point, not as a comma, and no commas between digits"),
        ("x0 0", "x0 \u22125", "; write the minus as -"),
        ("x0 0", "x0 -Inf", "; write -infinity"),
        ("x0 0", "x0 NaN", "; write nan"),
        ("rtol 1e-3", "rtol=1e-3", "t, line 7: 'rtol=1e-3': write rtol 1e-3; "),
    ]

    def told(self, old, new):
        self.assertIn(old, FIRST)
        with self.assertRaises(packed.Wrong) as told:
            circuit.of_text(FIRST.replace(old, new), "t")
        return told.exception

    def test_by_line(self):
        for old, new, words in self.WRONG:
            told = self.told(old, new)
            self.assertIn(words, str(told))
            # a refusal ends in its number; a mistake of the text alone has none
            self.assertEqual(str(told).endswith(f" by number {told.number})"), told.number is not None, told)

    def test_comments(self):
        """They begin at a line's beginning or after a blank: a sharp stays with its note."""
        for line, title in (
            ("title Prelude in C# minor", "Prelude in C# minor"),
            ("title C#4 and F#", "C#4 and F#"),
            ("title A # a comment", "A"),
            ("title A\t# a comment", "A"),
            ("title A #", "A"),
            ("title #1", "a job"),
            ("# title A", "a job"),
            ("  # title A", "a job"),
        ):
            self.assertEqual(circuit.of_text(f"{line}\n{FIRST}", "t").title, title, line)
        self.assertEqual(circuit.of_text(f"names C#4 # one\n{FIRST}", "t").names, ["C#4"])

    def test_line_ends(self):
        for text in (FIRST.replace("\n", "\r\n"), FIRST.replace("\n", "\r"), "\n\n" + FIRST, FIRST[:-1]):
            self.assertEqual(circuit.of_text(text, "t").packed(), first().packed())

    def test_two_of_one_name(self):
        two = FIRST.replace("n 1", "names V V\nn 2").replace("y0 1", "y0 1 1").replace("  0\n", "  0 1\n  2 3\n")
        with self.assertRaisesRegex(packed.Wrong, "t, line 1: two components are named V"):
            circuit.of_text(two, "t")

    def test_no_files(self):
        for path, words in (("/dev/zero", "more than 1,000,000 bytes"), ("/dev/null", "the file is empty"), ("/", "this is a folder"), ("a\0b", "null")):
            with self.assertRaisesRegex(packed.Wrong, words):
                circuit.of_file(path)

    def test_files_as_editors_save_them(self):
        with tempfile.TemporaryDirectory() as folder:
            path = Path(folder, "a.txt")
            path.write_bytes(b"\xef\xbb\xbf" + FIRST.encode())  # with a mark of UTF-8
            self.assertEqual(circuit.of_file(str(path)).packed(), first().packed())
            self.assertEqual(circuit.of_file(str(path)).title, "a.txt")
            for coding in ("latin-1", "utf-16"):
                path.write_bytes(("title \u00dc\n" + FIRST).encode(coding))
                with self.assertRaisesRegex(packed.Wrong, "line 1: this is no text in UTF-8; save it as UTF-8"):
                    circuit.of_file(str(path))
            job = Path(folder, "a.JOB")
            job.write_bytes(first().packed())
            self.assertEqual(circuit.of_file(str(job)).packed(), first().packed())
            job.write_text(FIRST)
            with self.assertRaisesRegex(packed.Wrong, "this looks like a text, whose name must not end in .job"):
                circuit.of_file(str(job))

    def test_leading_zeros(self):
        self.assertEqual(circuit.of_text(FIRST.replace("n 1", "n " + 5000 * "0" + "1"), "t").packed(), first().packed())

    def test_rows_of_another_shape(self):
        """As many numbers as there should be, but not in n rows of n: no mistake that a form can have."""
        two = FIRST.replace("n 1", "n 2").replace("y0 1", "y0 1 1")
        circuit.of_text(two.replace("  0\n", "  0 1\n  2 3\n"), "t")
        for rows, line in (("  0 1 2\n  3\n", 11), ("  0 1 2 3\n", 10), ("  0\n 1\n 2\n 3\n", 10)):
            with self.assertRaises(packed.Wrong) as told:
                circuit.of_text(two.replace("  0\n", rows), "t")
            self.assertIsNone(told.exception.number)
            self.assertIn(f"t, line {line}: ", str(told.exception))


class Rules(unittest.TestCase):
    """The writer's rules, of forms and of texts."""

    # What is damaged in a text, in the writer's order of checking: the line, what stands there instead, the refusal's number.
    DAMAGES = [
        (1, "n 33", 1),
        (9, "y0 1 1", 17),
        (10, "A 0", 17),
        (2, "max_steps 1048576", 17),
        (3, "newton_maxiter 128", 17),
        (7, "rtol -1e-3", 5),
        (8, "atol -4.9e-324", 5),
        (2, "max_steps 0", 6),
        (2, "max_steps 1000001", 7),
        (3, "newton_maxiter 65", 7),
        (6, "first_step -0", 8),
    ]

    def number(self, n, **change):
        found = packed.refusal(form(n, **change))
        return found and found[0]

    def test_steps(self):
        bounds = {0: (None, 6), 1: (None, None), 1_000_000: (None, None), 1_000_001: (None, 7), (1 << 20) - 1: (None, 7)}
        bounds.update({1 << 20: (17, 17), (1 << 64) - 1: (17, 17)})
        for steps, (for_none, for_one) in bounds.items():
            self.assertEqual(self.number(0, max_steps=steps), for_none, steps)
            self.assertEqual(self.number(1, max_steps=steps), for_one, steps)

    def test_newton(self):
        bounds = {0: (None, None), 64: (None, None), 65: (None, 7), 127: (None, 7), 128: (17, 17), (1 << 64) - 1: (17, 17)}
        for newton, (for_none, for_one) in bounds.items():
            self.assertEqual(self.number(0, newton_maxiter=newton), for_none, newton)
            self.assertEqual(self.number(1, newton_maxiter=newton), for_one, newton)

    def test_components(self):
        for n, number in ((0, None), (1, None), (32, None), (33, 1), (63, 1), (64, 1)):
            self.assertEqual(self.number(n), number, n)
        self.assertEqual(packed.refusal(form(1, n=(1 << 64) - 1))[:2], (1, "n"))

    def test_lengths(self):
        for n in (0, 1, 2, 32):
            for word, right in (("y0", n), ("A", n * n)):
                for count in {right - 1, right + 1, 0} - {right, -1}:
                    self.assertEqual(packed.refusal(form(n, **{word: [0] * count}))[:2], (17, word))

    def test_tolerances(self):
        below = (0x8000_0000_0000_0001, 0xBFF0 << 48, 0xFFF0 << 48)  # the least below 0, -1, -infinity
        not_below = (0, 1 << 63, 1, 0x7FF0 << 48, 0x7FF8 << 48, 0xFFF8 << 48, (0x7FF0 << 48) + 1, (1 << 64) - 1)  # and NaNs
        for word in ("rtol", "atol"):
            for bits in below + not_below:
                self.assertIsNone(self.number(0, **{word: bits}))
                found = packed.refusal(form(1, **{word: bits}))
                self.assertEqual(found and found[:2], (5, word) if bits in below else None, hex(bits))

    def test_first_step(self):
        for bits, used, beside_automatic in ((0, 8, None), (1 << 63, 8, 17), (1, None, 17), (0xBFF0 << 48, None, 17), ((1 << 64) - 1, None, 17)):
            self.assertEqual(self.number(1, first_step=bits), used, hex(bits))
            self.assertIsNone(self.number(0, first_step=bits))
            for n in (0, 1):
                self.assertEqual(self.number(n, automatic=True, first_step=bits), beside_automatic, hex(bits))

    def test_texts(self):
        """What a form may say a text may say, to the same bytes."""
        at_their_bounds = [
            (0, {"max_steps": (1 << 20) - 1, "newton_maxiter": 127, "first_step": 1 << 63, "rtol": 0xBFF0 << 48}),
            (1, {"max_steps": 1_000_000, "newton_maxiter": 64}),
            (1, {"rtol": (1 << 64) - 1, "atol": 1 << 63}),
            (32, {"newton_maxiter": 0}),
        ]
        for n, change in at_their_bounds:
            data = form(n, **change).packed()
            self.assertEqual(circuit.of_text(packed.of_bytes(data, "job").text(), "t").packed(), data)
            self.assertEqual(packed.to_save(form(n, **change), "form"), data)

    def damaged(self, *damages):
        lines = FIRST.split("\n")
        for line, instead, _ in damages:
            lines[line - 1] = instead
        with self.assertRaises(packed.Wrong) as told:
            circuit.of_text("\n".join(lines), "t")
        return told.exception

    def test_order_and_lines(self):
        for damage in self.DAMAGES:
            self.holds(damage, self.damaged(damage))
        for one, other in itertools.combinations(self.DAMAGES, 2):
            if one[0] != other[0]:
                self.holds(one, self.damaged(one, other))
        self.holds(self.DAMAGES[0], self.damaged(*self.DAMAGES[1:], self.DAMAGES[0]))

    def holds(self, damage, told):
        line, instead, number = damage
        self.assertEqual(told.number, number, instead)
        self.assertIn(f"t, line {line}: ", str(told))
        self.assertIn(f"by number {number})", str(told))

    def test_order_of_forms(self):
        """What no text can say: an automatic start with a first_step beside it."""
        beside = {"automatic": True, "first_step": 1 << 63}
        self.assertEqual(packed.refusal(form(33, **beside))[:2], (1, "n"))
        self.assertEqual(packed.refusal(form(1, rtol=0xBFF0 << 48, max_steps=0, **beside))[:2], (17, "first_step"))

    def test_no_component(self):
        unlooked = NONE.replace("100000", "1048575").replace("maxiter 4", "maxiter 127").replace("0.5", "0").replace("rtol ", "rtol -")
        self.assertEqual(len(circuit.of_text(unlooked, "t").packed()), 45)
        for old, new in (("1048575", "1048576"), ("127", "128"), ("y0", "y0 1"), ("A", "A 1")):
            with self.assertRaises(packed.Wrong) as told:
                circuit.of_text(unlooked.replace(old, new), "t")
            self.assertEqual(told.exception.number, 17)


if __name__ == "__main__":
    unittest.main()
