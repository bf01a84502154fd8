#!/usr/bin/env python3
"""A run is called settled only where a second one at other tolerances bears it out."""
import math
import sys
import unittest
from array import array
from pathlib import Path
from unittest import mock

sys.dont_write_bytecode = True
sys.path[:0] = [str(Path(__file__).resolve().parents[2])]

from desk import circuit, curve, outcome, program, running, settled, verdict
from desk.packed import bits_of, value
from samples import EXAMPLES, FIRST, Desk, ring, wants_the_program


def run_through(xs, *columns, rtol="1e-3", atol="1e-6", a=None):
    """A finished run through these points; A is 0 unless it is given."""
    n = len(columns)
    job = circuit.of_text(FIRST.replace("rtol 1e-3", f"rtol {rtol}").replace("atol 1e-6", f"atol {atol}"), "t")
    came = outcome.Outcome(job.but(n=n, a=[bits_of(x) for x in a or [0.0] * n * n]))
    came.names = [f"y{i + 1}" for i in range(n)]
    came.xs, came.ys = array("d", xs), [array("d", column) for column in columns]
    return came


def circuit_of(y0, *rows, xend="1", first_step="automatic", rtol="1e-3", atol="1e-6"):
    """A circuit's text, from y0 and the rows of A."""
    head = f"n {len(rows)}\nmax_steps 200000\nnewton_maxiter 4\nx0 0\nxend {xend}\nfirst_step {first_step}\nrtol {rtol}\natol {atol}\ny0 {y0}\nA\n"
    return head + "".join(f"  {row}\n" for row in rows)


def grid(count, end=1.0):
    return [end * i / count for i in range(count + 1)]


class Moving(unittest.TestCase):
    """What moved between two runs, by how much."""

    def test_nothing(self):
        came = run_through(grid(10), grid(10))
        one = settled.moved(came, came)[0]
        self.assertEqual((one.part, one.units, one.end, one.end_units, one.size), (0, 0, 0, 0, 1))

    def test_points_that_are_not_the_same(self):
        """Two runs of one smooth curve at other points: only what lies between the points is taken otherwise."""
        xs, others = grid(40), grid(97)
        came, other = (run_through(some, [math.sin(7 * x) for x in some], [math.exp(-3 * x) for x in some]) for some in (xs, others))
        for one in settled.moved(came, other):
            self.assertLess(one.part, 1e-5)
            self.assertLess(one.end, 1e-12)

    def test_the_end_alone(self):
        xs = grid(50)
        came, other = run_through(xs, [0.0] * 50 + [2.0]), run_through(xs, [0.0] * 50 + [2.5])
        one = settled.moved(came, other)[0]
        self.assertEqual((one.end, one.part, one.size), (0.2, 0.2, 2.5))
        self.assertAlmostEqual(one.end_units, 0.5 / (1e-6 + 1e-3 * 2.5))

    def test_between_alone(self):
        """A swing that one of the two runs steps over, whichever it is."""
        xs, others = grid(4), grid(64)
        swing = [math.exp(-((x - 0.4) ** 2) / 0.002) for x in others]
        coarse, fine = run_through(xs, xs), run_through(others, [x + y for x, y in zip(others, swing)])
        for came, other in ((coarse, fine), (fine, coarse)):
            one = settled.moved(came, other)[0]
            self.assertGreater(one.part, 0.6)
            self.assertLess(one.part, 1.1)
            self.assertLess(one.end, 1e-6)

    def test_a_component_that_is_nothing(self):
        xs = grid(3)
        self.assertEqual(settled.moved(run_through(xs, [0.0] * 4), run_through(xs, [0.0] * 4))[0].part, 0)
        self.assertEqual(settled.moved(run_through(xs, [0, 0, 1, 0]), run_through(xs, [0.0] * 4))[0].part, math.inf)
        one = settled.moved(run_through(xs, [0, 0, 1, 0], rtol="0", atol="0"), run_through(xs, [0.0] * 4))[0]
        self.assertEqual(one.units, math.inf)

    def test_backward(self):
        xs, others = [-x for x in grid(40)], [-x for x in grid(97)]
        one = settled.moved(run_through(xs, [math.cos(5 * x) for x in xs]), run_through(others, [math.cos(5 * x) for x in others]))[0]
        self.assertLess(one.part, 1e-5)
        self.assertLess(one.end, 1e-12)
        moved = settled.moved(run_through(xs, [1.0] * 20 + [2.0] + [1.0] * 20), run_through(xs, [1.0] * 40 + [1.5]))[0]
        self.assertGreater(moved.part, 0.5)

    def test_a_tone_on_a_supply(self):
        """Of its swing it moves by all, of its largest value by next to nothing: the swing counts."""
        xs = grid(100)
        came, other = (run_through(xs, [12 + sign * 0.02 * math.cos(20 * x) for x in xs]) for sign in (1, -1))
        one = settled.moved(came, other)[0]
        self.assertAlmostEqual(one.size, 0.04, 4)
        self.assertGreater(one.part, 0.9)

    def test_a_supply_that_is_constant(self):
        """But for rounding, which is no swing."""
        xs = grid(2)
        one = settled.moved(run_through(xs, [12.0, 12.0, 12.000000000000002]), run_through(xs, [12.0, 12.000000000000002, 12.0]))[0]
        self.assertLess(one.part, 1e-12)

    def test_what_stays_below_atol(self):
        """It was not computed, whether it moved or not."""
        xs = grid(10)
        for size, why in ((1e-20, True), (1e-6, True), (1.1e-6, False), (0.0, False)):
            came = run_through(xs, [size * (i % 2) for i in range(11)])
            one = settled.moved(came, came)[0]
            self.assertEqual(one.why is not None, why, size)
        self.assertIn("y1 stays below atol, 1e-06, and was not computed", settled.moved(run_through(xs, [1e-9] * 11), run_through(xs, [1e-9] * 11))[0].why)

    def test_a_swing_below_its_tolerance(self):
        """It was not computed either: a tone of 1 mV on 12 V at rtol 1e-3, whose tolerance is 12 mV."""
        xs = grid(100)
        for swing, why in ((0.001, True), (0.011, True), (0.013, False), (0.0, False)):
            came = run_through(xs, [12 + swing * (i % 2) for i in range(101)])
            one = settled.moved(came, came)[0]
            self.assertEqual(one.why is not None, why, swing)
            self.assertEqual(one.decides, "rtol")
        self.assertEqual(settled.moved(run_through(xs, xs, atol="1"), run_through(xs, xs, atol="1"))[0].decides, "atol")

    def test_what_can_grow_from_nothing(self):
        """A latch that is balanced but for a millionth; not a ring, a decay, or what grows from the start on."""
        xs = grid(10, 0.05)
        came = run_through(xs, [1.0] * 11, [0.999999] * 11, a=[499.5, -500.5, -500.5, 499.5])
        name, factor = settled.growing(came)
        self.assertEqual(name, "y1")
        self.assertAlmostEqual(factor / (math.exp(50) / 2), 1, 6)
        for a, columns in (([-1.0], [[math.exp(-x) for x in xs]]), ([0.0, 2764.0, -2764.0, 0.0], [[1.0] * 11] * 2), ([1000.0], [[math.exp(1000 * x) for x in xs]])):
            self.assertIsNone(settled.growing(run_through(xs, *columns, a=a)))
        backward = run_through([-x for x in xs], [1.0] * 11, [0.999999] * 11, a=[-499.5, 500.5, 500.5, -499.5])
        self.assertIsNotNone(settled.growing(backward))

    def test_the_exponential(self):
        turn = settled.exponential([[0.0, 3.0], [-3.0, 0.0]], 2.0)
        for found, true in zip(sum(turn, []), (math.cos(6), math.sin(6), -math.sin(6), math.cos(6))):
            self.assertAlmostEqual(found, true, 12)
        stiff = settled.exponential([[-1e6, 0.0], [1.0, -1.0]], 1.0)
        self.assertEqual(stiff[0], [0.0, 0.0])
        self.assertAlmostEqual(stiff[1][1], math.exp(-1), 8)
        self.assertEqual(settled.exponential([[1000.0]], 10.0), [[math.inf]])

    def test_what_is_nothing_but_rounding(self):
        """Balanced voltages leave something in the component that they feed: that is 0, and neither moves nor stays below atol."""
        xs = grid(10)
        row = [-1.1, 0.1, 0, 0.1, -1.1, 0, 3, -3, -7]
        ones = [math.exp(-x) for x in xs]
        came, other = (run_through(xs, ones, ones, [size * (-1) ** i for i in range(11)], a=row) for size in (2e-16, 3e-20))
        found = settled.moved(came, other)[2]
        self.assertEqual((found.part, found.why), (0, None))
        came = run_through(xs, ones, ones, [1e-10] * 11, a=row)
        self.assertIsNotNone(settled.moved(came, came)[2].why)
        fast = run_through(xs, ones, [x for x in xs], a=[-1e14, 0, 1e14, -0.5])  # what feeds it is gone at once: that is no balance
        self.assertEqual(settled.moved(fast, fast)[1].size, 1)

    def test_an_end_a_hair_beyond(self):
        xs, others = grid(10), grid(20)[:-1] + [1.0000000000000002]
        one = settled.moved(run_through(xs, xs), run_through(others, others))[0]
        self.assertLess(one.part, 1e-12)

    def test_steps_that_grow_fast(self):
        """The straight line is taken rather than a polynomial that swings: what is wrong in a point hardly grows between."""
        xs = [0.0] + [10.0**k for k in range(-8, 1)]
        noisy = [1e-6 * (-1) ** i for i in range(len(xs))]
        for x, place in zip(grid(500), curve.between(xs, grid(500))):
            self.assertLessEqual(abs(curve.at(noisy, place)), 2.5e-6, x)

    def test_very_large_values(self):
        xs = grid(20)
        huge = [1.7e308 * (-1) ** i for i in range(21)]
        self.assertEqual(settled.moved(run_through(xs, huge), run_through(grid(30), [-1.7e308 * (-1) ** i for i in range(31)]))[0].part, math.inf)
        one = settled.Moved("y1", 1.0)
        one.take(math.nan, 1.0)
        self.assertEqual((one.part, one.end), (math.inf, math.inf))

    def test_very_many_points(self):
        """Of very many one in each row of neighbours is looked at, where the runs lie farthest apart, and the end always."""
        xs = grid(150_000)
        level = [2.0 if i % 2 else 0.0 for i in range(150_001)]
        for at in (0, 70_001, 70_003, 149_999, 150_000):
            other = level[:]
            other[at] += 1.0
            places = settled.farthest(xs, level, xs, other, xs)
            self.assertLess(len(places), settled.MOST_PLACES + 3)
            self.assertIn(xs[at], places)
            self.assertEqual((places[-1], places), (1.0, sorted(places)))
        one = settled.moved(run_through(xs, level), run_through(xs, level[:-1] + [3.0]))[0]
        self.assertEqual(one.end, 1.0)


class Second(unittest.TestCase):
    """At which tolerances the second run is made."""

    def seconds(self, rtol, atol):
        text = FIRST.replace("rtol 1e-3", f"rtol {rtol}").replace("atol 1e-6", f"atol {atol}")
        came = outcome.Outcome(circuit.of_text(text, "t"))
        came.ys = [[1.0, 0.5]]
        return [(value(one.job.rtol), value(one.job.atol), one.words, one.finer) for one in settled.seconds(came)]

    def test_finer(self):
        found = self.seconds("1e-4", "1e-7")
        self.assertEqual(found[0], (1e-4 / 100, 1e-7 / 100, "100 times finer", True))
        self.assertEqual(found[1], (1e-4 / 10, 1e-7 / 10, "10 times finer", True))
        self.assertEqual(found[2], (1e-4 * 100, 1e-7 * 100, "100 times coarser (finer ones cannot be had)", False))
        self.assertEqual(len(found), 3)
        self.assertEqual(self.seconds("0", "1e-7")[0][:2], (0, 1e-7 / 100))
        self.assertEqual(self.seconds("1e-4", "0")[0][:2], (1e-4 / 100, 0))

    def test_as_fine_as_doubles_bear(self):
        rtol, atol, words, finer = self.seconds("2e-12", "1e-18")[0]
        self.assertTrue(finer)
        self.assertEqual(words, "20 times finer")
        self.assertAlmostEqual(rtol * 1e13, 1)
        for rtol in ("1e-13", "5e-13", "1e-300"):
            self.assertEqual([one[2:] for one in self.seconds(rtol, "1e-315")], [("100 times coarser (finer ones cannot be had)", False)])
        # where atol decides, it is atol that is made finer
        for rtol in ("1e-12", "1e-14"):
            self.assertEqual(self.seconds(rtol, "1e-4")[0][1:], (1e-4 / 100, "100 times finer", True))
        self.assertEqual([one[2] for one in self.seconds("1e-12", "1e-30")][0], "10 times finer")
        self.assertEqual(len(self.seconds("1e-12", "1e-30")), 2)

    def test_none(self):
        for rtol, atol in (("1", "1e-3"), ("1e5", "1e-3"), ("infinity", "1e-3"), ("1e-3", "infinity"), ("nan", "1"), ("1", "nan"), ("0", "0")):
            self.assertEqual(self.seconds(rtol, atol), [], (rtol, atol))

    def test_the_limit_is_the_largest(self):
        came = outcome.Outcome(circuit.of_text(FIRST.replace("100000", "7"), "t"))
        came.ys = [[1.0]]
        one = next(settled.seconds(came))
        self.assertEqual((one.job.max_steps, one.job.newton_maxiter, one.job.xend), (1_000_000, 4, 0x3FF0 << 48))
        self.assertEqual((one.job.automatic, one.job.first_step), (True, 0))  # a step that is given could take both over the same


class Saying(unittest.TestCase):
    """The first line, from what moved."""

    def said(self, *parts, within=0.01, finer=True, why=None):
        """Each part is moved on the way, and nothing at the end."""
        moved = []
        for i, part in enumerate(parts):
            moved.append(settled.Moved(f"V{i + 1}", 1.0, "atol", why))
            moved[-1].take(part, 1e-4)
            moved[-1].take(0.0, 1e-4)
        return verdict.of_two(moved, settled.Second(None, "100 times finer" if finer else "100 times coarser", finer), within)

    def test_settled(self):
        for found in (self.said(0.0), self.said(0.01, 0.001), self.said(0.3, within=0.3)):
            self.assertEqual(found.kind, verdict.SETTLED)
            self.assertTrue(found.line.startswith("Success, and settled"))
            self.assertEqual(verdict.STATUS[found.kind], 0)
        self.assertIn("Success, and settled within 0.3: ", self.said(0.3, within=0.3).line)
        self.assertEqual((verdict.USUAL, running.Options().within), (0.01, 0.01))

    def test_not_settled(self):
        below = self.said(0.0, why="V1 stays below atol, 1, and was not computed")
        self.assertIn(" (a smaller atol); V1 stays below atol, 1, and was not computed", below.line)
        for found in (self.said(0.010000001), self.said(0.0, 0.5), self.said(math.inf), self.said(0.002, within=0.001), below):
            self.assertEqual(found.kind, verdict.NOT_SETTLED)
            self.assertTrue(found.line.startswith("Success, NOT SETTLED: ask for more exactness"))
            self.assertEqual(verdict.STATUS[found.kind], 3)
        self.assertIn("V2 moves by 0.5 of its size", self.said(0.0, 0.5).line)
        self.assertIn("doubles bear no more exactness", self.said(0.5, finer=False).line)

    def test_never_less_than_was_found(self):
        for x in (0.0, 0.010001, 0.0099999, 7.2345e-5, 0.99501, 1.0, 104.9, 164, 166.123, 999.1, 3e-300, 5e-324, 1e300, 1.7e308):
            self.assertGreaterEqual(float(verdict.part(x)), x)
            self.assertLessEqual(float(verdict.part(x)), min(1.11 * x, 1.79e308))
            self.assertLess(len(verdict.part(x)), 12)

    def test_each_component_in_its_line(self):
        lines = verdict.table(self.said(0.25, 0.0).moved)
        self.assertRegex(lines[2], r"^  V1 +0 +0 +0\.25 +2\.5e\+03 +1$")
        self.assertRegex(lines[3], r"^  V2 +0 +0 +0 +0 +1$")
        named = [settled.Moved("a_very_long_name_of_a_component_" + end, 1.0) for end in "12"]
        self.assertIn("component_1", verdict.table(named)[2].replace("..o", "..co"))
        self.assertNotEqual(*(line for line in verdict.table(named)[2:4]))


@wants_the_program
class Running(Desk):
    """What is said of circuits whose end is known."""

    def first_line(self, text, *options):
        status, out, _ = self.desk("run", self.text("a.txt", text), *options)
        return status, out.split("\n")[0]

    def test_a_ring_over_a_second(self):
        """It ends in Success at 0.44 where 0.861 is true, and then at 0.77."""
        for rtol, atol in ((1e-3, 1e-6), (1e-4, 1e-7)):
            status, line = self.first_line(ring(rtol, atol))
            self.assertEqual(status, 3)
            self.assertTrue(line.startswith("Success, NOT SETTLED: ask for more exactness (a smaller rtol); at tolerances 100 times finer "), line)
        self.assertIn('fill="#B36B00"', (self.folder / "a.svg").read_text())
        self.assertIn(">NOT SETTLED<", (self.folder / "a.svg").read_text())

    def test_a_shorter_and_finer_one(self):
        text = ring(1e-7, 1e-10, xend=0.05)
        status, line = self.first_line(text)
        self.assertEqual(status, 0)
        self.assertTrue(line.startswith("Success, and settled: at tolerances 100 times finer nothing moves by more than "), line)
        self.assertNotIn("NOT SETTLED", (self.folder / "a.svg").read_text())
        self.assertEqual(self.first_line(text, "--within", "1e-9")[0], 3)

    def test_a_filter_that_grows_at_a_coarse_tolerance(self):
        """In truth it has died away."""
        status, line = self.first_line(ring(0.1, 1e-6, fall=80))
        self.assertEqual((status, line.split(":")[0]), (3, "Success, NOT SETTLED"))

    def test_once(self):
        for text in (ring(1e-3, 1e-6, xend=0.02), FIRST):
            status, line = self.first_line(text, "--once")
            self.assertEqual(status, 0)
            self.assertTrue(line.startswith("Success, unchecked: "))

    def test_the_examples(self):
        for name in ("diode-ladder.txt", "ringing-filter.txt"):
            status, line = self.first_line((EXAMPLES / name).read_text())
            self.assertEqual((status, line.split(":")[0]), (0, "Success, and settled"), name)

    def test_tolerances_that_cannot_be_finer(self):
        status, line = self.first_line(ring(1e-13, 1e-15, xend=0.005))
        self.assertEqual(status, 0)
        self.assertIn("at tolerances 100 times coarser (finer ones cannot be had) nothing moves", line)

    def test_tolerances_that_nothing_is_compared_with(self):
        status, line = self.first_line(FIRST.replace("rtol 1e-3", "rtol infinity"))
        self.assertEqual(status, 3)
        self.assertTrue(line.startswith("Success, NOT SETTLED: the end was reached, but it could not be checked: its tolerances"), line)

    def test_a_second_run_short_by_a_hair(self):
        """It serves: rounding stopped it one unit in the last place before xend. Others that stopped do not."""
        came = run_through([0.0, 0.5, 0.8999999999999999], [1.0, 1.0, 1.0])
        came.xend, came.ended = 0.9, ["3"]
        self.assertTrue(running.short_by_a_hair(came))
        for x in (0.899999, 0.9 - 40 * 1.2e-16):
            came.xs[-1] = x
            self.assertFalse(running.short_by_a_hair(came))
        came.xs[-1] = 0.9 - 10 * 1.2e-16
        self.assertTrue(running.short_by_a_hair(came))
        came.ended = ["2"]
        self.assertFalse(running.short_by_a_hair(came))
        came.ended, came.ys[0][1] = ["3"], math.inf
        self.assertFalse(running.short_by_a_hair(came))

    def test_second_runs_that_come_to_no_end(self):
        """The next is tried; and where none has an end, that is said."""
        asked = run_through(grid(10), grid(10))
        asked.ended = ["0"]
        unfinished = run_through(grid(5, 0.5), grid(5, 0.5))
        unfinished.ended = ["2"]
        tried = []

        def run(_, job, doing, ends=()):
            tried.append(value(job.rtol))
            return asked if len(tried) in ends else unfinished

        ten, coarser = "at tolerances 10 times finer nothing", "at tolerances 100 times coarser (finer ones cannot be had) nothing"
        for ends, words in (((2,), ten), ((3,), coarser), ((), None)):
            tried.clear()
            with mock.patch.object(program, "run", lambda *args: run(*args, ends=ends)):
                found = running.judged(asked, [], running.Options())
            self.assertEqual(tried, [1e-3 / 100, 1e-3 / 10, 1e-3 * 100][: len(tried)])
            self.assertEqual(found.kind, verdict.SETTLED if words else verdict.NOT_SETTLED)
            self.assertIn(words or "it could not be checked: at tolerances 100 times coarser", found.line)

    def test_what_a_trial_found(self):
        """Each was once called settled, and was wrong: a tone on a supply, what stays below its tolerance, a latch, a single step."""
        supply = circuit_of("12.02 12 12", "-2 2764.6 -2762.6", "-2764.6 -2 2766.6", "0 0 0", xend="0.1", rtol="2e-5")
        faint = circuit_of("47.9999 48", "-1000 1000", "0 0", xend="0.002")
        small = circuit_of("1e-20", "60")
        latch = circuit_of("1 0.999999", "499.5 -500.5", "-500.5 499.5", xend="0.05", atol="1e-5")
        step = circuit_of("1e-6", "-1", xend="10", first_step="10", atol="1")
        coarse = circuit_of("1", "-1", xend="3", first_step="3", rtol="1e5")
        for text in (supply, faint, small, latch, step, coarse):
            self.assertTrue(self.first_line(text)[1].startswith("Success, NOT SETTLED: "), text)
        self.assertIn("this circuit can grow by 2.6e+21", self.first_line(latch)[1])
        balanced = circuit_of("1 1 0", "-1.1 0.1 0", "0.1 -1.1 0", "3 -3 -7", rtol="1e-6")
        self.assertTrue(self.first_line(balanced)[1].startswith("Success, and settled: "))


if __name__ == "__main__":
    unittest.main()
