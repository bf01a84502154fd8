#!/usr/bin/env python3
"""The picture shows what a run did, and nothing that it did not."""
import math
import os
import sys
import time
import unittest

sys.dont_write_bytecode = True
sys.path.insert(0, os.path.join(os.path.dirname(os.path.abspath(__file__)), "..", ".."))

from desk import picture
from desk.tests.drawn import Drawn, Picture, box, curve, even, of

NAN, INF = math.nan, math.inf
WORDS = {"not settled": "NOT SETTLED", "overflowed": "OVERFLOWED", "unfinished": "UNFINISHED", "refused": "REFUSED"}


class Verdicts(Picture):
    def test_each_kind(self):
        xs = even(0, 1, 30)
        for kind, colour in (("settled", picture.GREEN), ("unchecked", picture.GREY), ("not settled", picture.AMBER), ("refused", picture.RED)):
            self.kind(Drawn(curve(xs, of(math.sin, xs)), kind), kind, colour)
        for kind in ("overflowed", "unfinished"):
            self.kind(Drawn(curve(xs, of(math.sin, xs)), kind), kind, picture.RED)

    def kind(self, drawn, kind, colour):
        status = next(t for t in drawn.texts if t.text == f"{kind}: so it is")
        self.assertEqual(status.get("fill"), colour)
        self.assertEqual(picture.GREEN in drawn.svg, kind == "settled")
        self.assertEqual([t.text for t in drawn.across], [WORDS[kind]] if kind in WORDS else [])

    def test_a_kind_that_is_not_known_is_never_green(self):
        drawn = Drawn(curve([0.0, 1.0], [1.0, 2.0]), "well")
        self.assertNotIn(picture.GREEN, drawn.svg)
        self.assertEqual([t.text for t in drawn.across], ["WELL"])

    def test_what_was_not_computed_is_shaded(self):
        xs = even(0, 1, 30)
        left, _, width, _ = Drawn(curve(xs, xs)).frames[0]
        for kind in ("settled", "overflowed"):
            self.assertFalse(Drawn(curve(xs, xs, xend=2.0), kind).shade())
        drawn = Drawn(curve(xs, xs, xend=2.0), "unfinished")
        self.assertAlmostEqual(float(drawn.shade()[0].get("x")), left + width / 2, delta=0.2)
        self.assertTrue(drawn.said("not computed"))
        for end in (1.0 - 1e-16, 1.0, NAN, INF):
            drawn = Drawn(curve(xs, xs, xend=end), "unfinished")
            self.assertFalse(drawn.shade() or drawn.said("not computed"), end)

    def test_a_tall_picture_has_the_word_more_than_once(self):
        xs = even(0, 1, 5)
        self.assertGreater(len(Drawn(curve(xs, *[xs] * 32), "overflowed").across), 1)


class Components(Picture):
    def test_each_has_its_own_colour_and_dashes(self):
        xs = even(0, 1, 20)
        for n in (2, 3, 4):
            shapes = [shape for shape, _ in Drawn(curve(xs, *[xs] * n)).lines()]
            self.assertEqual(len(shapes), n)
            for key in ("stroke", "stroke-dasharray", "stroke-width"):
                self.assertEqual(len({shape.get(key) for shape in shapes}), n, key)
            widths = [float(shape.get("stroke-width")) for shape in shapes]
            self.assertEqual(widths, sorted(widths, reverse=True))
            self.assertIsNone(shapes[0].get("stroke-dasharray"))

    def test_the_colours_are_those_for_the_colour_blind(self):
        xs = even(0, 1, 20)
        shapes = [shape.get("stroke") for shape, _ in Drawn(curve(xs, *[xs] * 8)).lines()]
        self.assertEqual(shapes, ["#0072B2", "#D55E00", "#009E73", "#CC79A7", "#E69F00", "#56B4E9", "#000000", "#888888"])

    def test_curves_that_hide_one_another_are_named(self):
        xs = even(0, 1, 50)
        ladder = [of(lambda x: math.exp(-3 * x), xs), of(lambda x: math.exp(-3 * x) + 1e-4, xs), of(lambda x: 3 * x * math.exp(-3 * x), xs)]
        self.assertTrue(Drawn(curve(xs, *ladder)).said("V1 lies under V2"))
        self.assertTrue(Drawn(curve(xs, ladder[2], ladder[0], ladder[0], ladder[1])).said("V2 and V3 lie under V4"))
        apart = Drawn(curve(xs, ladder[0], ladder[2], of(lambda x: math.exp(-3 * x) + 0.02, xs)))
        self.assertFalse(apart.said("under"))

    def test_one_that_is_too_small_to_be_seen_is_named(self):
        xs = even(0, 1, 50)
        large, small = of(lambda x: 1000 * math.sin(3 * x), xs), of(lambda x: math.cos(9 * x), xs)
        self.assertTrue(Drawn(curve(xs, large, small)).said("V2 is too small to be seen beside the others"))
        self.assertTrue(Drawn(curve(xs, [12000.0] * 50, small)).said("V2 is too small to be seen beside the others"))
        for run in (curve(xs, large, [1.0] * 50), curve(xs, small, small), curve(xs, small)):
            self.assertFalse(Drawn(run).said("too small"))

    def test_from_which_file_it_is(self):
        run = curve(even(0, 1, 9), even(0, 1, 9))
        run.source = "a.txt"
        self.assertTrue(Drawn(run).said("from a.txt"))
        run.title = "a.txt"
        self.assertFalse(Drawn(run).said("from a.txt"))

    def test_nine_tenths_of_the_range_make_them_one(self):
        """The range and not the points: most of these lie where the curves are together."""
        xs = even(0, 0.5, 900) + even(0.6, 1, 5)
        self.assertFalse(Drawn(curve(xs, xs, of(lambda x: x if x < 0.55 else 2 * x, xs))).said("under"))
        self.assertTrue(Drawn(curve(xs, xs, of(lambda x: x if x < 0.95 else 2 * x, xs))).said("V1 lies under V2"))

    def test_from_five_on_each_has_its_panel(self):
        xs = even(0, 1, 40)
        for n, panels in ((4, 1), (5, 5), (6, 6), (14, 14), (15, 15), (32, 32)):
            drawn = Drawn(curve(xs, *[of(lambda x: 10.0**i * math.sin(3 * x), xs) for i in range(n)]), "not settled")
            self.assertEqual(len(drawn.frames), panels)
            self.assertTrue(all(f"V{i + 1}" in drawn.words for i in range(n)))
            self.fits(drawn)
            if n > 4:
                columns = {x for x, *_ in drawn.frames}
                self.assertGreaterEqual(len(columns), 2)
                self.assertEqual(sum(t.text == "0.2" and t.get("text-anchor") == "middle" for t in drawn.texts), len(columns))
                for x, y, _, h in drawn.frames:
                    marks = [t for t in drawn.texts if abs(float(t.get("x")) - x + 8) < 0.2 and y - 5 <= float(t.get("y")) <= y + h + 5]
                    self.assertGreaterEqual(len(marks), 2)


class Envelopes(Picture):
    def test_many_periods_are_a_band(self):
        xs = even(0, 1, 12000)
        ys = of(lambda x: math.exp(-2 * x) * math.sin(2 * math.pi * 440 * x), xs)
        drawn = Drawn(curve(xs, ys, of(lambda x: 0.5 * math.cos(2 * math.pi * 440 * x), xs)))
        self.assertTrue(drawn.said("envelope: V1 turns 880 times"))
        self.assertTrue(drawn.said("envelope: V2 turns 879 times"))
        bands = drawn.all("polygon")
        self.assertEqual([float(band.get("fill-opacity")) < 0.5 for band in bands], [True, True])
        self.assertEqual(len({band.get("fill") for band in bands}), 2)
        self.assertEqual(len(drawn.lines()), 4)  # an upper and a lower edge each
        self.assertFalse(drawn.all("circle"))

    def test_few_periods_are_a_line(self):
        xs = even(0, 1, 12000)
        drawn = Drawn(curve(xs, of(lambda x: math.sin(2 * math.pi * 40 * x), xs)))
        self.assertFalse(drawn.all("polygon") or drawn.said("envelope"))

    def test_a_wide_stroke_is_sooner_a_block(self):
        """Fifty periods of two components: a line of one of them alone could still be seen."""
        xs = even(0, 1, 4000)
        one, two = (of(lambda x: math.sin(2 * math.pi * 60 * x + shift), xs) for shift in (0, 1))
        self.assertFalse(Drawn(curve(xs, one)).said("envelope"))
        self.assertTrue(Drawn(curve(xs, one, two)).said("envelope: V1 turns 120 times"))

    def test_rounding_is_no_turn(self):
        xs = even(0, 1, 12000)
        drawn = Drawn(curve(xs, [x + 1e-6 * (i % 2) for i, x in enumerate(xs)]))
        self.assertFalse(drawn.all("polygon") or drawn.said("envelope"))

    def test_a_band_has_no_dots(self):
        xs = even(0, 1, 100)
        drawn = Drawn(curve(xs, *[[(-1.0) ** i if i < 60 else x for i, x in enumerate(xs)]] * 15))  # a band, and a line after it
        self.assertEqual((len(drawn.all("polygon")), drawn.all("circle")), (15, []))

    def test_many_gaps_make_no_large_picture(self):
        xs = even(0, 1, 50000)
        drawn = Drawn(curve(xs, [NAN if i % 5 == 0 or 0.3 < x < 0.4 else math.sin(9 * x) for i, x in enumerate(xs)]))
        self.assertLess(len(drawn.svg), 100000)
        self.assertEqual(len(drawn.lines()), 2)

    def test_a_burst_is_a_band_where_it_is(self):
        xs = even(0, 1, 20000)
        ys = of(lambda x: math.sin(6000 * x) if 0.4 < x < 0.5 else math.cos(6 * (x - 0.37)), xs)  # it turns shortly before
        drawn = Drawn(curve(xs, ys))
        left, _, width, _ = drawn.frames[0]
        places = [float(pair.split(",")[0]) for pair in drawn.all("polygon")[0].get("points").split()]
        self.assertAlmostEqual(min(places), left + 0.4 * width, delta=5)
        self.assertAlmostEqual(max(places), left + 0.5 * width, delta=5)
        self.assertEqual(len(drawn.lines()), 4)  # a line before, a line after, and two edges

    def test_no_peak_is_lost(self):
        for periods in (0, 3, 700):
            for direction in (1, -1):
                xs = even(0, direction, 30011)
                ys = of(lambda x: 0.5 * math.sin(2 * math.pi * periods * x), xs)
                ys[17323], ys[23100] = 1.0, -1.0
                drawn = Drawn(curve(xs, ys))
                _, top, _, height = drawn.frames[0]
                places = [y for _, points in drawn.lines() for _, y in points]
                self.assertAlmostEqual(min(places), top + height * 0.04 / 1.08, delta=0.2)
                self.assertAlmostEqual(max(places), top + height * 1.04 / 1.08, delta=0.2)
                self.assertLess(len(drawn.svg), 200000)

    def test_bands_that_hide_one_another(self):
        xs = even(0, 1, 20000)
        ys = [of(lambda x: math.sin(2 * math.pi * 440 * x + phase), xs) for phase in (0, 1)]
        self.assertTrue(Drawn(curve(xs, *ys)).said("V1 lies under V2"))
        self.assertFalse(Drawn(curve(xs, ys[0], [0.9 * y for y in ys[1]])).said("under"))

    def test_large_runs_take_little_time(self):
        xs = even(0, 1, 200000)
        run = curve(xs, *[of(lambda x: (i + 1) * math.sin(2 * math.pi * 440 * x + i), xs) for i in range(4)])
        start = time.process_time()
        drawn = Drawn(run)
        self.assertLess(time.process_time() - start, 8)
        self.assertLess(len(drawn.svg), 400000)

    def test_a_band_of_no_width_is_still_seen(self):
        xs = even(0, 0.001, 500)
        drawn = Drawn(curve(xs, [(-1.0) ** i for i in range(500)], xend=1.0), log=set())
        heights = [max(y for _, y in points) - min(y for _, y in points) for _, points in drawn.lines()]
        self.assertGreater(max(heights), 300)


class Logarithms(Picture):
    def is_log(self, drawn):
        return {axis for axis, found in (("x", drawn.said("from x0 on, logarithmic")), ("y", "logarithmic" in drawn.words)) if found}

    def test_a_decay_that_linear_would_hide(self):
        xs = even(0, 1, 200)
        for sign in (1, -1):
            self.assertEqual(self.is_log(Drawn(curve(xs, of(lambda x: sign * math.exp(-50 * x), xs)))), {"y"})
            self.assertEqual(self.is_log(Drawn(curve(xs, of(lambda x: sign * math.exp(50 * x), xs)))), {"y"})
        for shown in (lambda x: math.exp(-5 * x), lambda x: 1 + math.exp(-50 * x), lambda x: math.exp(-200 * x) - 1e-12 * x):
            self.assertEqual(self.is_log(Drawn(curve(xs, of(shown, xs)))), set())
        decay, rise, level = (of(f, xs) for f in (lambda x: math.exp(-50 * x), lambda x: x, lambda x: 1.0))
        self.assertEqual(self.is_log(Drawn(curve(xs, decay, rise))), set())
        self.assertEqual(self.is_log(Drawn(curve(xs, decay, level))), {"y"})
        self.assertIn("1e-20", Drawn(curve(xs, decay)).y_labels())
        drawn = Drawn(curve(xs, [-y for y in decay]))
        heights = {t.text: float(t.get("y")) for t in drawn.texts}
        self.assertLess(heights["-1e-20"], heights["-1e-10"])  # nearer to 0 is higher up, as on any axis
        points = drawn.lines()[0][1]
        self.assertAlmostEqual(points[int(199 * math.log(10) / 5)][1], heights["-1e-10"], delta=10)
        self.assertEqual(points, sorted(points, key=lambda point: -point[1]))

    def test_a_start_that_linear_would_hide(self):
        far = [0.0] + [10.0 ** (-9 + 6 * i / 200) for i in range(201)] + [0.1, 0.5, 1.0]
        for xs in (far, [5 - 5 * x for x in far]):
            drawn = Drawn(curve(xs, of(lambda x: math.exp(-1e6 * abs(x - xs[0])), xs)))
            self.assertEqual(self.is_log(drawn), {"x"})
            self.assertIn("1e-6", drawn.x_labels())
            places = [x for _, points in drawn.lines() for x, _ in points]
            self.assertEqual(places, sorted(places))
            self.assertEqual(len(places), len(xs) - 1)
        self.assertEqual(self.is_log(Drawn(curve(far, far))), set())  # nothing happens there
        self.assertEqual(self.is_log(Drawn(curve(far[:1] + even(0.001, 1, 50), [1.0] + [0.0] * 50))), set())

    def test_axes_that_were_asked_for(self):
        xs = even(0, 1, 40)
        run = curve(xs, of(lambda x: 2 + math.sin(9 * x), xs))
        for log in (set(), {"x"}, {"y"}, {"x", "y"}):
            self.assertEqual(self.is_log(Drawn(run, log=log)), log)
        far = [0.0] + [10.0 ** (-9 + 6 * i / 200) for i in range(201)] + [1.0]
        self.assertEqual(self.is_log(Drawn(curve(far, of(lambda x: math.exp(-1e6 * x), far)), log=set())), set())
        self.assertTrue(Drawn(curve([0.0], [1.0]), log={"x"}).said("x is not logarithmic"))

    def test_a_ring_is_shown_above_0(self):
        xs = even(0, 1, 101)
        run = curve(xs, of(lambda x: -math.exp(5 * x) * math.cos(40 * x) - 0.1, xs))
        self.assertTrue(Drawn(run, log={"y"}).said("V1 is 0 or below at"))

    def test_values_that_it_cannot_show_are_counted(self):
        xs = even(0, 1, 40)
        ys = [0.0, -1.0, -2.0] + [1.0 + x for x in xs[3:20]] + [0.0] + [2.0] * 19
        drawn = Drawn(curve(xs, ys), log={"y"})
        self.assertTrue(drawn.said("V1 is 0 or below at 4 of 40 points, not shown"))
        self.assertEqual(len(drawn.lines()), 2)
        self.assertTrue(Drawn(curve(xs, [-y for y in ys]), log={"y"}).said("V1 is 0 or above at 4 of 40 points"))
        self.assertTrue(Drawn(curve(xs, [0.0] * 40), log={"y"}).said("V1 is 0 or below at 40 of 40 points"))


class Axes(Picture):
    RANGES = ((1e9, 1e9 + 1), (1e-300, 2e-300), (1.0, 1 + 1e-15), (-1e308, 1e308), (-1.7e308, 1.7e308), (-5.0, -2.0), (3.0, 3.0), (0.0, 0.0), (1.7e308, 1.7e308))
    MORE = ((1 / 3, 1 / 3 + 1e-12), (-1e9 - 1, -1e9), (0.0, 5e-324), (1e300, 1e300 * (1 + 1e-12)), (-1e-5, 1e-5), (999999.0, 1000001.0), (0.0, 1e6))

    def test_labels_can_be_read(self):
        for lo, hi in self.RANGES + self.MORE:
            xs = even(0, 1, 30)
            xs = [lo * (1 - x) + hi * x for x in xs[:-1]] + [hi]
            for log in (None, {"x", "y"}):
                for n in (1, 5):
                    drawn = Drawn(curve(xs, *[xs] * n), log=log)
                    self.fits(drawn)
                    self.finite(drawn)
                    if drawn.said("no value that could be shown"):
                        self.assertEqual((lo, log), (0.0, {"x", "y"}))  # 0 has no logarithm
                        continue
                    if n == 1 and log is None:
                        self.assertGreaterEqual(min(len(drawn.x_labels()), len(drawn.y_labels())), 3, (lo, hi))
                    for labels in [drawn.x_labels()] + [drawn.y_labels()] * (n == 1):
                        self.assertGreaterEqual(len(labels), 2, (lo, hi, log, n))
                        self.assertEqual(len(set(labels)), len(labels))
                        self.assertLessEqual(max(map(len, labels)), 12)

    def test_what_all_labels_share_is_said_once(self):
        drawn = Drawn(curve([1e9, 1e9 + 0.5, 1e9 + 1], [1.0, 1 + 5e-16, 1 + 1e-15]))
        self.assertTrue({"0", "0.2", "0.4", "0.6", "0.8", "1"} <= set(drawn.x_labels()))
        self.assertTrue(drawn.said("time in seconds, counted from 1000000000"))
        self.assertIn("counted from 1", drawn.words)
        self.assertIn("2e-16", drawn.y_labels())

    def test_backward_runs_do_not_zigzag(self):
        for count, periods in ((50, 2), (5000, 2), (5000, 600)):
            xs = even(3, 1, count)
            drawn = Drawn(curve(xs, of(lambda x: math.sin(2 * math.pi * periods * x), xs), xend=0.0), "unfinished")
            for _, points in drawn.lines():
                self.assertEqual(points, sorted(points, key=lambda point: -point[0]))
            self.assertEqual((drawn.x_labels()[0], drawn.x_labels()[-1]), ("0", "3"))
            left, _, width, _ = drawn.frames[0]
            self.assertAlmostEqual(float(drawn.shade()[0].get("x")), left, delta=0.2)
            self.assertAlmostEqual(float(drawn.shade()[0].get("width")), width / 3, delta=0.2)

    def test_a_range_whose_width_is_no_double(self):
        xs = [-1.7e308, 0.0, 1e308, 1.7e308]
        for log, count in ((set(), 4), ({"x"}, 3)):
            drawn = Drawn(curve(xs, [1.0, 2.0, 3.0, 1.0]), log=log)
            self.assertEqual(len(drawn.lines()[0][1]), count)
            self.assertAlmostEqual(drawn.lines()[0][1][-1][0], drawn.frames[0][0] + drawn.frames[0][2], delta=0.2)

    def test_the_words_of_a_narrow_shade(self):
        xs = even(0, 1, 30)
        for start, end in ((0, 1.01), (0, 100), (1, -0.01)):
            drawn = Drawn(curve([start + x * (1 if end > start else -1) for x in xs], xs, xend=float(end)), "unfinished", log=set())
            left, right, _, _ = box(next(t for t in drawn.texts if t.text == "not computed"))
            self.assertTrue(drawn.frames[0][0] <= left and right <= drawn.frames[0][0] + drawn.frames[0][2])

    def test_a_run_that_passes_its_end_by_a_hair(self):
        xs = even(0, 1, 11)[:-1] + [1 + 2e-16]
        drawn = Drawn(curve(xs, xs, xend=1.0), "unfinished")
        self.assertEqual((drawn.x_labels()[0], drawn.x_labels()[-1], drawn.shade()), ("0", "1", []))


if __name__ == "__main__":
    unittest.main()
