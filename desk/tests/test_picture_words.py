#!/usr/bin/env python3
"""Words in the picture keep to their room and damage nothing; what is no number, and nothing at all, is said."""
import math
import os
import sys
import unittest

sys.dont_write_bytecode = True
sys.path.insert(0, os.path.join(os.path.dirname(os.path.abspath(__file__)), "..", ".."))

from desk import picture, words
from desk.tests.drawn import Drawn, Picture, curve, even, of

NAN, INF = math.nan, math.inf


class Words(Picture):
    def test_plain(self):
        self.assertEqual(words.plain("a\x07\n\x7f\x85b"), "a\\x07\\x0a\\x7f\\x85b")
        self.assertEqual(words.plain("\u2028\ud800\uffff\u202e\u2066\ufdd0\U0001fffe"), "\\u2028\\ud800\\uffff\\u202e\\u2066\\ufdd0\\U0001fffe")
        for text in ("", "V1 < V2 & \\x07", "Spannung \u00fc\u00a0\u96fb\u5727\U0001f3b5", "\u05d0\u0627e\u0301\u200d"):
            self.assertEqual(words.plain(text), text)

    def test_the_width_of_words(self):
        self.assertAlmostEqual(words.width("V1", 10), 12)
        self.assertAlmostEqual(words.width("\u96fb\u5727", 10), 20)

    def test_no_words_damage_the_picture(self):
        bad = "<&>\"'" + "".join(map(chr, range(32))) + "\x7f\x9f\ud800\udfff\ufffe\uffff\u202e\u2029"
        for n in (0, 2, 5):
            drawn = Drawn(curve([0.0, 1.0], *[[0.0, NAN]] * n, names=[bad] * n, title=bad, axis=bad), "settled", "so" + bad)
            self.assertIn("\\x07", drawn.svg)
            self.assertNotIn("\u202e", drawn.svg)

    def test_long_words_keep_to_their_room(self):
        xs = even(0, 1, 40)
        for word in ("the longest words of all ", "Wort", "\u96fb\u5727"):
            for n in (1, 4, 6, 32):
                names = [word * 30 + str(i) for i in range(n)]
                ys = [of(lambda x: 1e9 + math.sin(x + i), xs) for i in range(n)]
                run = curve([1e9 + x for x in xs], *ys, names=names, title=word * 40, axis=word * 40)
                drawn = Drawn(run, "overflowed", (word * 75)[:300])
                self.fits(drawn)
                self.assertTrue(drawn.said("..."))
                self.assertTrue(drawn.said("counted from 1000000000"))
                self.assertTrue(all(any(line.endswith(str(i)) for line in drawn.words) for i in range(n)))

    def test_a_status_is_not_cut(self):
        status = " ".join(f"word{i:03}" for i in range(37))[:300]
        drawn = Drawn(curve([0.0, 1.0], [0.0, 1.0]), "not settled", status)
        lines = [t.text for t in drawn.texts if t.get("fill") == picture.AMBER]
        self.assertEqual(" ".join(lines), status)
        self.assertLessEqual(len(lines), 3)
        self.assertGreaterEqual(min(int(t.get("font-size")) for t in drawn.texts), 12)
        drawn = Drawn(curve([0.0, 1.0], [0.0, 1.0]), "not settled", "\u202e" * 300)
        self.assertEqual([t.text[-3:] == "..." for t in drawn.texts if t.get("fill") == picture.AMBER], [False, False, True])
        drawn = Drawn(curve([0.0, 1.0], [0.0, 1.0]), "not settled", status)
        self.assertGreater(drawn.frames[0][1], Drawn(curve([0.0, 1.0], [0.0, 1.0])).frames[0][1])


class Gaps(Picture):
    def test_nothing_to_draw(self):
        for kind in ("refused", "unfinished"):
            drawn = Drawn(curve([], [], names=["V1"]), kind)
            self.assertIn("nothing was computed", drawn.words)
            self.assertFalse(drawn.frames or drawn.all("polyline") or drawn.all("line"))
            self.fits(drawn)
        drawn = Drawn(curve([0.0, 1.0]), "settled")
        self.assertIn("there is no component, and nothing to draw", drawn.words)
        self.assertFalse(drawn.frames or drawn.all("line"))

    def test_values_that_are_none(self):
        xs = even(0, 1, 40)
        ys = of(math.sin, xs)
        ys[5], ys[7], ys[20:30] = NAN, INF, [-INF] * 10
        drawn = Drawn(curve(xs, ys))
        self.assertTrue(drawn.said("V1 is infinite or no number at 12 of 40 points"))
        self.assertEqual([len(points) for _, points in drawn.lines()], [5, 12, 10])
        self.assertEqual(len(drawn.all("circle")), 28)
        self.finite(drawn)

    def test_a_lone_point_is_a_dot(self):
        xs = even(0, 1, 400)
        ys = [NAN if i in (200, 202) else x for i, x in enumerate(xs)]
        self.assertEqual(len(Drawn(curve(xs, ys)).all("circle")), 1)

    def test_no_value_at_all(self):
        for n in (1, 6):
            for xs, ys in (([0.0, 1.0], [NAN, INF]), ([NAN, INF], [1.0, 2.0]), ([NAN, INF], [NAN, NAN])):
                for log in (None, {"x", "y"}):
                    drawn = Drawn(curve(xs, *[ys] * n), "unfinished", log=log)
                    self.finite(drawn)
                    self.assertTrue(drawn.said("infinite or no number at"))
                    self.assertFalse(drawn.lines() or drawn.all("circle"))

    def test_dots_up_to_a_hundred_points(self):
        for count, dots in ((1, 1), (100, 100), (101, 0)):
            xs = even(0, 1, max(count, 2))[:count]
            self.assertEqual(len(Drawn(curve(xs, xs)).all("circle")), dots)

    def test_large_values_are_placed(self):
        xs = even(0, 1, 9)
        for big in (1.7976931348623157e308, 1e308):
            ys = [big, -big] * 4 + [0.0]
            for log in (None, {"y"}):
                drawn = Drawn(curve(xs, ys), log=log)
                self.finite(drawn)
                self.fits(drawn)


if __name__ == "__main__":
    unittest.main()
