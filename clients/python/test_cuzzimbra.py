#!/usr/bin/env python3
"""What a run gives, and what it raises. Wants the program replay: the one that CUZZIMBRA_REPLAY names, or the one that is built."""
import math
import pickle
import random
import struct
import subprocess
import sys
import traceback
import unittest
from array import array
from pathlib import Path

sys.dont_write_bytecode = True
sys.path[:0] = [str(Path(__file__).resolve().parent)]

import cuzzimbra
from cuzzimbra import NotFinite, Overflowed, Refused, Result, Solver, Unfinished, solve
from replaying import command
from samples import Clean, decay

try:
    import numpy
except ImportError:
    numpy = None


class Finished(Clean):
    def test_decay(self):
        run = solve(decay, (0, 1), [1.0, 2.0], rtol=1e-8, atol=1e-10)
        self.assertEqual((run.status, run.reached, run.xend), ("Success", True, 1.0))
        for found, true in zip(run.end, (math.exp(-1), 2 * math.exp(-1))):
            self.assertAlmostEqual(found, true, delta=1e-7)
        self.assertEqual((run.x[0], run.y[0], run.x[-1]), (0.0, [1.0, 2.0], 1.0))
        self.assertEqual(len(run.x), len(run.y))
        self.assertEqual(run.y[-1], run.end)
        self.assertIn("Success", repr(run))

    def test_backward(self):
        run = solve(decay, (1, 0), [math.exp(-1)], rtol=1e-8, atol=1e-10)
        self.assertAlmostEqual(run.end[0], 1.0, delta=1e-6)
        self.assertEqual(run.x, sorted(run.x, reverse=True))
        for x in (0.95, 0.5, 0.01, 0.0):
            self.assertAlmostEqual(run.at(x)[0], math.exp(-x), delta=1e-6)

    def test_nothing_to_compute(self):
        run = solve(decay, (0, 1), [])
        self.assertEqual((run.status, run.end, run.x, run.y, run.at(0.5)), ("Success", [], [0.0], [[]], []))

    def test_the_first_job(self):
        """As docs/transcript.md prints it."""
        run = solve(lambda x, y: [0.0], (0, 1), [1], jac=[[0.0]], first_step=0.5, guarded=False)
        self.assertEqual((run.x, run.y), ([0.0, 0.5, 1.0], [[1.0]] * 3))
        words = {"total": 2, "accepted": 2, "rejected": 0, "ode": 3, "jac": 1, "lu": 1, "start": 0, "differences": 0, "fun": 3}
        self.assertEqual(run.counters, words)

    def test_counters(self):
        calls, points = [], []

        def fun(x, y):
            calls.append(x)
            return [-50 * (y[0] - math.cos(x)), y[0] * y[1] - 3 * y[1]]

        for jac in (None, lambda x, y: [[-50.0, 0.0], [y[1], y[0] - 3.0]]):
            calls.clear()
            points.clear()
            run = solve(fun, (0, 2), [0, 1], jac=jac, notice=lambda x, y, step: points.append((x, y)))
            counts = run.counters
            self.assertEqual(counts["fun"], len(calls))
            self.assertEqual(counts["fun"], counts["ode"] + counts["start"] + counts["differences"])
            self.assertEqual(counts["total"], counts["accepted"] + counts["rejected"])
            self.assertEqual((counts["accepted"], points), (len(run.steps), list(zip(run.x, run.y))))
            if jac:
                self.assertEqual(counts["differences"], 0)
            else:
                self.assertTrue(2 * counts["jac"] <= counts["differences"] <= 3 * counts["jac"])

    def test_tolerances(self):
        one = solve(decay, (0, 1), [1, 2], rtol=1e-5, atol=1e-7)
        for rtol, atol in (([1e-5, 1e-5], 1e-7), (1e-5, (1e-7, 1e-7)), (array("d", [1e-5] * 2), [1e-7] * 2)):
            run = solve(decay, (0, 1), [1, 2], rtol=rtol, atol=atol)
            self.assertEqual((run.x, run.y), (one.x, one.y))
        self.assertNotEqual(solve(decay, (0, 1), [1, 2], rtol=[1e-5, 1e-9], atol=1e-12).x, one.x)

    def test_steps(self):
        run = solve(decay, (0, 1), [1], max_step=0.01)
        self.assertLessEqual(max(step.h for step in run.steps), 0.01)
        self.assertEqual(solve(decay, (0, 1), [1], max_step=math.inf).x, solve(decay, (0, 1), [1]).x)
        self.assertEqual(solve(decay, (0, 1), [1], first_step=1e-5).x[1], 1e-5)

    @unittest.skipUnless(numpy, "numpy is not there")
    def test_numpy(self):
        a = numpy.array([[-1.0, 0.5], [0.0, -2.0]])
        plain = solve(lambda x, y: [-y[0] + 0.5 * y[1], -2 * y[1]], (0, 1), [1, 1], jac=a.tolist())
        run = solve(lambda x, y: a @ y, numpy.array([0, 1]), numpy.ones(2), jac=lambda x, y: a, rtol=numpy.float64(1e-3), atol=numpy.array(1e-6))
        for found, known in zip(run.end, plain.end):
            self.assertAlmostEqual(found, known, delta=1e-9)
        run = solve(lambda x, y: a @ y, (0, 1), [1, 1], notice=lambda x, y, step: numpy.float64(x) > 0.5)
        self.assertEqual(run.status, "UserInterrupt")


class NotFinished(Clean):
    def unfinished(self, run, status):
        self.assertEqual((run.status, run.reached), (status, False))
        with self.assertRaises(Unfinished) as caught:
            run.end
        fault = caught.exception
        self.assertEqual((fault.status, fault.x, fault.xend), (status, run.x[-1], run.xend))
        for words in (status, repr(run.x[-1]), repr(run.xend), "NOT the end's"):
            self.assertIn(words, str(fault))
        return str(fault)

    def test_steps_used_up(self):
        run = solve(decay, (0, 1), [1], max_steps=3)
        self.assertIn("max_steps", self.unfinished(run, "NeedLargerNMax"))
        self.assertEqual(len(run.x), len(run.y))
        self.assertAlmostEqual(run.at(run.x[-1])[0], run.y[-1][0], delta=1e-12)
        with self.assertRaises(ValueError):
            run.at(1.0)

    def test_too_small(self):
        self.unfinished(solve(lambda x, y: [min(y[0] * y[0], 1e300)], (0, 2), [1]), "StepSizeTooSmall")

    def test_a_hair_short(self):
        run = solve(lambda x, y: [0.0], (0, 0.9), [1], first_step=0.1)
        self.assertIn("a hair short", self.unfinished(run, "StepSizeTooSmall"))

    def test_no_way_to_go(self):
        self.assertIn("x0 is xend", self.unfinished(solve(decay, (1, 1), [1]), "StepSizeTooSmall"))

    def test_notice_stops(self):
        told = []

        def notice(x, y, step):
            told.append((x, y, step))
            return x > 0.5

        run = solve(decay, (0, 1), [1], notice=notice)
        self.unfinished(run, "UserInterrupt")
        self.assertEqual([x for x, _, _ in told], run.x)
        self.assertIsNone(told[0][2])
        self.assertEqual([step for _, _, step in told[1:]], run.steps)
        middle = (run.x[-2] + run.x[-1]) / 2
        self.assertEqual(told[-1][2].at(middle), run.at(middle))

    def test_notice_stops_at_the_start(self):
        run = solve(decay, (0, 1), [1], notice=lambda x, y, step: True)
        self.unfinished(run, "UserInterrupt")
        self.assertEqual((run.x, run.at(0.0)), ([0.0], [1.0]))

    def test_only_true_stops(self):
        """And what is done to the state that is shown changes nothing: a modification is not offered."""
        for said in (None, False, 0, 1, "stop", [3.0], (0.5, [9.0])):
            run = solve(decay, (0, 1), [1], notice=lambda x, y, step: y.append(7) or y.reverse() or said)
            self.assertEqual((run.status, run.y), ("Success", solve(decay, (0, 1), [1]).y))

    def test_overflow(self):
        """The end is reached, and its value is none: no tolerance shows it where rtol is above 0."""
        run = solve(lambda x, y: [1e308], (0, 1), [1e308], first_step=1, jac=[[0.0]])
        self.assertTrue(run.reached)
        with self.assertRaises(Overflowed) as caught:
            run.end
        self.assertIn("y[0] is inf", str(caught.exception))

    def test_guarded(self):
        """An error that is no number (docs/DIFFERENCES.md, 13): guarded it is no pass, and a run is guarded unless that is taken from it."""
        kind = {"first_step": 1, "rtol": 0, "atol": 1e-6, "jac": [[0.0]], "max_steps": 1}
        for named, status in (({}, "NeedLargerNMax"), ({"guarded": True}, "NeedLargerNMax"), ({"guarded": False}, "Success")):
            run = solve(lambda x, y: [0.0 if x < 0.5 else 1e308], (0, 1), [sys.float_info.max], **kind, **named)
            self.assertEqual(run.status, status)
            with self.assertRaises(Overflowed if run.reached else Unfinished):
                run.end

    def test_a_state_that_is_no_number(self):
        run = Result(0.0, [1.0], 1.0)
        run.status = "Success"
        run.x.append(1.0)
        run.y.append([math.nan])
        with self.assertRaises(Overflowed):
            run.end


class Between(Clean):
    def test_as_the_program(self):
        """To the bit what its kind 5 gives, on coefficients at random: all orders, both directions, marks of every kind."""
        dice, words, mine = random.Random(20), b"", []
        for _ in range(600):
            n = dice.randint(1, 4)
            cont = [dice.gauss(0, 1) * 10 ** dice.randint(-9, 9) for _ in range(7 * n)]
            cont[6] = dice.choice([1, 2, 3, 4, 5, 1.49, 1.5, 2.5, 9, -3, math.nan, math.inf, dice.uniform(0, 6)])
            xold, h = dice.uniform(-5, 5), dice.choice([-1, 1]) * 10 ** dice.uniform(-6, 3)
            xi = xold + h * dice.choice([0, 1, dice.random(), dice.uniform(-2, 3)])
            words += struct.pack(f">2Q3d{8 * n}d", 5, n, xi, xold, h, *[0.0] * n, *cont)
            mine.append(" ".join(map(bits, cuzzimbra.interpolate(xi, cont, xold, h))))
        printed = subprocess.run(command(), input=words, stdout=subprocess.PIPE).stdout.decode()
        self.assertEqual(printed.splitlines(), mine)

    def test_in_a_run(self):
        run = solve(lambda x, y: [y[1], -y[0]], (0, 6), [0, 1], rtol=1e-6, atol=1e-8)
        for i in range(601):
            self.assertAlmostEqual(run.at(i / 100)[0], math.sin(i / 100), delta=1e-4)
        for x, y in zip(run.x, run.y):
            for one, other in zip(run.at(x), y):
                self.assertAlmostEqual(one, other, delta=1e-14)
        step = run.steps[4]
        self.assertEqual((step.start, run.x[4], step.x), (run.x[4], step.start, run.x[5]))
        self.assertEqual(run.at(run.x[5]), step.at(run.x[5]))
        self.assertEqual(run.at(0), [0.0, 1.0])

    def test_outside(self):
        for span in ((0, 1), (1, 0)):
            run = solve(decay, span, [1])
            for x in (-0.1, 1.1, math.nan, math.inf, -math.inf):
                with self.assertRaises(ValueError):
                    run.at(x)


def bits(x):
    return struct.pack(">d", x if x == x else math.nan).hex().upper()


class Mistakes(Clean):
    def test_refused(self):
        cases = (
            (1, (), {"y0": [1] * 33}), (1, (), {"y0": [1] * 65}), (4, (), {"rtol": [1e-3]}), (5, ("r", 0, -1.0), {"rtol": -1}),
            (5, ("a", 1, -2.0), {"atol": [1, -2]}), (6, (), {"max_steps": 0}), (7, (), {"max_steps": 1_000_001}), (7, (), {"max_steps": 2**70}),
            (7, (), {"newton_maxiter": 65}), (8, (0.0, 1.0), {"first_step": 0}), (8, (-0.0, -1.0), {"first_step": -0.0, "span": (1, 0)}),
        )
        for number, values, named in cases:
            with self.subTest(named=named), self.assertRaises(Refused) as caught:
                solve(decay, **{"span": (0, 1), "y0": [1, 2], **named})
            fault = caught.exception
            self.assertEqual((fault.number, fault.values, fault.words), (number, values, cuzzimbra.REFUSALS[number]))
            self.assertIn(f"number {number}: {fault.words}", str(fault))

    def test_between_processes(self):
        """What is raised or given can be sent to another process, as a pool of them does."""
        for fault in (Refused(5, ("r", 0, -1.0)), Unfinished("NeedLargerNMax", 0.5, 1.0), NotFinite("words")):
            again = pickle.loads(pickle.dumps(fault))
            self.assertEqual((type(again), str(again), vars(again)), (type(fault), str(fault), vars(fault)))
        run = solve(decay, (0, 1), [1])
        self.assertEqual(pickle.loads(pickle.dumps(run)).at(0.3), run.at(0.3))

    def test_given(self):
        cases = ({"rtol": math.nan}, {"atol": [1, math.inf]}, {"rtol": [1, 1, 1]}, {"max_steps": -1}, {"max_steps": 1.5}, {"first_step": math.nan})
        for named in (*cases, {"y0": [1, math.nan]}, {"span": (0, math.inf)}, {"span": (0, 1, 2)}, {"max_step": -math.inf}):
            with self.subTest(named=named), self.assertRaises(ValueError):
                solve(decay, **{"span": (0, 1), "y0": [1, 2], **named})

    def test_its_own_exception(self):
        mine = KeyError("mine")

        def deeper(x):
            if x > 0.01:
                raise mine
            return [0.0]

        raises = {"fun": lambda x, y: deeper(x), "jac": lambda x, y: deeper(1), "notice": lambda x, y, step: deeper(x)}
        for name, function in raises.items():
            try:
                solve(**{"fun": decay, "span": (0, 1), "y0": [1], name: function})
                self.fail(f"{name} raised, and nothing came of it")
            except KeyError as caught:
                self.assertIs(caught, mine)
                self.assertEqual(traceback.extract_tb(caught.__traceback__)[-1].name, "deeper")
            mine.__traceback__ = None

    def test_keyboard(self):
        def fun(x, y):
            raise KeyboardInterrupt

        with self.assertRaises(KeyboardInterrupt):
            solve(fun, (0, 1), [1])

    def says(self, kind, words, **named):
        with self.subTest(words=words), self.assertRaises(kind) as caught:
            solve(**{"fun": lambda x, y: [-y[0], -y[1]], "span": (3, 4), "y0": [1, 2], **named})
        for word in words:
            self.assertIn(word, str(caught.exception))

    def test_lengths(self):
        self.says(ValueError, ("fun gave 1 numbers", "x = 3.0", "2 were wanted"), fun=lambda x, y: [1])
        self.says(ValueError, ("fun gave 4 numbers", "2 were wanted"), fun=lambda x, y: 2 * y)
        self.says(ValueError, ("fun gave None", "x = 3.0"), fun=lambda x, y: None)
        self.says(ValueError, ("jac gave 1 rows of 2 numbers", "x = 3.0", "2 rows of 2"), jac=[[1, 2]])
        self.says(ValueError, ("jac gave 2 rows of 1 or 2 numbers", "2 rows of 2"), jac=lambda x, y: [[1, 2], [1]])

    def test_not_finite(self):
        self.says(NotFinite, ("fun gave nan", "component 1", "x = 3.0"), fun=lambda x, y: [0.0, math.nan])
        self.says(NotFinite, ("fun gave -inf", "component 0"), fun=lambda x, y: [-math.inf if x > 3.5 else 1.0, 0.0])
        self.says(NotFinite, ("jac gave inf", "row 1, column 0", "x = 3.0"), jac=[[0.0, 0.0], [math.inf, 0.0]])
        self.says(NotFinite, ("the differences gave", "row 0, column 0"), fun=lambda x, y: [1e308 if y[0] < 1 else -1e308, 0.0])

    def test_any_sequence(self):
        run = solve(decay, (0, 1), [1, 2])
        for fun in (lambda x, y: tuple(decay(x, y)), lambda x, y: (-value for value in y), lambda x, y: array("d", decay(x, y))):
            self.assertEqual(solve(fun, [0, 1], (1, 2)).y, run.y)
        self.assertEqual(solve(lambda x, y: -y[0], (0, 1), [1]).y, solve(decay, (0, 1), [1]).y)


class Many(Clean):
    def test_one_process(self):
        """Run after run, and a refusal between, in one process; each as in a process of its own."""
        with Solver() as solver:
            first = solver.solve(decay, (0, 1), [1])
            pid = solver.process.pid
            with self.assertRaises(Refused):
                solver.solve(decay, (0, 1), [1], rtol=-1)
            stopped = solver.solve(decay, (0, 1), [1], notice=lambda x, y, step: x > 0)
            second = solve(decay, (0, 1), [1], solver=solver)
            self.assertEqual(solver.process.pid, pid)
        self.assertEqual((stopped.status, first.y, second.y), ("UserInterrupt", second.y, solve(decay, (0, 1), [1]).y))
        self.assertIsNone(solver.process.pid)

    def test_after_an_exception(self):
        def fun(x, y):
            raise KeyError

        with Solver() as solver:
            solver.solve(decay, (0, 1), [1])
            pid = solver.process.pid
            with self.assertRaises(KeyError):
                solver.solve(fun, (0, 1), [1])
            self.assertIsNone(solver.process.pid)
            self.assertTrue(solver.solve(decay, (0, 1), [1]).reached)
            self.assertNotEqual(solver.process.pid, pid)

    def test_a_run_within_a_run(self):
        def inner(x, y):
            return [-solve(decay, (0, 1), y).end[0]]

        self.assertTrue(solve(inner, (0, 0.1), [1], max_steps=50).reached)

        def refused(x, y):
            return solve(decay, (0, 1), y, rtol=-1)

        with Solver() as solver:
            with self.assertRaises(Refused):
                solver.solve(refused, (0, 1), [1])
            self.assertIsNone(solver.process.pid)
            with self.assertRaises(RuntimeError):
                solver.solve(lambda x, y: solver.solve(decay, (0, 1), y).end, (0, 1), [1])
            self.assertTrue(solver.solve(decay, (0, 1), [1]).reached)


if __name__ == "__main__":
    unittest.main()
