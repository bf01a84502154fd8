#!/usr/bin/env python3
"""What is easily overlooked: values that are no end's, a state that is another's, processes that are forked, and what is given unless said."""
import inspect
import math
import os
import sys
import unittest
from pathlib import Path

sys.dont_write_bytecode = True
sys.path[:0] = [str(Path(__file__).resolve().parent)]

from beginning import scales
from cuzzimbra import Broken, NotFinite, Solver, Unfinished, solve
from samples import Clean, alive, decay


class NoEnd(Clean):
    """An unfinished run has no value at xend, whoever is asked."""

    def test_steps_do_not_reach_beyond_themselves(self):
        run = solve(decay, (0, 1), [1], max_steps=3)
        step = run.steps[-1]
        for x in (run.xend, step.x + 1e-9, step.start - 1e-9, math.nan):
            with self.assertRaises(ValueError):
                step.at(x)
        self.assertEqual(step.at(step.x)[0], run.at(step.x)[0])
        for run in (solve(decay, (0, -1), [1]), solve(decay, (0, 1), [1])):
            for step in run.steps:
                step.at(step.x), step.at(step.start), step.at((step.start + step.x) / 2)

    def test_stopped_at_the_end(self):
        """It was interrupted, and the solver does not call that reached."""
        run = solve(decay, (0, 1), [1], notice=lambda x, y, step: x >= 1)
        self.assertEqual((run.status, run.x[-1]), ("UserInterrupt", 1.0))
        with self.assertRaises(Unfinished) as caught:
            run.end
        self.assertTrue(str(caught.exception).endswith("; it was stopped there"))

    def test_lists_are_copies(self):
        run = solve(decay, (0, 1), [1])
        run.end[0] = run.at(0)[0] = 7.0
        self.assertNotIn(7.0, (run.end[0], run.y[0][0], run.at(0)[0]))


class Answers(Clean):
    def test_functions_may_change_their_state(self):
        def fun(x, y):
            found = [-y[0]]
            y[0] = 1e9
            return found

        def jac(x, y):
            y[0] = 1e9
            return [[-1.0]]

        self.assertEqual(solve(fun, (0, 1), [1], jac=jac).y, solve(decay, (0, 1), [1], jac=[[-1.0]]).y)
        self.assertEqual(solve(fun, (0, 1), [1]).y, solve(decay, (0, 1), [1]).y)

    def test_what_is_no_matrix(self):
        two = {"fun": lambda x, y: [-y[0], -y[1]], "span": (0, 1), "y0": [1, 1]}
        for jac in (lambda x, y: None, lambda x, y: [1, 2, 3, 4], lambda x, y: [[1, 2, 3], [4]], lambda x, y: "ab", [[1, "a"], [2, 3]], 3.0):
            with self.assertRaises(ValueError):
                solve(jac=jac, **two)
        self.assertTrue(solve(decay, (0, 1), [1], jac=-1.0).reached)
        self.assertTrue(solve(jac=([-1.0 * (i == j) for j in range(2)] for i in range(2)), **two).reached)  # gone through once, kept

    def test_what_is_no_number(self):
        for found in ([10**400], ["abc"], [None], [1j]):
            with self.assertRaisesRegex(ValueError, "fun gave .* at x = 0.0: that is no row of numbers"):
                solve(lambda x, y: found, (0, 1), [1])


class Differences(Clean):
    def test_sizes(self):
        """Below atol / rtol a component counts for nothing; but never more than what the run begins with, or 1."""
        self.assertEqual(scales(1e-3, 1e-6, [2.0]), [1e-6 / 1e-3])
        self.assertEqual(scales([1e-3, 0.0], [1e-6, 1.0], [2.0, 2.0]), [1e-6 / 1e-3, 1.0])
        self.assertEqual(scales(1e-14, 1e-6, [0.5]), [1.0])
        self.assertEqual(scales(1e-14, 1e-6, [0.5, -30.0]), [30.0, 30.0])

    def test_they_go_the_way_of_the_run(self):
        """The square root ends at 1, and the run comes from there."""
        asked = []

        def fun(x, y):
            asked.append(y[0])
            return [-math.sqrt(1 - y[0] ** 2) - 0.1]

        self.assertTrue(solve(fun, (0, 0.5), [1]).reached)
        self.assertLessEqual(max(asked), 1)

    def test_a_moved_point_is_said(self):
        with self.assertRaisesRegex(NotFinite, "moved in component 0 for the Jacobian"):
            solve(lambda x, y: [1.0 if y[0] == 0 else math.inf], (0, 1), [0])

    def test_the_point_itself_is_asked_once(self):
        """Where it was the last that was asked; and never an older one."""
        asked = []

        def fun(x, y):
            asked.append((x, tuple(y)))
            return [-y[0]]

        run = solve(fun, (0, 1), [1])
        self.assertEqual(run.counters["fun"], len(asked))
        self.assertLess(run.counters["differences"], 2 * run.counters["jac"])


class Kept(Clean):
    def test_ctrl_c_in_a_run(self):
        """The next run of the same Solver has another process."""
        with Solver() as solver:

            def fun(x, y):
                if x > 0.1:
                    raise KeyboardInterrupt
                return decay(x, y)

            with self.assertRaises(KeyboardInterrupt):
                solver.solve(fun, (0, 1), [1])
            self.assertIsNone(solver.process.pid)
            self.assertEqual(solver.solve(decay, (0, 1), [1]).y, solve(decay, (0, 1), [1]).y)

    def test_closed_in_a_run(self):
        with Solver() as solver:
            with self.assertRaisesRegex(Broken, "closed during its run"):
                solver.solve(lambda x, y: solver.close() or [-y[0]], (0, 1), [1])

    @unittest.skipUnless(hasattr(os, "fork"), "there is no fork on this system")
    def test_forked(self):
        """The other Python has a process of its own, and leaves this one's alone."""
        expected = solve(decay, (0, 1), [1]).y
        with Solver() as solver:
            solver.solve(decay, (0, 1), [1])
            ours = solver.process.pid
            child = os.fork()
            if child == 0:
                right = solver.process.pid is None and solver.solve(decay, (0, 1), [1]).y == expected
                solver.close()
                os._exit(0 if right else 1)
            self.assertEqual(os.waitpid(child, 0)[1], 0)
            self.assertTrue(alive(ours))
            self.assertEqual(solver.solve(decay, (0, 1), [1]).y, expected)
            self.assertEqual(solver.process.pid, ours)

    def test_no_command(self):
        for program in ("  ", '"'):
            with self.assertRaisesRegex(Broken, "is no command"):
                Solver(program)


class Unsaid(unittest.TestCase):
    def test_what_is_taken_unless_it_is_said(self):
        given = {name: one.default for name, one in inspect.signature(solve).parameters.items() if one.default is not inspect.Parameter.empty}
        usual = {"jac": None, "rtol": 1e-3, "atol": 1e-6, "max_steps": 100_000, "first_step": None, "notice": None, "max_step": None}
        self.assertEqual(given, {**usual, "newton_maxiter": 4, "guarded": True, "solver": None})


if __name__ == "__main__":
    unittest.main()
