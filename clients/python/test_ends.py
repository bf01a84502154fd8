#!/usr/bin/env python3
"""Either side of the pipe may end, or be another program altogether: there is a clear message, and nothing hangs or is left behind."""
import os
import signal
import subprocess
import sys
import time
import unittest
from pathlib import Path
from unittest import mock

sys.dont_write_bytecode = True
sys.path[:0] = [str(Path(__file__).resolve().parent)]

import replaying
from cuzzimbra import Broken, Solver, solve
from samples import HERE, Clean, alive, decay, program

# A user's program that solves something which takes for ever; it says the number of the solver's process first.
FOR_EVER = """
import sys, time
sys.dont_write_bytecode = True
sys.path[:0] = [{here!r}]
from cuzzimbra import Solver
def fun(x, y):
    {slowly}
    return [-y[0]]
with Solver() as solver:
    solver.process.start()
    print(solver.process.pid, flush=True)
    while True:
        solver.solve(fun, (0, 1), [1])
"""


class TheSolverEnds(Clean):
    def breaks(self, words, solver, fun=decay):
        with self.assertRaises(Broken) as caught:
            solver.solve(fun, (0, 1), [1])
        self.assertIn(words, str(caught.exception))
        self.assertIsNone(solver.process.pid)

    def test_killed_in_a_run(self):
        """And the next run has another process."""
        with Solver() as solver:

            def fun(x, y):
                if x > 0.5:
                    os.kill(solver.process.pid, signal.SIGKILL)
                    time.sleep(0.05)
                return decay(x, y)

            self.breaks("the solver ended before its run: it was killed by signal 9", solver, fun)
            self.assertTrue(solver.solve(decay, (0, 1), [1]).reached)

    def test_killed_between_runs(self):
        with Solver() as solver:
            solver.solve(decay, (0, 1), [1])
            os.kill(solver.process.pid, signal.SIGKILL)
            self.breaks("killed by signal 9", solver)
            self.assertTrue(solver.solve(decay, (0, 1), [1]).reached)

    def test_it_breaks_off(self):
        """Programs that begin as replay does, and then go wrong."""
        first = "sys.stdin.buffer.read(8)"
        cases = {
            "its exit status is 7": "sys.exit(7)",
            "its exit status is 0": "print('D 0000', end='')",
            "cannot be understood: b'X": "print('X', flush=True); sys.stdin.read()",
            "cannot be understood: b'S": "print('S 0000000000000000 3FF0000000000000', flush=True); sys.stdin.read()",
            "cannot be understood: b'D GG": "print('D', 16 * 'G', 16 * 'G', flush=True); sys.stdin.read()",
            "cannot be understood: b'E": "print('E 9 0000000000000000 1', flush=True); sys.stdin.read()",
            "cannot be understood: b'R": "print('R', flush=True); sys.stdin.read()",
        }
        for words, ending in cases.items():
            with self.subTest(ending=ending), Solver() as solver:
                solver.process.words = program(first, ending)
                self.breaks(words, solver)

    def test_another_program(self):
        cases = {"sleep 60": "does not answer", "cat": "does not answer", "yes": "is not the program replay", "true": "before its run"}
        with mock.patch.object(replaying, "PATIENCE", 0.2):
            for given, words in cases.items():
                with self.subTest(given=given), Solver(given) as solver:
                    self.breaks(words, solver)

    def test_no_program(self):
        with Solver("/no/such/program") as solver:
            self.breaks("cannot be started: /no/such/program", solver)
        with mock.patch.dict(os.environ), mock.patch.object(replaying, "BUILT", HERE / "none"):
            os.environ.pop("CUZZIMBRA_REPLAY", None)
            with self.assertRaises(Broken) as caught:
                solve(decay, (0, 1), [1])
        self.assertIn("run ./cuzzimbra run once", str(caught.exception))


class PythonEnds(Clean):
    def started(self, slowly):
        code = FOR_EVER.format(here=str(HERE), slowly=slowly)
        user = subprocess.Popen([sys.executable, "-c", code], stdout=subprocess.PIPE, stderr=subprocess.PIPE)
        self.addCleanup(user.stdout.close)
        self.addCleanup(user.stderr.close)
        solver = int(user.stdout.readline())
        self.assertTrue(alive(solver))
        return user, solver

    def gone(self, pid):
        until = time.monotonic() + 20
        while alive(pid) and time.monotonic() < until:
            time.sleep(0.01)
        self.assertFalse(alive(pid))

    @unittest.skipUnless(os.path.exists("/proc/self/stat"), "/proc is not there")
    def test_killed(self):
        """Python cannot do anything any more: the solver sees the end of its input. In the midst of talk, and while it waits."""
        for slowly in ("time.sleep(60)", "pass"):
            user, solver = self.started(slowly)
            time.sleep(0.2)
            user.kill()
            user.wait()
            self.gone(solver)

    @unittest.skipUnless(os.path.exists("/proc/self/stat"), "/proc is not there")
    def test_ctrl_c(self):
        for slowly in ("time.sleep(60)", "pass"):
            user, solver = self.started(slowly)
            time.sleep(0.2)
            user.send_signal(signal.SIGINT)
            said = user.communicate(timeout=30)[1].decode()
            self.assertTrue(said.rstrip().endswith("KeyboardInterrupt"), said)
            self.gone(solver)

    def test_left_open(self):
        """A Solver that nobody closed ends with Python, without a word."""
        code = f"import sys; sys.dont_write_bytecode = True; sys.path[:0] = [{str(HERE)!r}]\nfrom cuzzimbra import Solver\n"
        code += "s = Solver()\nprint(s.solve(lambda x, y: [-y[0]], (0, 1), [1]).status, s.process.pid)"
        done = subprocess.run([sys.executable, "-c", code], stdout=subprocess.PIPE, stderr=subprocess.PIPE, timeout=60)
        status, pid = done.stdout.decode().split()
        self.assertEqual((status, done.stderr), ("Success", b""))
        self.gone(int(pid))


if __name__ == "__main__":
    unittest.main()
