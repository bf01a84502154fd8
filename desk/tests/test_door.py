#!/usr/bin/env python3
"""The one door: exit statuses, what is said first and last, help, and that every file is run."""
import contextlib
import io
import os
import subprocess
import sys
import time
import unittest
from pathlib import Path
from unittest import mock

sys.dont_write_bytecode = True
sys.path[:0] = [str(Path(__file__).resolve().parents[2])]

from desk import causes, circuit, door, outcome, program
from samples import AUTOMATIC, EXAMPLES, FEW, FIRST, FIRST_LINES, HAIR, NONE, OVERFLOWS, ROOT, Desk, form, ring, wants_the_program

COMMANDS = ("run", "check", "show", "make", "read")


class Asking(Desk):
    """Help, and what is no command."""

    def test_help(self):
        status, out, _ = self.desk("--help")
        self.assertEqual(status, 0)
        for command in COMMANDS:
            self.assertIn(f"cuzzimbra {command}", out)
            status, words, _ = self.desk(command, "--help")
            self.assertEqual(status, 0)
            self.assertIn(f"usage: cuzzimbra {command} ", words)
            self.assertIn("Exit status: 0", words)
        status, out, _ = self.desk("run", "--help")
        for words in ("--once", "--within", "--csv", "--log", "--out", "Success, and settled", "NOT SETTLED", "UNFINISHED", "REFUSED", "4 if one is refused"):
            self.assertIn(words, out)

    def test_no_command(self):
        status, out, said = self.desk()
        self.assertEqual((status, out), (2, ""))
        self.assertIn("cuzzimbra run my-circuit.txt", said)
        status, out, said = self.desk("ran", "a.txt")
        self.assertEqual((status, out), (2, ""))
        self.assertTrue(said.startswith("'ran' is no command\n\nRuns circuits"))
        within = [("run", "--within", part) for part in ("0", "nan", "little", "1", "0.11", "1%", "-0.01")]
        for args in (("run", "--onc"), ("make", "a"), ("run", "--log", "z"), *within):
            status, out, said = self.desk(*args)
            self.assertEqual((status, out), (2, ""), args)
            self.assertIn(f"usage: cuzzimbra {args[0]} ", said)
            self.assertIn(f"cuzzimbra {args[0]}: error: ", said)
        self.assertIn("such as 0.01 for 1 in 100", self.desk("run", "--within", "1")[2])

    def test_as_a_command(self):
        done = subprocess.run([str(ROOT / "cuzzimbra"), "check", "examples/diode-ladder.txt"], cwd=ROOT, stdout=subprocess.PIPE, text=True)
        self.assertEqual((done.returncode, done.stdout), (0, "examples/diode-ladder.txt: 4 components, x from 0.0 to 0.02: it can be run\n"))

    def test_what_the_first_command_builds(self):
        """The desk's program, and the one that the Python client talks to."""
        first = list(program.steps())[:2]
        self.assertEqual([words for words, _ in first], [["rt", "run"]] * 2)
        self.assertEqual({folder.name for _, folder in first}, {"run_job", "replay"})
        first = next(line for line in (ROOT / "README.md").read_text().split("\n") if line.startswith("    "))
        self.assertTrue(first.startswith("    ./cuzzimbra run "))

    def test_examples_are_circuits_alone(self):
        kinds = {path.suffix for path in EXAMPLES.iterdir() if path.name != "README.md"}
        self.assertLessEqual(kinds, {".txt", ".py", ".svg", ".csv"})  # the last two are made by running the others, and not kept

    def test_show_and_make(self):
        text, job = self.text("a.txt", "title C#4 is C# 4 # sharp\nnames a#\n" + FIRST), self.folder / "a.job"
        self.assertEqual(self.desk("make", text, job), (0, f"{job}: 61 bytes\n", ""))
        status, out, _ = self.desk("show", job)
        self.assertEqual(status, 0)
        again = self.text("again.txt", out)
        self.assertEqual(self.desk("make", again, self.folder / "again.job")[0], 0)
        self.assertEqual((self.folder / "again.job").read_bytes(), job.read_bytes())
        self.assertIn("title C#4 is C# 4\nnames a#\n", self.desk("show", text)[1])

    def test_check(self):
        good, wrong, refused = self.text("a.txt", FIRST), self.text("b.txt", FIRST.replace("x0", "y")), self.text("c.txt", FIRST.replace("rtol ", "rtol -"))
        status, out, said = self.desk("check", good, wrong, refused, self.folder / "none.txt", self.folder)
        self.assertEqual(status, 2)
        self.assertEqual(out, f"{good}: 1 component, x from 0.0 to 1.0: it can be run\n")
        self.assertIn("b.txt, line 4: 'y': ", said)
        self.assertIn("c.txt, line 7: rtol is below 0 (the job program would refuse it by number 5)", said)
        self.assertIn("none.txt: No such file or directory", said)
        self.assertIn(f"{self.folder}: this is a folder", said)
        self.assertEqual(self.desk("check", good, refused)[0], 4)
        self.assertEqual(self.desk("check", good)[0], 0)
        self.assertIn("but y0 has no number (NaN) for y1 (line 9)", self.desk("check", self.text("d.txt", FIRST.replace("y0 1", "y0 nan")))[1])
        packed_one = self.folder / "e.job"
        packed_one.write_bytes(form(1, max_steps=0).packed())
        self.assertEqual(self.desk("check", packed_one)[0], 4)


@wants_the_program
class Running(Desk):
    def run_text(self, text, *options):
        return self.desk("run", self.text("a.txt", text), *options)

    def test_statuses(self):
        for text, status, first_line in (
            (FIRST, 0, "Success, and settled: "),
            (FEW, 3, "NeedLargerNMax: UNFINISHED, "),
            (HAIR, 3, "StepSizeTooSmall: UNFINISHED, "),
            (OVERFLOWS, 3, "Success, but OVERFLOWED: y1 is infinite or no number at x = 1.0; do not use these values"),
            (NONE, 0, "Success, and settled: n is 0, there is no component and nothing to compute"),
        ):
            came, out, said = self.run_text(text)
            self.assertEqual((came, said), (status, ""), text)
            self.assertTrue(out.startswith(first_line), out)
            self.assertTrue((self.folder / "a.svg").exists())

    def test_overflowed_once(self):
        """It cannot pass for a success, with a second run or without."""
        self.assertEqual(self.run_text(OVERFLOWS, "--once")[0], 3)

    def test_refused(self):
        job = self.folder / "a.job"
        job.write_bytes(form(1, max_steps=0).packed())
        status, out, _ = self.desk("run", job)
        self.assertEqual(status, 4)
        self.assertTrue(out.startswith("REFUSED by number 6: max_steps is 0; nothing was computed"))
        self.assertEqual(self.run_text(FIRST.replace("rtol ", "rtol -"))[0], 4)

    def test_all_are_run_and_the_worst_decides(self):
        names = {"good": FIRST, "few": FEW, "refused": FIRST.replace("rtol ", "rtol -"), "wrong": FIRST.replace("x0", "y")}
        paths = {name: self.text(f"{name}.txt", text) for name, text in names.items()}
        status, out, said = self.desk("run", *(paths[name] for name in ("wrong", "refused", "few", "good")), self.folder / "none.txt")
        self.assertEqual(status, 2)
        for words in ("wrong.txt: a mistake; ", "refused.txt: REFUSED; ", "few.txt: UNFINISHED; ", "good.txt: Success, and settled; ", "none.txt: a mistake"):
            self.assertIn(words, out.rstrip("\n").split("\n")[-1])
        self.assertIn("wrong.txt, line 4: ", said)
        self.assertIn(f"== {paths['few']}\nNeedLargerNMax: UNFINISHED, ", out)
        for some, status in ((("good", "few"), 3), (("few", "refused"), 4), (("refused", "good"), 4), (("good",), 0), (("wrong", "good"), 2)):
            self.assertEqual(self.desk("run", *(paths[name] for name in some))[0], status)

    def test_the_demonstration(self):
        """Its deliberate failure is told apart; were it none, that would be a failure."""
        with mock.patch("desk.door.made_folder", lambda _: str(self.folder)):
            status, out, said = self.desk("run")
        self.assertEqual((status, said), (0, ""))
        last = out.rstrip("\n").split("\n")[-1]
        self.assertIn("diode-ladder.txt: Success, and settled; ", last)
        self.assertTrue(last.endswith("diode-ladder-stops.txt: UNFINISHED, as it is meant to be"), last)
        self.assertIn("\nNeedLargerNMax: UNFINISHED, ", out)
        self.assertIn("\nThe next has too few steps on purpose, ", out)
        self.assertEqual({path.name for path in self.folder.iterdir()}, {"diode-ladder.svg", "diode-ladder-stops.svg"})
        with mock.patch("desk.door.made_folder", lambda _: str(self.folder)), mock.patch.object(door, "UNFINISHED", "another"):
            self.assertEqual(self.desk("run")[0], 2)
        with mock.patch("desk.door.made_folder", lambda _: str(self.folder)):
            self.assertEqual(self.desk("run", "--within", "1e-9")[0], 3)  # the first ladder counts
        self.assertEqual(self.desk("run", EXAMPLES / "diode-ladder-stops.txt", "--out", self.folder)[0], 3)

    def test_a_hair_short(self):
        _, out, _ = self.run_text(HAIR)
        self.assertIn("It stopped 1.11e-16 short of xend, by rounding. The last value is that of x = 0.8999999999999999, and of that x alone.", out)
        self.assertIn("What to do: write xend 0.9000000009; with it the same circuit ends in Success.", out)
        self.assertNotIn("100 %", out)
        self.assertEqual(self.run_text(HAIR.replace("xend 0.9", "xend 0.9000000009"))[0], 0)

    def test_causes(self):
        decay = FIRST.replace("  0\n", "  -1\n").replace("100000", "50")
        for old, new, words in (
            ("y0 1", "y0 nan", "The likely cause: y0 has no number (NaN) for y1 (line 9)."),
            ("  -1\n", "  infinity\n", "The likely cause: A has infinity in row 1, column 1 (line 11)."),
            ("newton_maxiter 4", "newton_maxiter 0", "The likely cause: newton_maxiter is 0 (line 3), which counts as 1: with a single pass of Newton's method"),
            ("rtol 1e-3", "rtol nan", "rtol is no number (NaN) (line 7)."),
            ("xend 1", "xend infinity", "The likely cause: xend is infinity (line 5)."),
            ("x0 0", "x0 -infinity", "The likely cause: x0 is -infinity (line 4)."),
            ("atol 1e-6", "atol nan", "atol is no number (NaN) (line 8)."),
            ("first_step 0.5", "first_step nan", "first_step is no number (NaN) (line 6)."),
            ("newton_maxiter 4", "newton_maxiter 1", "newton_maxiter is 1 (line 3): "),
            ("rtol 1e-3\natol 1e-6", "rtol 0\natol 0", "The likely cause: rtol and atol are both 0 (line 8): an error has no room."),
            ("x0 0\nxend 1", "x0 1\nxend 1", "xend is x0, 1.0: there is nothing to run."),
            ("max_steps 50", "max_steps 3", "Raise max_steps (line 2), to 1,000,000 at most, and run it again."),
        ):
            status, out, _ = self.run_text(decay.replace(old, new))
            self.assertIn(words, out)
        grows = decay.replace("  -1\n", "  1000\n").replace("max_steps 50", "max_steps 500")
        self.assertIn("The likely cause: the circuit blows up, y1 is ", self.run_text(grows)[1])
        for text in (decay, decay.replace("max_steps 50", "max_steps 3")):
            self.assertNotIn("likely cause", self.run_text(text)[1])

    def test_other_ways_to_stop(self):
        """No hair where there is none, and advice that can be followed."""
        for old, new in (("xend 1", "xend 1e16"), ("x0 0\nxend 1", "x0 1\nxend 1"), ("x0 0\nxend 1", "x0 1e16\nxend 10000000000000010"), ("x0 0", "x0 infinity")):
            _, out, _ = self.run_text(FIRST.replace(old, new).replace("  0\n", "  -1\n").replace("100000", "40"))
            self.assertNotIn("by rounding", out)
        zero = AUTOMATIC.replace("n 1", "n 2").replace("y0 1", "y0 1 0").replace("  0\n", "  -1 0\n  1 -2\n").replace("atol 1e-6", "atol 0")
        self.assertIn("The likely cause: atol is 0 (line 8), and so is y2 at x0", self.run_text(zero)[1])
        far = AUTOMATIC.replace("x0 0\nxend 1", "x0 1e6\nxend 1000000.005").replace("  0\n", "  -1000\n").replace("1e-3", "1e-4").replace("1e-6", "1e-7")
        self.assertIn("The likely cause: so far from 0 doubles lie 2.2e-10 apart", self.run_text(far)[1])
        full = ring(1e-9, 1e-13, 100).replace("max_steps 1000000", "max_steps 1000000")
        came = outcome.read(circuit.of_text(full, "t"), [])
        came.fault, came.ended, came.xs, came.ys = None, ["2"], [0.0, 1.0], [[1.0, 1.0], [0.0, 0.0]]
        self.assertEqual(causes.why_unfinished(came)[1], "max_steps is already at its most: ask for a shorter run, or for less exactness.")
        came.ended, came.xend = ["3"], 2.0
        self.assertEqual(causes.why_unfinished(came)[1].split(":")[0], "The step became too small for what is asked")
        self.assertIn("50 % of the way", causes.why_unfinished(came)[0])

    def test_notes_on_a_run_that_ended(self):
        self.assertIn("\nNote: newton_maxiter is 1 (line 3): ", self.run_text(FIRST.replace("maxiter 4", "maxiter 1"))[1])

    def test_no_component(self):
        self.assertIn("there is no component", self.run_text(NONE)[1])
        self.assertIn("nothing", (self.folder / "a.svg").read_text())

    def test_control_characters(self):
        """Wherever words of others are printed or saved."""
        text = self.text("a\x1b.txt", "title \x1b[31mred\x07\naxis \x1b]0;x\nnames a\x08b\n" + FIRST)
        _, out, said = self.desk("run", "--csv", text)
        saved = "".join(path.read_text() for path in self.folder.iterdir() if path.suffix != ".txt")
        self.assertEqual([c for c in "\x1b\x07\x08" if c in out + said + saved], [])
        for words in (r"\x1b[31mred\x07", r"a\x08b", r"\x1b]0;x", r"a\x1b.txt"):
            self.assertIn(words, out)
        self.assertIn(r"step,x,a\x08b", saved)
        for command in ("show", "check"):
            _, out, said = self.desk(command, text)
            self.assertNotIn("\x1b", out + said)
            self.assertIn(r"\x1b", out)
        wrong = self.text("b\x1b.txt", FIRST.replace("x0", "\x1b[2J"))
        for command in ("run", "check", "show"):
            _, out, said = self.desk(command, wrong)
            self.assertNotIn("\x1b", out + said)
        overflows = self.text("c.txt", "names a\x08b\n" + OVERFLOWS)
        self.assertNotIn("\x08", self.desk("run", overflows)[1])

    def test_colours_on_a_terminal(self):
        amber = ring(0.1, 1e-6, 0.1)
        for text, colour in ((FIRST, "32mSuccess, and settled"), (amber, "33mSuccess, NOT SETTLED"), (FEW, "31mNeedLargerNMax")):
            self.assertIn(f"\x1b[1;{colour}", self.on_a_terminal(text))
            self.assertNotIn("\x1b", self.on_a_terminal(text, NO_COLOR="1"))

    def on_a_terminal(self, text, **more):
        """What is written to a terminal that stands for standard output and error."""
        try:
            import pty
        except ImportError:
            self.skipTest("there are no terminals to pretend on this system")
        ours, theirs = pty.openpty()
        done = subprocess.run([str(ROOT / "cuzzimbra"), "run", self.text("a.txt", text)], stdout=theirs, stderr=theirs, env={**os.environ, **more})
        os.close(theirs)
        self.assertIn(done.returncode, (0, 3))
        out = os.read(ours, 1 << 16).decode()  # a short run: all of it waits there
        os.close(ours)
        return out

    def test_progress(self):
        """Of what takes longer than a second; here of what takes longer than none."""
        self.assertEqual(program.PATIENCE, 1.0)
        with mock.patch.object(program, "PATIENCE", 1e-4):
            said = self.run_text(ring(1e-6, 1e-9, 0.5))[2]
        self.assertRegex(said, r"\.\. \S+a\.txt: [0-9,]+ steps, [0-9.]+ % of the way\n")
        self.assertRegex(said, r"\.\. the second run, at tolerances 100 times finer: ")
        self.assertIn(".. comparing the two runs\n", said)
        self.assertEqual(self.run_text(FIRST)[2], "")

    def test_progress_on_a_terminal(self):
        """One line, which is written over and taken away."""
        terminal = io.StringIO()
        terminal.isatty = lambda: True
        with mock.patch.object(program, "PATIENCE", 0.01), contextlib.redirect_stderr(terminal):
            with program.Progress(lambda: "x" * 100):
                time.sleep(0.1)
        parts = terminal.getvalue().split("\r")
        self.assertGreater(len(parts), 3)
        self.assertEqual({len(part) for part in parts[1:-1]}, {78})
        self.assertEqual(parts[-2:], [" " * 78, ""])
        self.assertNotIn("\n", terminal.getvalue())

    def test_a_program_that_is_not_there(self):
        with mock.patch.dict(os.environ, {"RUN_JOB": "/nowhere/run_job"}):
            status, _, said = self.run_text(FIRST)
        self.assertEqual((status, said), (2, "/nowhere/run_job: No such file or directory\n"))

    def test_a_program_that_fails(self):
        """Whatever it prints, it is not finished."""
        for script in ("printf 'I 00000'", "cat >/dev/null; exit 3", f"cat >/dev/null; printf '{FIRST_LINES}'; exit 1", "kill -9 $$"):
            with mock.patch.dict(os.environ, {"RUN_JOB": f'sh -c "{script}"'}):
                status, out, _ = self.run_text(FIRST)
            self.assertEqual(status, 3, script)
            self.assertIn("UNFINISHED", out.split("\n")[0])
        for given in (" ", '"abc'):
            with mock.patch.dict(os.environ, {"RUN_JOB": given}):
                self.assertEqual(self.run_text(FIRST)[0::2], (2, f"RUN_JOB is {given!r}, which is no command\n"))

    def test_no_program_is_left_behind(self):
        """Where the desk is stopped, so is what it runs."""
        begun = []

        def stopped(process, *_):
            begun.append(process)
            raise KeyboardInterrupt

        with mock.patch.object(program, "listen", stopped), mock.patch.dict(os.environ, {"RUN_JOB": "sleep 1000"}):
            self.assertEqual(self.run_text(FIRST)[0], 130)
        self.assertLess(begun[0].returncode, 0)

    def test_standard_output(self):
        """Closed, full, cut off, or without the letters: never a traceback, and the picture is saved."""
        text = self.text("a.txt", "title \u00dcbung \u97f3\n" + FIRST)
        for redirected, status in ((">&-", 0), (">/dev/full", 2), ("| true", None), ("2>&-", 0), ("| cat", None)):
            line = f"'{ROOT}/cuzzimbra' run '{text}' {redirected}"
            done = subprocess.run(["sh", "-c", line], env={**os.environ, "PYTHONIOENCODING": "ascii"}, stdout=subprocess.PIPE, stderr=subprocess.PIPE)
            self.assertNotIn(b"Traceback", done.stderr, redirected)
            self.assertIn(done.returncode, (0, 2) if status is None else (status,), redirected)
            if redirected == ">/dev/full":
                self.assertEqual(done.stderr, b"standard output cannot be written: No space left on device\n")
            if redirected == "| cat":
                self.assertIn(rb"\xdcbung \u97f3", done.stdout)
        self.assertTrue((self.folder / "a.svg").exists())

    def test_options_anywhere(self):
        one, two = self.text("a.txt", FIRST), self.text("b.txt", FIRST)
        status, out, _ = self.desk("run", one, "--once", two)
        self.assertEqual((status, out.count("Success, unchecked: ")), (0, 2))

    def test_logarithmic_axes_by_choice(self):
        text = self.text("a.txt", FIRST.replace("  0\n", "  -1\n"))
        asked = []
        with mock.patch("desk.picture.draw", lambda came, found, log: asked.append(log) or "<svg/>\n"):
            for axes in ((), ("--log", "x"), ("--log", "y"), ("--log", "xy"), ("--log", "never")):
                self.desk("run", "--once", text, *axes)
        self.assertEqual(asked, [None, {"x"}, {"y"}, {"x", "y"}, set()])

    def test_what_moved_is_printed(self):
        """Component by component, below the first line; and the part that was allowed, where it is another."""
        _, out, _ = self.run_text(ring(1e-7, 1e-10, 0.05), "--within", "0.05")
        lines = out.split("\n")
        self.assertTrue(lines[0].startswith("Success, and settled within 0.05: "))
        self.assertRegex(lines[3], r"^  u( +[0-9.e+-]+){5}$")
        self.assertRegex(lines[4], r"^  v( +[0-9.e+-]+){5}$")
        self.assertTrue(lines[-2].endswith("a.txt: Success, and settled within 0.05"))


@wants_the_program
class Reading(Desk):
    """Lines that were printed earlier."""

    def read(self, lines, text, *options):
        return self.desk("read", self.text("a.lines", lines), self.text("a.txt", text), *options)

    def printed(self, text):
        job = self.text("p.txt", text)
        packed_one = self.folder / "p.job"
        self.assertEqual(self.desk("make", job, packed_one)[0], 0)
        return subprocess.run(program.command(), input=packed_one.read_bytes(), stdout=subprocess.PIPE).stdout.decode()

    def test_its_own(self):
        self.assertEqual(self.printed(FIRST), FIRST_LINES)
        status, out, said = self.read(FIRST_LINES, FIRST)
        self.assertEqual((status, said), (0, ""))
        self.assertTrue(out.startswith("Success, and settled: "))
        self.assertTrue(out.rstrip("\n").endswith("a.lines: Success, and settled"))

    def test_another_job_s(self):
        """Everything in the job is held against the lines: beginning, limits, tolerances, A."""
        text = ring(1e-6, 1e-9, 0.01)
        lines = self.printed(text)
        self.assertEqual(self.read(lines, text)[0], 0)
        begun = (("x0 0", "x0 1e-9"), ("y0 1 0", "y0 1 1e-9"), ("xend 0.01", "xend 0.0101"), ("1000000", "3"))
        for old, new in (*begun, ("rtol 1e-06", "rtol 1e-7"), ("atol 1e-09", "atol 1e-8"), ("-0.15 ", "-0.16 ")):
            self.assertIn(old, text)
            status, out, _ = self.read(lines, text.replace(old, new, 1))
            self.assertEqual(status, 3, new)
            self.assertTrue(out.startswith("UNFINISHED: "), out)
        for old, new in (("xend 0.01", "xend 0.009"), ("y0 1 0", "y0 1 1e-9"), ("xend 0.01", "xend 0.011")):
            status, out, _ = self.read(lines, text.replace(old, new, 1), "--alone")
            self.assertEqual(status, 3, new)
        status, out, _ = self.read(lines, text.replace("-0.15 ", "-0.16 ", 1))
        self.assertIn("is not what the program prints for this job: another job's lines, or another edition's", out)

    def test_cut_off(self):
        status, out, _ = self.read(FIRST_LINES[:-3], FIRST)
        self.assertEqual(status, 3)
        self.assertTrue(out.startswith("UNFINISHED: line 4 of the output is cut off"))

    def test_alone(self):
        with mock.patch.object(program, "command", side_effect=AssertionError):
            status, out, _ = self.read(FIRST_LINES, FIRST, "--alone")
            self.assertEqual(status, 0)
            self.assertTrue(out.startswith("Success, unchecked: "))
            self.assertEqual(self.read(FIRST_LINES, FEW, "--alone")[0], 3)

    def test_lines_that_cannot_be_read(self):
        text = self.text("a.txt", FIRST)
        for lines, words in ((self.folder / "none", "No such file"), ("/dev/zero", "this is a device"), (self.folder, "Is a directory")):
            status, _, said = self.desk("read", lines, text)
            self.assertEqual(status, 2)
            self.assertIn(words, said)


if __name__ == "__main__":
    unittest.main()
