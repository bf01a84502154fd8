#!/usr/bin/env python3
"""Pictures and sheets: nothing of others is destroyed, each circuit has its own, and a sheet that was cut off is known."""
import math
import os
import sys
import unittest
from pathlib import Path
from unittest import mock

sys.dont_write_bytecode = True
sys.path[:0] = [str(Path(__file__).resolve().parents[2])]

from desk import circuit, outcome, saving, sheet, table
from samples import FEW, FIRST, FIRST_LINES, OVERFLOWS, Desk, form, ring, wants_the_program


@wants_the_program
class Places(Desk):
    """Where pictures and sheets are saved."""

    def run_once(self, *args):
        status, out, said = self.desk("run", "--once", *args)
        return status, [line.split(": ", 1)[1] for line in out.split("\n") if line.startswith(("picture: ", "sheet: "))], said

    def test_beside_the_text(self):
        text = self.text("a.b.txt", FIRST)
        self.assertEqual(self.run_once(text, "--csv"), (0, [str(self.folder / "a.b.svg"), str(self.folder / "a.b.csv")], ""))
        self.assertEqual({path.name for path in self.files()}, {"a.b.txt", "a.b.svg", "a.b.csv"})

    def test_inputs_stay(self):
        """Every file that is named is an input: none is taken for a picture's name."""
        one, two = self.text("a.txt", FIRST), self.text("b.txt", FEW)
        self.run_once(one, two)
        self.assertEqual(Path(one).read_text(), FIRST)
        self.assertEqual(Path(two).read_text(), FEW)

    def test_our_own_is_replaced(self):
        text = self.text("a.txt", FIRST)
        self.run_once(text)
        first = (self.folder / "a.svg").read_bytes()
        self.text("a.txt", FEW)
        self.run_once(text)
        self.assertNotEqual((self.folder / "a.svg").read_bytes(), first)
        self.assertEqual(len(self.files()), 2)

    def test_others_files_stay(self):
        """A drawing of someone else's, one of ours that someone has changed since, and one of another circuit."""
        text = self.text("a.txt", FIRST)
        drawing = self.text("a.svg", "<svg>by hand</svg>")
        self.assertEqual(self.run_once(text)[1], [str(self.folder / "a-2.svg")])
        self.assertEqual(Path(drawing).read_text(), "<svg>by hand</svg>")
        with open(self.folder / "a-2.svg", "a") as file:
            file.write("<!-- a note of mine -->\n")
        self.assertEqual(self.run_once(text)[1], [str(self.folder / "a-3.svg")])
        self.assertIn("a note of mine", (self.folder / "a-2.svg").read_text())
        job = self.folder / "a.job"
        job.write_bytes(form(1).packed())
        self.assertEqual(self.run_once(job)[1], [str(self.folder / "a-4.svg")])
        self.assertEqual(self.run_once(text)[1], [str(self.folder / "a-3.svg")])

    def test_two_of_one_name(self):
        """In two folders, with pictures beside them, or in a folder that is given and made."""
        one, two = self.text("one/a.txt", FIRST), self.text("two/a.txt", FEW)
        self.assertEqual(self.run_once(one, two)[1], [str(self.folder / "one/a.svg"), str(self.folder / "two/a.svg")])
        out = self.folder / "new" / "out"
        expected = [str(out / "a.svg"), str(out / "a-2.svg")]
        self.assertEqual(self.run_once(one, two, "--out", out)[1], expected)
        self.assertEqual(self.run_once(two, one, "--out", out)[1], expected[::-1])  # each finds its own
        self.assertIn("UNFINISHED", (out / "a-2.svg").read_text())
        self.assertNotIn("UNFINISHED", (out / "a.svg").read_text())

    def test_a_folder_that_moves(self):
        text = self.text("one/a.txt", FIRST)
        self.run_once(text)
        (self.folder / "one").rename(self.folder / "two")
        self.assertEqual(self.run_once(self.folder / "two" / "a.txt")[1], [str(self.folder / "two/a.svg")])

    def test_no_path_is_told(self):
        text = self.text("secret/a.txt", FIRST)
        self.run_once(text, "--csv", "--out", self.folder / "out")
        for path in (self.folder / "out").iterdir():
            self.assertNotIn("secret", path.read_text())

    @unittest.skipUnless(hasattr(os, "mkfifo"), "there are no pipes with names on this system")
    def test_devices_and_pipes_stay(self):
        text = self.text("a.txt", FIRST)
        os.mkfifo(self.folder / "a.svg")
        (self.folder / "a-2.svg").symlink_to("/dev/null")
        (self.folder / "a-3.svg").mkdir()
        self.assertEqual(self.run_once(text)[1], [str(self.folder / "a-4.svg")])
        self.assertTrue((self.folder / "a.svg").is_fifo() and (self.folder / "a-2.svg").is_symlink())

    def test_what_cannot_be_saved(self):
        """It is said in a sentence, the run is still told, and the other files are run."""
        one, two = self.text("a.txt", FIRST), self.text("b.txt", FIRST)
        with mock.patch("desk.saving.put", side_effect=OSError(28, "No space left on device")):
            status, out, said = self.desk("run", "--once", one, two, "--csv")
        self.assertEqual((status, out.count("picture: ")), (2, 0))
        self.assertIn("a.txt: Success, unchecked, but NOT SAVED; ", out.split("\n")[-2])
        self.assertEqual(said.count("it was not saved: No space left on device (--out FOLDER saves it elsewhere)\n"), 4)
        self.assertEqual(len(self.files()), 2)
        status, _, said = self.run_once(one, "--out", two)
        self.assertEqual((status, said), (2, f"{two}: this is no folder\n"))

    @unittest.skipIf(not hasattr(os, "geteuid") or os.geteuid() == 0, "root may write everywhere")
    def test_a_protected_folder(self):
        text = self.text("a.txt", FIRST)
        self.folder.chmod(0o555)
        self.addCleanup(self.folder.chmod, 0o755)
        status, _, said = self.run_once(text)
        self.assertEqual(status, 2)
        self.assertIn("it was not saved: Permission denied", said)

    def test_an_older_picture_is_named(self):
        text = self.text("a.txt", FIRST)
        self.run_once(text)
        self.text("a.txt", FIRST.replace("x0", "y"))
        status, out, _ = self.desk("run", text)
        self.assertEqual(status, 2)
        self.assertIn(f"(the picture {self.folder / 'a.svg'} is of an earlier run)", out)

    def test_an_older_sheet_is_named(self):
        text = self.text("a.txt", FIRST)
        self.run_once(text, "--csv")
        words = f"(the sheet {self.folder / 'a.csv'} is of an earlier run)"
        self.assertNotIn(words, self.desk("run", text, "--csv")[1])
        self.assertIn(words, self.desk("run", text)[1])
        self.text("a.txt", FIRST.replace("x0", "y"))
        self.assertIn(words, self.desk("run", text, "--csv")[1])

    def test_a_name_that_is_taken_meanwhile(self):
        text = self.text("a.txt", FIRST)

        def link(part, to):
            Path(to).write_bytes(b"another's")
            raise FileExistsError(17, "File exists")

        with mock.patch("os.link", link):
            status, _, said = self.run_once(text)
        self.assertEqual(status, 2)
        self.assertEqual((self.folder / "a.svg").read_bytes(), b"another's")
        with mock.patch("os.link", side_effect=OSError(95, "Operation not supported")):  # a disk without links
            self.assertEqual(self.run_once(text)[1], [str(self.folder / "a-2.svg")])

    def test_names_with_braces(self):
        text = self.text("a.txt", "names {0}\n" + OVERFLOWS)
        self.desk("run", "--csv", text)
        self.assertIn("OVERFLOWED: {0} is infinite", (self.folder / "a.csv").read_text())

    def test_what_is_no_file(self):
        """A pipe has no folder for its picture: it goes where one is."""
        ours, theirs = os.pipe()
        os.write(theirs, FIRST.encode())
        os.close(theirs)
        before = os.getcwd()
        os.chdir(self.folder)
        try:
            status, saved, _ = self.run_once(f"/dev/fd/{ours}")
        finally:
            os.chdir(before)
            os.close(ours)
        self.assertEqual((status, saved), (0, [f"./{ours}.svg"]))


class Names(unittest.TestCase):
    def test_no_name_is_left(self):
        with mock.patch("os.path.lexists", lambda _: True):
            with self.assertRaisesRegex(saving.Wrong, "this name and 98 before it are taken"):
                saving.place("a.txt", None, ".svg")


class Sheets(unittest.TestCase):
    """Every step, all components, 17 digits, and an end that shows where it was cut off."""

    def read(self, lines=FIRST_LINES, text=FIRST):
        return outcome.read(circuit.of_text(text, "t"), lines.encode().splitlines(keepends=True))

    def test_whole(self):
        lines = sheet.sheet(self.read()).split("\n")
        end = "# end: Success, xend reached, x 1, h 0.5, attempts 2, accepted 2, rejected 0, derivatives 3, Jacobians 1, factorings 1, start 0"
        self.assertEqual(lines, ["step,x,y1", "0,0,1", "1,0.5,1", "2,1,1", end, ""])

    def test_every_double_comes_back(self):
        for y in (0.1, 1 / 3, 5e-324, 1.7976931348623157e308, -0.0, math.pi):
            came = self.read()
            came.ys[0][1] = y
            self.assertEqual(float(sheet.sheet(came).split("\n")[2].split(",")[2]), y)

    def test_not_finished(self):
        self.assertIn("# end: NeedLargerNMax, UNFINISHED, x 1, ", sheet.sheet(self.read(FIRST_LINES.replace("E 0", "E 2"), FIRST.replace("100000", "2"))))
        self.assertIn("# end: none, UNFINISHED; ", sheet.sheet(self.read(FIRST_LINES[:80])))
        self.assertIn("# end: none, REFUSED by number 8; ", sheet.sheet(self.read("R 8\n")))

    def test_names_of_our_own_columns(self):
        self.assertEqual(sheet.sheet(self.read(text="names x\n" + FIRST)).split("\n")[0], "step,x,component x")

    def test_names(self):
        came = self.read(text='names V,"1"\n' + FIRST)
        self.assertEqual(sheet.sheet(came).split("\n")[0], 'step,x,"V,""1"""')


@wants_the_program
class SavedSheets(Desk):
    def test_first_and_last_line(self):
        """The status, and the end: whatever cuts it off takes the last line away."""
        for text, first, last in (
            (FIRST, "# Success, and settled: ", "# end: Success, xend reached, x 1, "),
            (FEW, "# NeedLargerNMax: UNFINISHED, ", "# end: NeedLargerNMax, UNFINISHED, x 0.5, "),
            (OVERFLOWS, "# Success, but OVERFLOWED: ", "# end: Success, xend reached, "),
        ):
            self.desk("run", "--csv", self.text("a.txt", text))
            lines = (self.folder / "a.csv").read_text().split("\n")
            self.assertTrue(lines[0].startswith(first), lines[0])
            self.assertTrue(lines[-2].startswith(last), lines[-2])
            self.assertEqual(lines[-1], "")
            self.assertEqual(sum(line.startswith("#") for line in lines), 2)

    def test_every_step(self):
        self.desk("run", "--csv", "--once", self.text("a.txt", ring(1e-6, 1e-9, 0.05)))
        lines = (self.folder / "a.csv").read_text().split("\n")
        accepted = int(lines[-2].split("accepted ")[1].split(",")[0])
        self.assertEqual([line.split(",")[0] for line in lines[2:-2]], [str(i) for i in range(accepted + 1)])
        self.assertEqual({len(line.split(",")) for line in lines[1:-2]}, {4})


class Rows(unittest.TestCase):
    """The table shows an oscillation, or says that it cannot."""

    def run_through(self, xs, *columns):
        came = outcome.Outcome(circuit.of_text(FIRST, "t"))
        came.job = came.job.but(n=len(columns), names=[f"y{i + 1}" for i in range(len(columns))])
        came.names, came.xs, came.ys = came.job.names, list(xs), [list(column) for column in columns]
        return came

    def wave(self, periods, count=2000):
        xs = [i / count for i in range(count + 1)]
        return xs, [math.cos(2 * math.pi * periods * x) for x in xs]

    def test_few_periods(self):
        """Every high and low is a row."""
        came = self.run_through(*self.wave(4))
        picked, lost = table.rows(came)
        self.assertEqual(lost, [])
        self.assertLessEqual(len(picked), table.MOST_ROWS)
        for turn in range(9):
            self.assertIn(250 * turn, picked)

    def test_many_periods(self):
        came = self.run_through(*self.wave(100))
        picked, lost = table.rows(came)
        self.assertLessEqual(len(picked), table.MOST_ROWS)
        self.assertIn("(these rows cannot show the swings: y1 turns 199 times; the picture shows them, and --csv has every step)", lost)
        self.assertIn(lost[0], table.table(came))

    def test_a_hidden_component_turns(self):
        """That the first is smooth does not hide the second."""
        xs, wave = self.wave(50)
        self.assertIn("y2 turns 99 times", "".join(table.rows(self.run_through(xs, xs, wave))[1]))

    def test_noise_is_no_turn(self):
        xs, wave = self.wave(1)
        noisy = table.turns([y + 0.005 * (-1) ** i for i, y in enumerate(wave)])
        self.assertEqual((len(table.turns(wave)), len(noisy)), (1, 1))
        self.assertLess(abs(noisy[0] - 1000), 50)

    def test_long_names_stay_apart(self):
        came = self.run_through([0.0, 1.0], [1.0, 2.0], [3.0, 4.0])
        came.job = came.job.but(names=["a_very_long_name_of_a_component_1", "a_very_long_name_of_a_component_2"])
        self.assertIn("omponent_1", table.table(came)[0])
        self.assertIn("omponent_2", table.table(came)[0])

    def test_more_components_than_columns(self):
        came = self.run_through([0.0, 1.0], *([[1.0, 2.0]] * 11))
        self.assertIn("(and 3 more components, in the picture and with --csv)", table.table(came))

    def test_digits_that_tell_apart(self):
        """x from 1e9 to 1e9 + 1, and a value that hardly changes."""
        came = self.run_through([1e9 + i / 8 for i in range(9)], [1e6 + i / 1000 for i in range(9)])
        rows_shown = [line.split() for line in table.table(came)[1:10]]
        self.assertEqual(len({row[1] for row in rows_shown}), 9)
        self.assertEqual(len({row[2] for row in rows_shown}), 9)

    def test_x_without_places(self):
        for xs in ([0.0], [0.0, math.inf], [math.nan, 1.0, 2.0], [1.0, 1.0]):
            picked, _ = table.rows(self.run_through(xs, [1.0] * len(xs)))
            self.assertEqual((picked[0], picked[-1]), (0, len(xs) - 1))


if __name__ == "__main__":
    unittest.main()
