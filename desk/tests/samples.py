"""The jobs that the tests begin with, and the desk as it is called."""
import contextlib
import io
import math
import os
import tempfile
import unittest
from pathlib import Path

from desk import circuit, door, packed, program

ROOT = Path(__file__).resolve().parents[2]
EXAMPLES = ROOT / "examples"

# The first job of docs/JOB-FORMAT.md.
FIRST = "n 1\nmax_steps 100000\nnewton_maxiter 4\nx0 0\nxend 1\nfirst_step 0.5\nrtol 1e-3\natol 1e-6\ny0 1\nA\n  0\n"
FIRST_BYTES = "0461A80200 0000000000000000 3FF0000000000000 3FE0000000000000 3F50624DD2F1A9FC 3EB0C6F7A0B5ED8D 3FF0000000000000 0000000000000000"
FIRST_LINES = """I 0000000000000000 3FF0000000000000
S 3FE0000000000000 3FF0000000000000
S 3FF0000000000000 3FF0000000000000
E 0 3FE0000000000000 2 2 0 3 1 1 0
"""
# The same with an automatic start, and one without a component.
AUTOMATIC = FIRST.replace("first_step 0.5", "first_step automatic")
NONE = FIRST.replace("n 1\n", "n 0\n").replace("y0 1\n", "y0\n").replace("  0\n", "")
# It stops one unit in the last place short of xend (docs/DIFFERENCES.md, 1).
HAIR = FIRST.replace("xend 1", "xend 0.9").replace("first_step 0.5", "first_step 0.1")
FEW = FIRST.replace("max_steps 100000", "max_steps 1")
# It ends in Success, and its y is infinite (docs/DIFFERENCES.md, 13).
OVERFLOWS = FEW.replace("first_step 0.5", "first_step 1").replace("rtol 1e-3", "rtol 0").replace("atol 1e-6", "atol infinity")
OVERFLOWS = OVERFLOWS.replace("y0 1", "y0 1e308").replace("  0\n", "  0.5\n")
W = 2 * math.pi * 440


def ring(rtol, atol, xend=1.0, fall=0.15):
    """A ring of 440 Hz that falls slowly; its end at 1 s is 0.8607."""
    head = FIRST.split("first_step")[0].replace("n 1\n", "names u v\nn 2\n").replace("100000", "1000000").replace("xend 1", f"xend {xend}")
    return f"{head}first_step automatic\nrtol {rtol}\natol {atol}\ny0 1 0\nA\n  {-fall} {W!r}\n  {-W!r} {-fall}\n"


def first():
    return circuit.of_text(FIRST, "first")


def form(n, /, **change):
    """A form of n components that may be saved, and what is changed in it."""
    half, thousandth = 0x3FE0 << 48, 0x3F50624DD2F1A9FC
    fields = {"n": n, "max_steps": 100, "newton_maxiter": 4, "automatic": False, "x0": 0, "xend": half, "first_step": half}
    fields.update({"rtol": thousandth, "atol": thousandth, "y0": [half] * n, "A": [0] * n * n, **change})
    return packed.Form(fields)


class Desk(unittest.TestCase):
    """A folder of its own, and the desk called in it."""

    def setUp(self):
        folder = tempfile.TemporaryDirectory()
        self.addCleanup(folder.cleanup)
        self.folder = Path(folder.name).resolve()

    def text(self, name, text):
        path = self.folder / name
        path.parent.mkdir(exist_ok=True)
        path.write_text(text)
        return str(path)

    def desk(self, *args):
        """Exit status, what was printed, and what was said of mistakes."""
        out, said = io.StringIO(), io.StringIO()
        with contextlib.redirect_stdout(out), contextlib.redirect_stderr(said):
            try:
                status = door.main([str(arg) for arg in args])
            except SystemExit as ended:  # argparse's way
                status = ended.code
        return status, out.getvalue(), said.getvalue()

    def files(self):
        return {path: path.read_bytes() if path.is_file() else None for path in self.folder.rglob("*")}


# The tests that run circuits: the gate says by RUN_JOB which program; elsewhere it is the one that is built, if there is one.
wants_the_program = unittest.skipUnless(os.environ.get("RUN_JOB") or program.current(), "the job program is not built")
