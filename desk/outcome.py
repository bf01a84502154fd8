"""What a run's lines say (docs/JOB-FORMAT.md): its points, its end, and whether it is finished.

A run is finished only where its last line says so by status 0 and every other line bears it out. Lines that are cut off,
that do not fit the job or that do not agree with the counters make it unfinished, whatever the end line says.
"""
import math
import re
import struct
import sys
from array import array

from desk.packed import value

ENDS = {
    "0": ("Success", "the end was reached"),
    "1": ("UserInterrupt", "it was stopped from outside"),
    "2": ("NeedLargerNMax", "the steps were used up before the end was reached"),
    "3": ("StepSizeTooSmall", "the step became too small to go on"),
}
REFUSALS = {
    "1": "n is above 32",
    "5": "a tolerance is below 0",
    "6": "max_steps is 0",
    "7": "max_steps is above 1,000,000 or newton_maxiter above 64",
    "8": "first_step is 0",
    "17": "the job file is damaged",
}
COUNTERS = ("attempts", "accepted", "rejected", "derivatives", "Jacobians", "factorings", "start")


class Outcome:
    """A job and what its lines told. `title`, `axis`, `names`, `x0`, `xend`, `xs` and `ys` are what a picture draws: of `ys` a
    column for each component."""

    def __init__(self, job):
        self.job = job
        self.title, self.axis, self.names = job.title, job.axis, job.names
        self.x0, self.xend = value(job.x0), value(job.xend)
        self.xs, self.ys = array("d"), [array("d") for _ in range(job.n)]
        self.ended = None  # the fields of the end line
        self.refused = None
        self.fault = None  # why the lines cannot be believed

    @property
    def finished(self):
        return self.fault is None and self.ended is not None and self.ended[0] == "0"

    def status(self):
        """In words, for the first line that is printed and for the top of the picture."""
        if self.fault:
            return f"UNFINISHED: {self.fault}"
        if self.refused:
            return f"REFUSED by number {self.refused}: {REFUSALS.get(self.refused, 'not a number that a job is refused by')}; nothing was computed"
        name, words = ENDS[self.ended[0]]
        return f"{name}: {'' if self.finished else 'UNFINISHED, '}{words}"

    def counters(self):
        return dict(zip(COUNTERS, self.ended[2:])) if self.ended else {}

    def counted(self):
        """The counters in words. The start's derivative is none of the others, so it stands beside them."""
        counts = self.counters()
        start = counts.pop("start")
        words = {name: f"{count} {name}" for name, count in counts.items()}
        words["derivatives"] += f" and {'none' if start == '0' else start} for the start"
        return ", ".join(words.values())


class Reader:
    """Takes the lines of a job one after another, each as bytes with its line end, and makes the outcome of them."""

    def __init__(self, job):
        self.outcome = Outcome(job)
        self.count = 0  # of lines
        self.points = bytearray()  # x and y of every point, as they are printed
        self.point = re.compile(rb"([IS])((?: [0-9A-F]{16}){%d})\n" % (job.n + 1))

    def take(self, line):
        """Whether the lines can still be believed."""
        self.count += 1
        fault = self.fault_of(line)
        if fault:
            self.outcome.fault = f"line {self.count} of the output {fault}"
        return fault is None

    def fault_of(self, line):
        """Adds a line; what is wrong with it, or None."""
        if not line.endswith(b"\n"):
            return "is cut off"
        if self.outcome.ended or self.outcome.refused:
            return "comes after the end"
        found = self.point.fullmatch(line)
        if found and found[1] == (b"S" if self.points else b"I") and self.outcome.job.n > 0:
            self.points += bytes.fromhex(found[2].decode())
            return None
        fields = line[:-1].decode("ascii", "replace").split(" ")
        if fields[0] == "R" and len(fields) == 2 and re.fullmatch("[0-9]{1,3}", fields[1]):
            self.outcome.refused = fields[1]
            return "refuses a run that had begun" if self.points else None
        if fields[0] == "E":
            return take_end(self.outcome, fields[1:])
        return "is none that this job can print there"

    def x(self):
        """The last x that was told; None before the first."""
        at = 8 * (self.outcome.job.n + 1)
        return struct.unpack(">d", self.points[-at:][:8])[0] if self.points else None

    def end(self, exit_status=0):
        """The outcome, when all lines were taken."""
        outcome = self.outcome
        numbers, width = array("d", bytes(self.points)), outcome.job.n + 1
        if sys.byteorder == "little":
            numbers.byteswap()
        outcome.xs, outcome.ys = numbers[::width], [numbers[i::width] for i in range(1, width)]
        outcome.fault = outcome.fault or another_job_s(outcome) or whole(outcome)
        if outcome.fault is None and exit_status != 0 and outcome.refused is None:
            outcome.fault = f"the program ended with exit status {exit_status}"
        return outcome


def read(job, lines, exit_status=0):
    """The outcome of a job from the lines that the job program printed, each as bytes with its line end."""
    reader = Reader(job)
    for line in lines:
        if not reader.take(line):
            break
    return reader.end(exit_status)


def take_end(outcome, fields):
    status, h, *counts = fields if len(fields) > 2 else ("", "")
    if status not in ENDS or not re.fullmatch("[0-9A-F]{16}", h) or not all(re.fullmatch("0|[1-9][0-9]{0,19}", count) for count in counts):
        return "is no end line"
    if len(counts) == len(COUNTERS) - 1:
        return "is the end line of an older program, which did not count the start's derivative: run the job again"
    if len(counts) != len(COUNTERS) or counts[-1] not in ("0", "1"):
        return "is no end line"
    outcome.ended = fields
    return None


def another_job_s(outcome):
    """In what the lines are not this job's: its beginning, and the bounds on the counters that its limits set."""
    job = outcome.job
    if outcome.xs and not same(outcome.xs[0], outcome.x0):
        return f"the output begins at x = {outcome.xs[0]!r}, but x0 is {outcome.x0!r}: the lines are another job's"
    for name, column, bits in zip(job.names, outcome.ys, job.y0):
        if column and not same(column[0], value(bits)):
            return f"the output begins with {name} = {column[0]!r}, but y0 has {value(bits)!r} there: the lines are another job's"
    if outcome.ended is None or outcome.refused:
        return None
    total, accepted, _, derivatives, jacobians, factorings, start = map(int, outcome.ended[2:])
    if total > job.max_steps and job.n > 0:
        return f"the end line counts {total} attempts, but max_steps is {job.max_steps}: the lines are another job's"
    if outcome.ended[0] == "2" and total != job.max_steps:
        return f"the end line says that the steps were used up after {total}, but max_steps is {job.max_steps}: the lines are another job's"
    if start != starts(job):
        return f"the end line counts {start} for the start, but this job takes {starts(job)}: the lines are another job's"
    most = (2 + max(job.newton_maxiter, 1) * total + accepted, 2 + total, total)
    if any(count > bound for count, bound in zip((derivatives, jacobians, factorings), most)):
        return "the end line counts more derivatives, Jacobians or factorings than this job can take: the lines are another job's"
    return None


def same(one, other):
    """To the bit, but that every NaN is printed as one."""
    return struct.pack(">d", one) == struct.pack(">d", other) or (one != one and other != other)


def whole(outcome):
    """Why the lines together cannot be the whole of a run, or None."""
    if outcome.refused:
        return None
    if outcome.ended is None:
        return "the output is cut off, it has no end line"
    if outcome.job.n == 0 and outcome.ended[0] != "0":
        return "the end line is none of a job without components"
    total, accepted, rejected = (int(field) for field in outcome.ended[2:5])
    notices = max(len(outcome.xs) - 1, 0)
    if notices != accepted or accepted + rejected != total:
        return f"the end line counts {accepted} steps of {total} attempts, the output shows {notices}: lines are missing"
    if not outcome.xs and outcome.job.n > 0:
        return "the output has no first line: lines are missing"
    if outcome.ended[0] == "0" and outcome.job.n > 0 and not reached(outcome):
        return "the end line says Success, but the last line is short of xend"
    if outcome.xs and beyond(outcome):
        return f"the output goes on to x = {outcome.xs[-1]!r}, beyond xend, {outcome.xend!r}: the lines are another job's"
    return None


def starts(job):
    """How many derivatives the start of a job takes: one where it finds the first step by itself."""
    return 1 if job.automatic and job.n > 0 else 0


def beyond(outcome):
    """By more than rounding can carry a last step."""
    x0, xend, x = outcome.x0, outcome.xend, outcome.xs[-1]
    room = 1e-9 * max(abs(x0), abs(xend))
    return math.copysign(1, xend - x0) * (x - xend) > room


def reached(outcome):
    return bool(outcome.xs) and math.copysign(1, outcome.xend - outcome.x0) * (outcome.xs[-1] - outcome.xend) >= 0
