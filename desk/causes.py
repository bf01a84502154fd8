"""Why a run did not come to its end, as far as its job shows it, and what can be done."""
import math

from desk.packed import MAX_STEPS, value
from desk.words import plain

HAIR = 16  # units in the last place
FAR = 1e5  # times the way to go: from there on rounding in x is felt
GROWN = 1e12  # times what a circuit began with
NUDGES = (1e-12, -1e-12, 1e-9, -1e-9, 1e-6, -1e-6)  # by which part of the way xend is moved where it was missed by a hair


def unusual(job):
    """What in a job is likely to spoil its run, in sentences."""
    if job.n == 0:
        return []
    return [*no_numbers(job), *no_room(job), *no_work(job)]


def no_numbers(job):
    for word in ("x0", "xend", "first_step", "rtol", "atol"):
        if not math.isfinite(value(getattr(job, word))):
            yield f"{word} is {named(getattr(job, word))}{line(job, word)}"
    for i, bits in enumerate(job.y0):
        if not math.isfinite(value(bits)):
            yield f"y0 has {named(bits)} for {plain(job.names[i])}{line(job, 'y0')}"
    for i, bits in enumerate(job.a):
        if not math.isfinite(value(bits)):
            where = f" (line {job.row_lines[i // job.n]})" if job.row_lines else ""
            yield f"A has {named(bits)} in row {i // job.n + 1}, column {i % job.n + 1}{where}"


def no_room(job):
    """Where x has no room for steps."""
    x0, xend = value(job.x0), value(job.xend)
    if x0 == xend:
        yield f"xend is x0{line(job, 'xend')}: there is nothing to run, and y0 is the value there"
    elif math.isfinite(x0) and math.isfinite(xend) and max(abs(x0), abs(xend)) > FAR * abs(xend - x0):
        apart = ulp(max(abs(x0), abs(xend)))
        yield f"so far from 0 doubles lie {apart:.2g} apart, and x has little room for steps{line(job, 'x0')}: let x0 be 0"


def no_work(job):
    """Where the settings leave no attempt a chance."""
    if job.newton_maxiter < 2:
        what = f"newton_maxiter is {job.newton_maxiter}{line(job, 'newton_maxiter')}{', which counts as 1' if job.newton_maxiter == 0 else ''}"
        yield f"{what}: with a single pass of Newton's method an attempt succeeds only where there is nothing to correct; 4 is usual"
    if value(job.atol) == 0:
        none = [plain(name) for name, bits in zip(job.names, job.y0) if value(bits) == 0]
        if value(job.rtol) == 0:
            yield f"rtol and atol are both 0{line(job, 'atol')}: an error has no room"
        elif none:
            yield f"atol is 0{line(job, 'atol')}, and so is {none[0]} at x0: there its error has no room; write an atol"


def named(bits):
    x = value(bits)
    return "no number (NaN)" if x != x else "infinity" if x > 0 else "-infinity"


def line(job, word):
    return f" (line {job.lines[word]})" if word in job.lines else ""


def why_unfinished(came, ends_at=lambda xend: False):
    """For a run that is not finished: how far it came, what is the likely cause as far as it shows, and what to do. `ends_at` tells whether the
    same job with another xend ends in Success."""
    lines = [progress(came)]
    if came.fault or not came.ended:
        return lines
    if came.ended[0] == "3" and is_hair(came):
        return lines + hair(came, ends_at)
    causes = [*unusual(came.job), *grown(came)]
    if causes:
        return lines + [f"The likely cause: {cause}." for cause in causes]
    if came.ended[0] == "3":
        return lines + ["The step became too small for what is asked: try larger tolerances, and look for a number in A that is far too large."]
    if came.job.max_steps < MAX_STEPS:
        return lines + [f"Raise max_steps{line(came.job, 'max_steps')}, to {MAX_STEPS:,} at most, and run it again."]
    return lines + ["max_steps is already at its most: ask for a shorter run, or for less exactness."]


def grown(came):
    """A circuit that blows up: a component that ends far above everything it began with."""
    began = max((abs(column[0]) for column in came.ys), default=0.0)
    for name, column in zip(came.names, came.ys):
        if abs(column[-1]) > GROWN * began > 0:
            yield f"the circuit blows up, {plain(name)} is {column[-1]:.3g} at last: look for a sign that is wrong"
            return


def progress(came):
    """How far it came."""
    if not came.xs:
        return "It came to no step."
    x0, xend, x = came.x0, came.xend, came.xs[-1]
    if x0 == xend:
        return f"xend is x0, {x0!r}: there is nothing to run."
    if not (math.isfinite(xend - x0) and math.isfinite(x)):
        return "It did not reach its end."
    words = f"It came to x = {x!r}, and xend is {xend!r}: {way(100 * (x - x0) / (xend - x0))} % of the way"
    return words + (". Do NOT take the last value for the end's." if came.fault else ". The last value is NOT the end's.")


def way(percent):
    """Never 100 where the end was not reached."""
    short = f"{percent:.3g}"
    return short if short != "100" or percent >= 100 else "99.99.."


def is_hair(came):
    """Whether what it is short of xend is rounding: some units in the last place, and next to nothing of the way."""
    if not came.xs:
        return False
    short = abs(came.xend - came.xs[-1])
    return short <= HAIR * ulp(max(abs(came.xend), abs(came.xs[-1]))) and short < 1e-9 * abs(came.xend - came.x0) < math.inf


def hair(came, ends_at):
    """A last step that rounding made a hair too short, and one too small to follow it (docs/DIFFERENCES.md, 1)."""
    x = came.xs[-1]
    lines = [f"It stopped {abs(came.xend - x):.3g} short of xend, by rounding. The last value is that of x = {x!r}, and of that x alone."]
    for part in NUDGES:
        xend = came.xend + part * (came.xend - came.x0)
        if xend != came.xend and ends_at(xend):
            return lines + [f"What to do: write xend {xend!r}; with it the same circuit ends in Success."]
    return lines + ["What to do: run it again with another first_step or rtol, or with xend moved a little."]


def ulp(x):
    """The distance from x to the next double."""
    return max(abs(x) * 2.0**-52, 5e-324)
