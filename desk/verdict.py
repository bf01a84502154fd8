"""What may be said of a run, in one word and one line: the first that is printed, and the top of the picture."""
import math

from desk.table import shortened
from desk.words import plain

SETTLED, UNCHECKED, NOT_SETTLED = "settled", "unchecked", "not settled"
OVERFLOWED, UNFINISHED, REFUSED, MISTAKE = "overflowed", "unfinished", "refused", "a mistake"
# The exit status of each, and the worse the later: all files are run, and the worst decides.
STATUS = {SETTLED: 0, UNCHECKED: 0, NOT_SETTLED: 3, OVERFLOWED: 3, UNFINISHED: 3, REFUSED: 4, MISTAKE: 2}
IN_SHORT = {
    SETTLED: "Success, and settled",
    UNCHECKED: "Success, unchecked",
    NOT_SETTLED: "Success, NOT SETTLED",
    OVERFLOWED: "Success, but OVERFLOWED",
    UNFINISHED: "UNFINISHED",
    REFUSED: "REFUSED",
    MISTAKE: "a mistake",
}


USUAL = 0.01  # of its size: by more nothing may move that is called settled


class Verdict:
    """`moved` has what `settled.moved` found, where there was a second run to compare with."""

    def __init__(self, kind, line, moved=(), in_short=None):
        self.kind, self.line, self.moved = kind, line, moved
        self.in_short = in_short or IN_SHORT[kind]  # for the last line

    @property
    def status(self):
        return STATUS[self.kind]


def of_run(came):
    """Of a run by itself: None where only a second run can tell."""
    if came.refused and not came.fault:
        return Verdict(REFUSED, came.status())
    if not came.finished:
        return Verdict(UNFINISHED, came.status())
    if came.job.n == 0:
        return Verdict(SETTLED, "Success, and settled: n is 0, there is no component and nothing to compute")
    for name, column in zip(came.names, came.ys):
        if not all(map(math.isfinite, column)):
            x = next(x for x, y in zip(came.xs, column) if not math.isfinite(y))
            return Verdict(OVERFLOWED, f"Success, but OVERFLOWED: {name} is infinite or no number at x = {x!r}; do not use these values")
    return None


def unchecked(why):
    return Verdict(UNCHECKED, f"Success, unchecked: the end was reached; whether it is settled was not looked at ({why})")


def cannot_be_checked(why):
    return Verdict(NOT_SETTLED, f"Success, NOT SETTLED: the end was reached, but it could not be checked: {why}")


def not_saved(found, fault):
    """A file that was not saved is a mistake, whatever the run came to."""
    return Verdict(MISTAKE, fault, in_short=f"{found.in_short}, but NOT SAVED")


def of_two(moved, second, within, growing=None):
    """Of a finished run and what moved in a second one."""
    worst = max(moved, key=lambda one: one.part)
    if worst.part > within:
        advice = f"ask for more exactness (a smaller {worst.decides})" if second.finer else "doubles bear no more exactness here"
        return not_settled(f"{advice}; at tolerances {second.words} {worst.name} moves by {part(worst.part)} of its size", moved)
    for one in moved:
        if one.why:
            return not_settled(f"ask for more exactness (a smaller {one.decides}); {one.why}", moved)
    if growing:
        name, factor = growing
        words = f"this circuit can grow by {factor:.2g}, so that what is too small to be computed may come to the size of {name}"
        return not_settled(f"ask for more exactness; {words}", moved)
    how = "settled" if within == USUAL else f"settled within {within:g}"
    line = f"Success, and {how}: at tolerances {second.words} nothing moves by more than {part(worst.part)} of its size"
    return Verdict(SETTLED, line, moved, f"Success, and {how}")


def not_settled(words, moved):
    return Verdict(NOT_SETTLED, f"Success, NOT SETTLED: {words}", moved)


def part(x):
    """In two digits, rounded up: what is said is never less than what was found."""
    if x == 0 or math.isinf(x):
        return f"{x:g}"
    power = math.floor(math.log10(x)) - 1
    said = f"{math.ceil(x / 10.0**power)}e{power}" if power > -300 else repr(x)
    return f"{float(said):.3g}" if float(f"{float(said):.3g}") >= x else f"{float(said):.17g}"


def table(moved):
    """What moved, in lines for the eye."""
    if not moved:
        return []
    names = [shortened(plain(one.name)) for one in moved]
    width = max(12, *(len(name) + 2 for name in names))
    lines = [f"  {'moved':{width}}{'at the end':>24}{'at most between':>24}{'its size':>14}"]
    lines.append(f"  {'':{width}}{'part':>11}{'tolerances':>13}{'part':>11}{'tolerances':>13}")
    for name, one in zip(names, moved):
        numbers = f"{part(one.end):>11}{one.end_units:>13.3g}{part(one.part):>11}{one.units:>13.3g}{size(one):>14}"
        lines.append(f"  {name:{width}}{numbers}")
    return lines + ["  (part: of its size, which is its largest value, or its swing where that is smaller; tolerances: in units of atol + rtol * value)"]


def size(one):
    return "0" if math.isinf(one.size) else f"{one.size:.6g}"

