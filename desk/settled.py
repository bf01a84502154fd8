"""Whether a finished run is settled: what a second run at other tolerances makes of the same circuit.

That a run ended in Success says that it reached its end, not that its values are near the truth: an oscillation's error adds up from step
to step, and a coarse run can damp or feed an oscillation that in truth rings on. So the circuit is run again at tolerances 100 times finer.
Settled is no bound on the error: it says that asking for more exactness changed nothing that matters.
"""
import math

from desk import curve
from desk.packed import MAX_STEPS, bits_of, value

FACTOR = 100
# Doubles bear no finer one: Newton's own tolerance is 10 · 2^-52 / rtol at least, and below this it is coarser than the step's.
LEAST_RTOL = 1e-13
CONSTANT = 1e-13  # what is smaller, as a part of what it comes from, is rounding
NOTHING = 1e-9  # of what feeds it: more is no balance
GROWN = 100.0  # times as large: a circuit in which errors grow no more than this can be settled by comparing
MOST_PLACES = 50_000  # at which the curves are compared


class Second:
    """A second run: of which job, and how its tolerances compare."""

    def __init__(self, job, words, finer):
        self.job, self.words, self.finer = job, words, finer


def seconds(came):
    """The second runs that may tell of a finished one, the best first: finer by 100, by 10 if that one comes to no end, and coarser by 100 where
    doubles bear no finer one or none comes to an end. None has the tolerances that were asked."""
    job = came.job
    rtol, atol = value(job.rtol), value(job.atol)
    if not (math.isfinite(atol) and rtol < 1):  # with an rtol of 1 or more anything passes, in both runs
        return
    tried = None
    for factor in (FACTOR, 10):
        finer_rtol, finer_atol = max(rtol / factor, min(rtol, LEAST_RTOL)), atol / factor
        truly = min(ratio(atol + rtol * size, finer_atol + finer_rtol * size) for size in map(largest, came.ys))
        if 9.99 <= truly and f"{truly:.3g}" != tried:
            tried = f"{truly:.3g}"
            yield second(job, finer_rtol, finer_atol, f"{tried} times finer", True)
    if rtol > 0 or atol > 0:
        yield second(job, rtol * FACTOR, atol * FACTOR, f"{FACTOR} times coarser (finer ones cannot be had)", False)


def second(job, rtol, atol, words, finer):
    """It finds its first step by itself: one that is given could take both runs over the same."""
    tolerances = {"rtol": bits_of(min(rtol, 0.5)), "atol": bits_of(atol)}
    return Second(job.but(max_steps=MAX_STEPS, automatic=True, first_step=0, **tolerances), words, finer)


def largest(column):
    return max(map(abs, column))


class Moved:
    """By how much a component moved from one run to the other, at the end and at most on the way: as a part of its size in the second run, and in
    units of the tolerance that was asked.

    Its size is its largest value, or its swing where that is smaller: of a tone that rides on a supply the tone counts."""

    def __init__(self, name, size, decides="rtol", why=None):
        self.name, self.size, self.decides = name, size, decides  # which of the two tolerances counts for it
        self.why = why  # it cannot be settled, whatever it moved
        self.end = self.end_units = self.part = self.units = 0.0

    def take(self, distance, unit):
        """Where a component is 0 throughout, any distance is infinitely many times its size."""
        distance = math.inf if math.isnan(distance) else distance  # of values near the largest double
        self.end, self.end_units = ratio(distance, self.size), ratio(distance, unit)
        self.part, self.units = max(self.part, self.end), max(self.units, self.end_units)


def ratio(distance, size):
    return 0.0 if distance == 0 else distance / size if size > 0 else math.inf


def moved(asked, other):
    """Component by component, over the points of both runs. Both have an end, and finite values."""
    rtol, atol = value(asked.job.rtol), value(asked.job.atol)
    every = common_places(asked.xs, other.xs)
    found = []
    for i, (column, second_column) in enumerate(zip(asked.ys, other.ys)):
        places = every if len(every) <= MOST_PLACES else farthest(asked.xs, column, other.xs, second_column, every)
        one = judged_by(asked, other, i, atol)
        for place, second_place in zip(curve.between(asked.xs, places), curve.between(other.xs, places)):
            y = curve.at(second_column, second_place)
            one.take(abs(curve.at(column, place) - y), atol + rtol * abs(y))
        found.append(one)
    return found


def common_places(xs, other_xs):
    """The x of both runs in the order in which they run, the end last."""
    return sorted(set(xs) | set(other_xs), reverse=xs[-1] < xs[0])


def farthest(xs, column, other_xs, other_column, places):
    """Of very many places one in each row of neighbours: where the straight lines through the points lie farthest apart. And the end."""
    row = len(places) // MOST_PLACES + 1
    apart = [abs(a - b) for a, b in zip(curve.straight(xs, column, places), curve.straight(other_xs, other_column, places))]
    chosen = [max(range(i, min(i + row, len(places))), key=apart.__getitem__) for i in range(0, len(places), row)]
    return [places[i] for i in chosen if i != len(places) - 1] + places[-1:]


def judged_by(asked, other, i, atol):
    """What the movement of a component is measured by, and why it cannot be settled, where it cannot."""
    name, column = asked.names[i], other.ys[i]
    high = max(largest(column), largest(asked.ys[i]))
    if high <= rounding(asked, i):
        return Moved(name, math.inf)  # nothing but rounding: it is 0, and does not move
    tolerance = value(asked.job.rtol) * high + atol
    decides = "atol" if atol > tolerance / 2 else "rtol"
    swing = max(swing_of(column), swing_of(asked.ys[i]))
    if 0 < high <= atol:
        return Moved(name, largest(column), decides, f"{name} stays below atol, {atol!r}, and was not computed")
    if swing <= CONSTANT * high:
        return Moved(name, largest(column), decides)  # it is constant
    why = f"{name} swings by less than its tolerance, and its swing was not computed" if swing <= tolerance else None
    return Moved(name, min(largest(column), swing_of(column) or math.inf), decides, why)


def swing_of(column):
    return max(column) - min(column)


def rounding(came, i):
    """How far rounding alone can carry a component away from 0: of balanced voltages that cancel in its row something is left. It is next to
    nothing of what feeds it."""
    job, n = came.job, came.job.n
    row = [abs(value(bits)) for bits in job.a[i * n : (i + 1) * n]]
    feeds = [(row[j], largest(came.ys[j])) for j in range(n) if j != i and row[j] > 0]
    if not feeds:
        return 0.0
    time = abs(came.xs[-1] - came.xs[0])
    reach = sum(a * y for a, y in feeds) * (min(time, 1 / row[i]) if row[i] > 0 else time)
    return min(CONSTANT * reach, NOTHING * max(y for _, y in feeds))


def growing(came):
    """A component that what is too small to be computed can grow up to, and by how much anything grows; None where there is none. Both runs
    could leave it out alike: errors as large as the tolerance at x0, carried on to the end by exp(A t)."""
    job = came.job
    n, rtol, atol = job.n, value(job.rtol), value(job.atol)
    a = [[value(bits) for bits in job.a[i * n : (i + 1) * n]] for i in range(n)]
    carried = exponential(a, abs(came.xs[-1] - came.xs[0]) * (1 if came.xs[-1] >= came.xs[0] else -1))
    for name, column, row in zip(came.names, came.ys, carried):
        found = sum(abs(x) * (atol + rtol * abs(other[0])) for x, other in zip(row, came.ys) if x != 0)
        if not found <= largest(column) and max(map(abs, row)) > GROWN:
            return name, max(map(abs, row))
    return None


def exponential(a, time):
    """exp(a · time), by its series for a part of the time that is small, doubled again and again."""
    n = len(a)
    norm = max(sum(map(abs, row)) for row in a) * abs(time)
    doublings = max(0, math.frexp(norm)[1] + 2) if norm < math.inf else 0
    part = [[x * (time / 2.0**doublings) for x in row] for row in a]
    term = [[float(i == j) for j in range(n)] for i in range(n)]
    total = [row[:] for row in term]
    for k in range(1, 13):
        term = [[x / k for x in row] for row in product(term, part)]
        total = [[x + y for x, y in zip(one, other)] for one, other in zip(total, term)]
    for _ in range(doublings):
        total = product(total, total)
    return total


def product(one, other):
    columns = list(zip(*other))
    return [[sum(x * y for x, y in zip(row, column) if x and y) for column in columns] for row in one]
