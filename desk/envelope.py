"""A component's points brought down to what can be seen: lines with no peak lost, and a band where it turns too often for a line.

All here is in pixels: `xs` and `ys` are places, no number where a point cannot be shown. The points follow each other in x, rising
or falling, so what is made of them does too.
"""
from bisect import bisect
from itertools import groupby
from math import isnan, nan
from operator import itemgetter

SPACING = 3.5  # pixels from turn to turn; where they are closer a thin line would be a solid block
WINDOW = 10  # turns over which this is judged
LEAST = 0.25  # pixels that a turn must go back to count: rounding is no turn
MOST_STRETCHES = 1000  # of a line with gaps; with more of them those that no pixel could show are left out
WIDEST = 20.0  # pixels from turn to turn in a band
NEAR = 2.0  # pixels; curves that are closer cannot be told apart


class Trace:
    """What is drawn of a component: lines, lone points and bands, each a list; and how often it turns."""

    def __init__(self, xs, ys, stroke=0.0):
        """The wider its stroke, the sooner turns run into one another."""
        apart = max(SPACING, 1.6 * stroke)
        self.lines, self.dots, self.bands, self.turns = [], [], [], 0
        stretches = shown(ys)
        if len(stretches) > MOST_STRETCHES:
            xs, ys = bridged(xs, ys, stretches)
            stretches = shown(ys)
        for start, stop in stretches:
            turns = turning(ys, start, stop)
            self.turns += len(turns)
            dense = reaching(xs, start, stop, crowded(xs, turns, apart), apart)
            for first, last in between(start, stop, dense):
                self.take_line(xs, ys, first, last)
            self.bands += [band(xs, ys, first, last, turns) for first, last in dense]

    def take_line(self, xs, ys, first, last):
        points = [(xs[i], ys[i]) for i in thinned(xs, ys, first, last + 1)]
        if len(points) == 1:
            self.dots += points
        elif points:
            self.lines.append(points)


def shown(ys):
    """(Start, stop) of each stretch of points without a gap."""
    if not any(map(isnan, ys)):
        return [(0, len(ys))] if ys else []
    found, start = [], None
    for i, y in enumerate(ys):
        if y != y:
            if start is not None:
                found.append((start, i))
            start = None
        elif start is None:
            start = i
    return found if start is None else found + [(start, len(ys))]


def bridged(xs, ys, stretches):
    """The points that are shown, with a gap between them only where it is a pixel wide."""
    near, kept, last = [], [], None
    for start, stop in stretches:
        if last is not None and abs(xs[start] - last) >= 1:
            near.append(last)
            kept.append(nan)
        near += xs[start:stop]
        kept += ys[start:stop]
        last = xs[stop - 1]
    return near, kept


def turning(ys, start, stop):
    """Where the values turn back, by at least what can be seen: the index of each highest and lowest point between the ends."""
    found, sign = [], 1  # 1 while the highest is looked for, -1 while the lowest
    best, at = ys[start], start
    for i in range(start, stop):
        y = sign * ys[i]
        if y > best:
            best, at = y, i
        elif y < best - LEAST:
            found.append(at)
            sign, best, at = -sign, -y, i
    if found and ys[found[0]] - ys[start] < LEAST:
        del found[0]  # it fell from the start on
    return found


def crowded(xs, turns, apart=SPACING):
    """(First, last) index of each stretch where the turns are too close for a line, on average and without a wide gap in them."""
    at = [xs[turn] for turn in turns]
    found, since = [], 0  # since the last wide gap
    for k in range(1, len(at)):
        if abs(at[k] - at[k - 1]) > 2 * apart:
            since = k
        if k - WINDOW < since or abs(at[k] - at[k - WINDOW]) >= apart * WINDOW:
            continue
        first = k - WINDOW
        if found and (first <= found[-1][1] or abs(at[first] - at[found[-1][1]]) < 4 * apart):
            found[-1][1] = k
        else:
            found.append([first, k])
    return [(turns[first], turns[last]) for first, last in found]


def reaching(xs, start, stop, dense, apart=SPACING):
    """The dense stretches, those near an end drawn out to it: no stump of a line is left there."""
    if dense and abs(xs[dense[0][0]] - xs[start]) < 2 * apart:
        dense[0] = start, dense[0][1]
    if dense and abs(xs[dense[-1][1]] - xs[stop - 1]) < 2 * apart:
        dense[-1] = dense[-1][0], stop - 1
    return dense


def between(start, stop, dense):
    """(First, last) index of what lies between the dense stretches, with the points where they begin and end."""
    edges = [start] + [edge for stretch in dense for edge in stretch] + [stop - 1]
    pairs = list(zip(edges[::2], edges[1::2]))
    return [(first, last) for first, last in pairs if first < last or not dense]


def columns(xs, start, stop):
    """(Start, stop) of the points in each pixel column."""
    for _, group in groupby(enumerate(map(int, xs[start:stop]), start), key=itemgetter(1)):
        first = last = next(group)
        for last in group:
            pass
        yield first[0], last[0] + 1


def thinned(xs, ys, start, stop):
    """The indices of the points to draw: of each pixel column the first, the lowest, the highest and the last."""
    if len(xs) <= 1000:
        return range(start, stop)
    kept = []
    for first, end in columns(xs, start, stop):
        if end - first <= 4:
            kept += range(first, end)
        else:
            some = ys[first:end]
            kept += sorted({first, first + some.index(min(some)), first + some.index(max(some)), end - 1})
    return kept


def band(xs, ys, first, last, turns):
    """(x, lowest, highest place) in each pixel column, taken over about two periods, so that the edges do not follow each swing."""
    found = []
    for start, stop in columns(xs, first, last + 1):
        some = ys[start:stop]
        found.append(((xs[start] + xs[stop - 1]) / 2, min(some), max(some), spacing(xs, turns, start)))
    found = [(xs[first], *found[0][1:]), *found[1:-1], (xs[last], *found[-1][1:])]
    return [widened(found, k) for k in range(len(found))]


def spacing(xs, turns, at):
    """Pixels from turn to turn about a point: the middle one of some, as a wide gap beside a burst is none of its periods."""
    k = bisect(turns, at)
    some = turns[max(k - WINDOW // 2, 0) : k + WINDOW // 2]
    gaps = sorted(abs(xs[b] - xs[a]) for a, b in zip(some, some[1:]))
    return min(gaps[len(gaps) // 2], WIDEST) if gaps else 0.0


def widened(found, k):
    x, low, high, reach = found[k]
    for step in (-1, 1):
        j = k + step
        while 0 <= j < len(found) and abs(found[j][0] - x) <= 2 * reach + 1:
            low, high = min(low, found[j][1]), max(high, found[j][2])
            j += step
    return x, low, high


def alike(one, other):
    """Whether two traces are nowhere far apart over nine tenths of what is plotted of them."""
    one, other = extent(one), extent(other)
    columns_of = sorted(set(one) | set(other))
    whole = near = 0.0
    for before, column, after in zip(columns_of[:1] + columns_of, columns_of, columns_of[1:] + columns_of[-1:]):
        whole += after - before
        if column in one and column in other and all(abs(a - b) <= NEAR for a, b in zip(one[column], other[column])):
            near += after - before
    return whole > 0 and near >= 0.9 * whole


def extent(trace):
    """Lowest and highest place of what is drawn in each pixel column that has points."""
    found = {}
    for x, low, high in [row for band in trace.bands for row in band] + [(x, y, y) for points in [*trace.lines, trace.dots] for x, y in points]:
        column = int(x)
        below, above = found.get(column, (low, high))
        found[column] = min(low, below), max(high, above)
    return found
