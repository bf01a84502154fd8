"""The curve through a run's points, between them too.

The job program tells the points of a run and not its polynomials. So between two points the curve is taken from the polynomial through
up to six points around: as many as the solver's own order goes by, and as few as the points bear. Where steps grow or shrink fast, a
polynomial through many of them would swing between; then fewer are taken, down to the straight line.
"""
MOST_POINTS = 6
STEADY = 2.5  # the sum of the weights' sizes: how much an error in the points may grow in between; 1 for a straight line


def between(xs, places):
    """For each place, in the order in which the points run: the index of a first point, and the weights of it and those after it.
    A place beyond the last point, or before the first, is taken for that point."""
    sign = 1.0 if xs[-1] >= xs[0] else -1.0
    last, j = len(xs) - 1, 0
    for x in places:
        while j < last and sign * (xs[j + 1] - x) <= 0:
            j += 1
        if j == last or xs[j] == x or sign * (x - xs[0]) <= 0:
            yield j, (1.0,)
        else:
            yield weights(xs, j, x)


def weights(xs, j, x):
    """Of the polynomial through points about the step from j to j + 1, at x within it: the most points, and as central, that are steady."""
    for count in range(min(MOST_POINTS, len(xs)), 2, -1):
        central = j + 1 - count // 2
        for first in sorted(range(max(j + 2 - count, 0), min(j, len(xs) - count) + 1), key=lambda first: abs(first - central)):
            found = lagrange(xs[first : first + count], x)
            if sum(map(abs, found)) <= STEADY:
                return first, found
    return j, lagrange(xs[j : j + 2], x)


def lagrange(points, x):
    found = []
    for i, one in enumerate(points):
        weight = 1.0
        for k, other in enumerate(points):
            if k != i:
                weight *= (x - other) / (one - other)
        found.append(weight)
    return found


def at(column, place):
    """The curve of a component at a place that `between` gave."""
    first, found = place
    if len(found) == 1:
        return column[first]
    return sum(weight * y for weight, y in zip(found, column[first : first + len(found)]))


def straight(xs, column, places):
    """The straight lines through the points, at each place in the order in which the points run: less exact than `at`, and much quicker."""
    sign = 1.0 if xs[-1] >= xs[0] else -1.0
    last, j = len(xs) - 1, 0
    for x in places:
        while j < last and sign * (xs[j + 1] - x) <= 0:
            j += 1
        if j == last or xs[j] == x:
            yield column[j]
        else:
            yield column[j] + (column[j + 1] - column[j]) * ((x - xs[j]) / (xs[j + 1] - xs[j]))
