"""Some rows of a run, for the eye: those that show how it goes, or a word that so few cannot."""
import math

from desk.words import plain

MOST_ROWS = 14
MOST_COLUMNS = 8
MOST_DIGITS = 12  # what differs only beyond these is rounding, mostly
TURN = 0.02  # of a component's range: a smaller swing is no turn


def table(came):
    """The head, the first and the last point and some between, what the rows cannot show, and the counters after them."""
    job, (picked, lost) = came.job, rows(came)
    shown = min(job.n, MOST_COLUMNS)
    lines = []
    if picked and job.n:
        heads = [job.axis, *job.names[:shown]]
        columns = [column_of(head, [some[i] for i in picked]) for head, some in zip(heads, [came.xs, *came.ys])]
        lines = ["".join(parts) for parts in zip([f"{'step':>8}", *(f"{i:>8}" for i in picked)], *columns)]
    if picked and shown < job.n:
        lines.append(f"(and {job.n - shown} more components, in the picture and with --csv)")
    return lines + lost + ([came.counted()] if came.ended else [])


def column_of(head, numbers):
    """A head and its numbers, with as many digits as tell those apart that differ, and 6 at least."""
    digits = next((d for d in range(6, MOST_DIGITS) if len({f"{x:.{d}g}" for x in numbers}) >= len(set(numbers))), MOST_DIGITS)
    words = [shortened(plain(head)), *(f"{x:.{digits}g}" for x in numbers)]
    width = max(16, 2 + max(map(len, words)))
    return [f"{word:>{width}}" for word in words]


def shortened(head):
    return head if len(head) <= 30 else head[:18] + ".." + head[-10:]


def rows(came):
    """Which points, and what to say where they cannot show it. The turns of every component that is shown, if there is room for them, and
    else points that are even in x."""
    xs = came.xs
    if not xs:
        return [], []
    turning = {name: turns(column) for name, column in zip(came.names[:MOST_COLUMNS], came.ys)}
    wanted = set().union(*turning.values())
    if len(wanted) <= MOST_ROWS - 2:
        return sorted(wanted | set(evenly(xs, MOST_ROWS - len(wanted)))), []
    worst = max(turning, key=lambda name: len(turning[name]))
    lost = f"(these rows cannot show the swings: {plain(worst)} turns {len(turning[worst])} times; the picture shows them, and --csv has every step)"
    return evenly(xs, MOST_ROWS), [lost]


def turns(column):
    """Where a component turns: its highs and lows, leaving out those that differ by less than a part of its range."""
    numbers = [y for y in column if math.isfinite(y)]
    least = TURN * (max(numbers) / 2 - min(numbers) / 2) * 2 if numbers else 0.0
    found, best, rising = [], 0, None
    for i, y in enumerate(column):
        away = y - column[best]
        if rising is None:
            if abs(away) > least:
                rising, best = away > 0, i
        elif (away >= 0) == rising and away != 0:
            best = i
        elif abs(away) > least:
            found.append(best)
            rising, best = not rising, i
    return found


def evenly(xs, most):
    """Points nearest to places that are even in x; by their count where x has no such places."""
    last = len(xs) - 1
    width = xs[-1] - xs[0]
    if not (all(map(math.isfinite, xs)) and math.isfinite(width) and width != 0):
        return sorted({round(i * last / (most - 1)) for i in range(most)})
    found, j = {0, last}, 0
    for i in range(most):
        place = width * (i / (most - 1))
        while j < last and abs(xs[j + 1] - xs[0] - place) <= abs(xs[j] - xs[0] - place):
            j += 1
        found.add(j)
    return sorted(found)
