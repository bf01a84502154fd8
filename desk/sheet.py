"""A run as numbers, for other programs: comma-separated, every step, all components, 17 digits, which give every double back.

The first line is the status, which whoever saves it puts before this. The last is the end with its counters: a file that has no such line
was cut off.
"""
from desk.outcome import COUNTERS, ENDS
from desk.packed import written
from desk.words import plain


def sheet(came):
    lines = [",".join(["step", "x", *map(quoted, came.names)])]
    for i, numbers in enumerate(zip(came.xs, *came.ys)):
        lines.append(",".join([str(i), *(f"{number:.17g}" for number in numbers)]))
    return "\n".join(lines + [last_line(came)]) + "\n"


def last_line(came):
    if came.refused and not came.fault:
        return f"# end: none, REFUSED by number {came.refused}; nothing was computed"
    if came.fault or not came.ended:
        return "# end: none, UNFINISHED; do not take the last value for the end's"
    reached = "xend reached" if came.finished else "UNFINISHED"
    x = f"{came.xs[-1]:.17g}" if came.xs else "none"
    counts = ", ".join(f"{name} {count}" for name, count in zip(COUNTERS, came.ended[2:]))
    return f"# end: {ENDS[came.ended[0]][0]}, {reached}, x {x}, h {written(int(came.ended[1], 16))}, {counts}"


def quoted(name):
    """A head for a component's column: not one of our own, and with its commas and quotation marks out of the way."""
    name = f"component {name}" if name in ("step", "x") else plain(name)
    return '"' + name.replace('"', '""') + '"' if any(mark in name for mark in ',"') else name
