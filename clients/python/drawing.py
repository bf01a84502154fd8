"""A run of the client as the desk's picture, with its first line: what may be said of it stands before anything else.

A run is drawn as it was computed, and was run once: so it is never called settled (desk/verdict.py). Its picture is saved as the desk saves its
own, whole or not at all, and in the place of nothing that is not its own.
"""
import math
import sys
from pathlib import Path

sys.path[:0] = [str(Path(__file__).resolve().parents[2])]

from desk import picture, saving, verdict
from desk.outcome import ENDS
from desk.words import plain

WORDS = dict(ENDS.values())
BETWEEN = 4  # points for a step, so that its curve is seen and not a straight line


class Curve:
    """What a picture draws: of `ys` a column for each name. `also` has functions of x that are drawn besides, by their names."""

    def __init__(self, run, names, title, axis, also):
        self.title, self.axis, self.names = title, axis, [*also, *names]
        self.x0, self.xend = run.x[0], run.xend
        points = [(run.x[0], run.y[0])]
        for step, y in zip(run.steps, run.y[1:]):
            inner = (step.start + (step.x - step.start) * i / BETWEEN for i in range(1, BETWEEN))
            points += [(x, step.at(x)) for x in inner] + [(step.x, y)]
        self.xs = [x for x, _ in points]
        own = [[y[i] for _, y in points] for i in range(len(names))]
        self.ys = [[function(x) for x in self.xs] for function in also.values()] + own


def judged(run, names):
    """What may be said of a run, as the desk says it."""
    if not run.reached:
        return verdict.Verdict(verdict.UNFINISHED, f"{run.status}: UNFINISHED, {WORDS[run.status]}")
    for x, y in zip(run.x, run.y):
        for name, value in zip(names, y):
            if not math.isfinite(value):
                words = f"Success, but OVERFLOWED: {name} is infinite or no number at x = {x!r}; do not use these values"
                return verdict.Verdict(verdict.OVERFLOWED, words)
    return verdict.unchecked("it was run once")


def show(run, source, names, title, axis, also=None, folder=None):
    """Says how a run came out, and saves its picture beside the source, or in a folder. Gives the exit status that the desk would have."""
    found = judged(run, names)
    print(plain(found.line))
    if not run.reached:
        print(f"It came to x = {run.x[-1]!r}, and xend is {run.xend!r}. The last value is NOT the end's.")
    print(plain(title))
    print(", ".join(f"{name} {count}" for name, count in run.counters.items()))
    svg = picture.draw(Curve(run, names, title, axis, also or {}), found)
    path = saving.place(source, folder, ".svg")
    saving.saved(saving.marked(svg, "<!-- {} -->", source, folder).encode("utf-8", "backslashreplace"), path)
    print(f"picture: {plain(path)}", flush=True)
    return found.status
