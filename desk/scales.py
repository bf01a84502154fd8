"""Which scales a picture has: linear, or logarithmic where that was asked for or where linear would show nothing."""
import math

from desk.axes import LARGEST, NAN, Linear, Logarithmic, span_of

PADDING = 0.04  # of the panel's height, above and below the curves


class Across:
    """The x axis that all panels share: `numbers` are the points' places on it, `end` is that of xend, `words` go below it."""

    def __init__(self, curve, log, panels):
        self.note = ""
        self.far = distances(curve)
        chosen = crowded_start(curve, self.far, panels) if log is None else "x" in log
        steps = [far for far in self.far[:-1] if far > 0]
        if chosen and steps:
            self.axis = Logarithmic(min(steps), max(steps + [far for far in self.far[-1:] if far > 0]))
            self.numbers, self.end = self.far[:-1], self.far[-1]
            self.words = ", from x0 on, logarithmic"
            return
        if chosen:
            self.note = "x is not logarithmic: there is no step that such an axis could begin with"
        self.axis = Linear(*(span_of([curve.x0, curve.xend, *curve.xs]) or (0.0, 1.0)))
        self.numbers, self.end, self.words = curve.xs, curve.xend, ""


def distances(curve):
    """How far each point, and xend after them, is from x0 in the direction of the run; no number where that is not known."""
    x0 = curve.x0 if math.isfinite(curve.x0) else next((x for x in curve.xs if math.isfinite(x)), NAN)
    ends = [x for x in (curve.xend, *curve.xs[-1:]) if math.isfinite(x) and x != x0]
    sign = -1.0 if ends and ends[0] < x0 else 1.0
    far = [sign * (x - x0) for x in (*curve.xs, curve.xend)]
    return [d if 0 <= d <= LARGEST else LARGEST if d > 0 and math.isfinite(x) else NAN for x, d in zip((*curve.xs, curve.xend), far)]


def crowded_start(curve, far, panels):
    """Whether more than nine tenths of the steps lie in the first hundredth of the x range, and something is to be seen there."""
    whole = max((distance for distance in far if distance == distance), default=0.0)
    if len(far) < 3 or sum(distance <= whole / 100 for distance in far[:-1]) - 1 <= 0.9 * (len(far) - 2):
        return False
    early = [i for i, distance in enumerate(far[:-1]) if distance <= whole / 100]
    return any(changes(curve.ys[member], early, panel) for panel in panels for member in panel.members)


def changes(ys, picked, panel):
    """Whether a component changes there by more than a twentieth of its panel's height."""
    some = span_of(ys[i] for i in picked)
    return bool(some) and some[1] / 2 - some[0] / 2 > 0.05 * (panel.span[1] / 2 - panel.span[0] / 2)


def upright(curve, panel, log, places):
    """A panel's y axis, or None where it has no value that could be shown; `places` are those of the points in x."""
    if panel.span is None:
        return None
    if not (hidden_in(curve, panel, places) if log is None else "y" in log):
        return Linear(*panel.span, PADDING)
    sign = usual_sign(curve, panel)
    spans = [span_of(sign * y for y in curve.ys[member] if sign * y > 0) for member in panel.members]
    ends = span_of([end for span in spans if span for end in span])
    return Logarithmic(*ends, sign, PADDING) if ends else None


def usual_sign(curve, panel):
    """The sign that a panel's finite values have; of both, +, unless far more are below 0: a logarithmic axis can show one sign only."""
    low, high = panel.span
    if not low < 0 < high:
        return -1 if low < 0 else 1
    finite = [y for member in panel.members for y in curve.ys[member] if math.isfinite(y)]
    return 1 if 2 * sum(y > 0 for y in finite) >= sum(y < 0 for y in finite) else -1


def hidden_in(curve, panel, places):
    """Whether the panel's curves have one sign, and linear would show nothing: some are hidden, and the others are level."""
    low, high = panel.span
    if low < 0 < high or low == high == 0:
        return False
    gaps = [abs(b - a) if a == a and b == b else 0.0 for a, b in zip(places, places[1:])]
    sign = -1.0 if low < 0 else 1.0
    looks = [look([sign * y for y in curve.ys[member]], gaps, high / 2 - low / 2) for member in panel.members]
    return "hidden" in looks and "seen" not in looks


def look(sizes, gaps, half):
    """A curve as a linear axis would show it; `gaps` are the pixels from point to point, `half` is half the panel's height.

    "hidden" where it lies within a hundredth of the panel's height for more than four fifths of its way, though it changes there
    by more than a factor of 10. "level" where it lies so for the whole of it. Else it can be "seen".
    """
    least = min((size for size in sizes if size > 0), default=math.inf)
    limit = least + half / 50
    low = [0 <= size <= limit for size in sizes]
    inside = sum(gap for gap, a, b in zip(gaps, low, low[1:]) if a and b)
    if inside > 0.8 * sum(gaps) and max(size for size in sizes if size <= limit) / 10 > least:
        return "hidden"
    ends = span_of(sizes)
    return "level" if ends is None or ends[1] / 2 - ends[0] / 2 <= half / 100 else "seen"
