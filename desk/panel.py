"""A panel of the picture: a frame with its y axis, and the components that are drawn in it."""
from math import isfinite, isnan

from desk import envelope
from desk.axes import NAN, span_of
from desk.scales import upright
from desk.shapes import box, dot, line, polygon, polyline, text
from desk.words import narrowed, width, wrapped

TOGETHER = 4  # so many components share a panel; with more of them each has its own
# eight colours that colour-blind readers can tell apart
COLOURS = ("#0072B2", "#D55E00", "#009E73", "#CC79A7", "#E69F00", "#56B4E9", "#000000", "#888888")
# the looks of one, two, three and four together: (width, dashes), each drawn with gaps over the wider ones before it
LOOKS = (
    ((2, ""),),
    ((4, ""), (2, "10 7")),
    ((5, ""), (3.2, "16 9"), (1.6, "5 5")),
    ((6, ""), (4.2, "18 10"), (2.8, "9 8"), (1.6, "3 4")),
)
MOST_DOTS = 100
LEGEND = 122  # pixels for a name in the legend
RED, GREY, GRID = "#C00000", "#444444", "#E4E4E4"


class Panel:
    def __init__(self, members, left, right, top, bottom, last):
        self.members = members
        self.left, self.right, self.top, self.bottom = left, right, top, bottom
        self.width, self.height = right - left, bottom - top
        self.last = last  # the lowest of its column, which has the labels of the x axis
        self.alone = self.width < 600
        self.size = 11 if self.alone else 13

    def measure(self, curve):
        spans = [span_of(curve.ys[member]) for member in self.members]
        self.span = span_of([end for span in spans if span for end in span])

    def look(self, i):
        """Colour, width and dashes of a component."""
        stroke, dashes = (1.6, "") if self.alone else LOOKS[len(self.members) - 1][i]
        return COLOURS[self.members[i] % 8], stroke, dashes

    def take(self, curve, places, log):
        """The components in pixels from the panel's upper left corner, and what is to be drawn of each."""
        self.axis = upright(curve, self, log, places)
        self.lost, self.unshown, self.traces = [], [], []
        for member in self.members:
            ys = curve.ys[member]
            at = self.axis.places(ys, self.height, 0) if self.axis else [NAN] * len(ys)
            self.lost.append(len(ys) - sum(map(isfinite, ys)))
            self.unshown.append(sum(map(isnan, at)) - self.lost[-1])
            if any(map(isnan, places)):
                at = [y if x == x else NAN for x, y in zip(places, at)]
            self.traces.append(envelope.Trace(places, at, self.look(0)[1]))  # the first has the widest stroke: all go by it

    def frame(self, marks):
        """Grid, labels and the box; what a label lacks, and that an axis is logarithmic, stands above the axis."""
        parts, self.remark = [], ""
        for place, label in marks:
            x = self.left + place * self.width
            parts.append(line(x, self.top, x, self.bottom, GRID))
            if self.last:
                parts.append(text(x, self.bottom + 19, label, self.size, anchor="middle"))
        if self.axis:
            found, added = self.axis.marks(self.height, lambda label: self.size + 9)
            for place, label in found:
                y = self.bottom - place * self.height
                parts.append(line(self.left, y, self.right, y, GRID))
                parts.append(text(self.left - 8, y + 0.35 * self.size, label, self.size, anchor="end"))
            self.remark = "   ".join(words for words in ("logarithmic" if self.axis.log else "", added) if words)
        else:
            words = "no value that could be shown"
            parts.append(text((self.left + self.right) / 2, (self.top + self.bottom) / 2, words, self.size, GREY, "middle"))
        return parts + [box(self.left, self.top, self.width, self.height, 'fill="none" stroke="#666666"')]

    def shade(self, start, end):
        """Over the part of the axis that was not computed, and words that go over the grid."""
        if end - start <= 0:
            return [], []
        words = "not computed"
        room = width(words, self.size) / 2 + 4
        middle = min(max((start + end) / 2, room), self.width - room)
        shaded = box(self.left + start, self.top, end - start, self.height, f'fill="{RED}" fill-opacity="0.10"')
        return [shaded], [text(self.left + middle, self.bottom - 10, words, self.size, RED, "middle")]

    def curves(self, count):
        """All bands, then all edges and lines over them, so that no fill dims a line; dots where the points are few."""
        bands = [self.band(i, band) for i, trace in enumerate(self.traces) for band in trace.bands]
        parts = [fill for fill, _ in bands] + [edge for _, edges in bands for edge in edges]
        for i, trace in enumerate(self.traces):
            colour, stroke, dashes = self.look(i)
            for points in trace.lines:
                parts.append(polyline(self.moved(points), colour, stroke, dashes))
            dots = [point for points in trace.lines for point in points] if count <= MOST_DOTS and not trace.bands else []
            parts += [dot(x, y, 1.2 + stroke / 2, colour) for x, y in self.moved(dots + trace.dots)]
        return parts

    def band(self, i, band):
        """The fill of a component's band, and its edges; a band that is hardly wider than a line is drawn as a line besides."""
        colour, stroke, dashes = self.look(i)
        highest = self.moved([(x, low) for x, low, _ in band])  # a place that is low in pixels is high in the picture
        lowest = self.moved([(x, high) for x, _, high in band])
        edges = [polyline(edge, colour, 0.4 + stroke / 3, dashes) for edge in (highest, lowest)]
        if abs(highest[-1][0] - highest[0][0]) < 3:
            middle = len(band) // 2
            edges.append(polyline([highest[middle], lowest[middle]], colour, stroke, dashes))
        return polygon(highest + lowest[::-1], colour), edges

    def moved(self, points):
        return [(self.left + x, self.top + y) for x, y in points]

    def named(self, names):
        """The name above a panel of one component; a legend to the right of a panel that is shared."""
        if not self.alone:
            return self.legend(names) + ([text(self.left, self.top - 8, self.remark, 12, GREY)] if self.remark else [])
        remark = width(self.remark, 10) + 12 if self.remark else 0
        name = narrowed(names[self.members[0]], self.width - remark, 12, True)
        return [
            text(self.left, self.top - 6, name, 12, self.look(0)[0], bold=True),
            text(self.right, self.top - 6, self.remark, 10, GREY, "end"),
        ]

    def legend(self, names):
        parts, at = [], self.top + 12
        for i, member in enumerate(self.members):
            colour, stroke, dashes = self.look(i)
            parts.append(polyline([(self.right + 14, at), (self.right + 54, at)], colour, stroke, dashes))
            for words in in_lines(names[member]):
                parts.append(text(self.right + 62, at + 5, words))
                at += 17
            at += 9
        return parts

    def notes(self, names, count):
        """What the picture alone does not say about these components."""
        brief = [narrowed(names[member], 200, 13) for member in self.members]
        found = hidden(brief, self.traces)
        for name, trace, lost, unshown in zip(brief, self.traces, self.lost, self.unshown):
            if self.too_small(trace):
                found.append(f"{name} is too small to be seen beside the others: --log y, or a run of its own")
            if trace.bands:
                found.append(f"envelope: {name} turns {trace.turns} times")
            if lost:
                found.append(f"{name} is infinite or no number at {lost} of {count} points")
            if unshown:
                other = "0 or above" if self.axis and self.axis.sign < 0 else "0 or below"
                found.append(f"{name} is {other} at {unshown} of {count} points, not shown on the logarithmic axis")
        return found


    def too_small(self, trace):
        """A component that moves, by less than two pixels, since others share its axis."""
        low, high = reach(trace)
        return 0 < high - low < 2 and len(self.members) > 1 and not (self.axis and self.axis.log)


def reach(trace):
    """The lowest and the highest place of a component."""
    rows = envelope.extent(trace).values()
    return min((low for low, _ in rows), default=0.0), max((high for _, high in rows), default=0.0)


def in_lines(name):
    """A name for the legend, in four lines at most: what is left out of a longer one is left out of its middle."""
    for room in range(4 * LEGEND, LEGEND, -10):
        lines = wrapped(narrowed(name, room, 13), LEGEND, 13, 9)
        if len(lines) <= 4:
            break
    return lines or [""]


def hidden(names, traces):
    """A note for each group of components that lie one over the other."""
    found, groups = [], []
    for i, trace in enumerate(traces):
        for group in groups:
            if envelope.alike(traces[group[0]], trace):
                group.append(i)
                break
        else:
            groups.append([i])
    for *below, above in (group for group in groups if len(group) > 1):
        *most, last = (names[i] for i in below)
        words = ", ".join(most) + " and " + last if most else last
        found.append(f"{words} {'lies' if len(below) == 1 else 'lie'} under {names[above]}: they cannot be told apart here")
    return found


def arrange(n, top, width):
    """The panels for n components: one for up to four, else a grid of two or three columns."""
    if n <= TOGETHER:
        return [Panel(list(range(n)), 104, width - 194, top + 22, top + 452, True)]
    across = 2 if n <= 14 else 3
    rows = -(-n // across)
    high, left, gap = (150 if rows <= 5 else 100), 88, 96
    wide = (width - left - 34 - gap * (across - 1)) / across
    found = []
    for i in range(n):
        row, column = divmod(i, across)
        x, y = left + column * (wide + gap), top + 22 + row * (high + 32)
        found.append(Panel([i], x, x + wide, y, y + high, i + across >= n))
    return found
