"""A run as a picture in SVG: each component over x, with its status across the top.

Green is only what has settled. Where a run is not to be trusted the picture says so in large letters, and the part of the axis
that was not computed is shaded, so that no print of it can pass for a finished run.
"""
import math

from desk import panel as panels_of
from desk.scales import Across
from desk.shapes import slanted, text
from desk.words import plain, shortened, width, wrapped

WIDTH = 1000
MARGIN = 28
GREEN, GREY, AMBER, RED = "#007000", "#444444", "#B36B00", "#C00000"
# each kind of verdict: its colour, and the word across the picture
KINDS = {
    "settled": (GREEN, ""),
    "unchecked": (GREY, ""),
    "not settled": (AMBER, "NOT SETTLED"),
    "overflowed": (RED, "OVERFLOWED"),
    "unfinished": (RED, "UNFINISHED"),
    "refused": (RED, "REFUSED"),
}
EMPTY_HEIGHT = 400
NOTE_SIZE = 13


def draw(curve, verdict, log=None):
    """The picture as an SVG document. `log`: None for scales that suit, else the axes out of {"x", "y"} that are logarithmic."""
    colour, word = KINDS.get(verdict.kind, (RED, plain(verdict.kind).upper()))
    head, top = heading(curve, verdict, colour)
    if not curve.names or not curve.xs:
        body, bottom, sides = nothing(curve, top), top + EMPTY_HEIGHT, (MARGIN, WIDTH - MARGIN, top + 30, top + EMPTY_HEIGHT)
    else:
        body, bottom, sides = plots(curve, verdict, log, top)
    height = math.ceil(bottom + 20)
    start = (
        f'<svg xmlns="http://www.w3.org/2000/svg" width="{WIDTH}" height="{height}" viewBox="0 0 {WIDTH} {height}" '
        'font-family="Helvetica, Arial, sans-serif" font-size="13">'
    )
    white = f'<rect width="{WIDTH}" height="{height}" fill="white"/>'
    return "\n".join([start, white, *head, *body, *across(word, colour, sides), "</svg>"]) + "\n"


def heading(curve, verdict, colour):
    """Title and status; where they end. A status is not cut as long as three lines of small letters can hold it."""
    room, at, parts = WIDTH - 2 * MARGIN, 14, []
    for line in wrapped(plain(curve.title), room, 20, 2):
        at += 26
        parts.append(text(MARGIN, at, line, size=20))
    status = plain(verdict.line)
    size = next((size for size in range(16, 8, -1) if len(wrapped(status, room, size, 4, True)) <= 3), 8)
    at += 4
    for line in wrapped(status, room, size, 3, True):
        at += size + 6
        parts.append(text(MARGIN, at, line, size=size, colour=colour, bold=True))
    return parts, at + 14


def nothing(curve, top):
    words = "nothing was computed" if curve.names else "there is no component, and nothing to draw"
    return [text(MARGIN, top + 24, words, size=18, colour=GREY)]


def across(word, colour, sides):
    """The word in large letters over the plots, again and again down a tall picture, so that no sheet of it lacks the word."""
    if not word:
        return []
    left, right, top, bottom = sides
    size = int(min(110, 0.96 * (right - left) / (0.72 * len(word))))
    times = max(1, round((bottom - top) / 650))
    heights = [top + (bottom - top) * (i + 0.5) / times for i in range(times)]
    return [slanted((left + right) / 2, y, word, size, colour) for y in heights]


def plots(curve, verdict, log, top):
    """All panels with their axes, curves and notes; where they end; and their sides."""
    names = [plain(name) for name in curve.names]
    panels = panels_of.arrange(len(names), top, WIDTH)
    for panel in panels:
        panel.measure(curve)
    x_axis = Across(curve, log, panels)
    places = x_axis.axis.places(x_axis.numbers, 0, panels[0].width)
    marks, added = x_axis.axis.marks(panels[0].width, lambda label: width(label, panels[0].size) + 12)
    start, end = uncomputed(curve, x_axis, panels[0].width, places) if verdict.kind == "unfinished" else (0.0, 0.0)
    parts, notes = [], [x_axis.note, *missing_x(curve)]
    source = plain(getattr(curve, "source", ""))
    for panel in panels:
        panel.take(curve, places, log)
        shade, words = panel.shade(start, end)
        parts += [*shade, *panel.frame(marks), *panel.curves(len(curve.xs)), *words, *panel.named(names)]
        notes += panel.notes(names, len(curve.xs))
    left, right = panels[0].left, max(panel.right for panel in panels)
    bottom = max(panel.bottom for panel in panels)
    after = x_axis.words + (f", {added}" if added else "")
    room = right - left - width(after, 14)
    parts.append(text((left + right) / 2, bottom + 44, shortened(plain(curve.axis), room, 14) + after, size=14, anchor="middle"))
    lines = noted([note for note in (*notes, f"from {source}" if source and source != plain(curve.title) else "") if note])
    parts += [text(MARGIN, bottom + 72 + 19 * i, line, size=NOTE_SIZE, colour=GREY) for i, line in enumerate(lines)]
    return parts, bottom + 52 + 19 * len(lines), (left, right, top, bottom)


def missing_x(curve):
    lost = len(curve.xs) - sum(map(math.isfinite, curve.xs))
    return [f"x is infinite or no number at {lost} of {len(curve.xs)} points"] if lost else []


def uncomputed(curve, x_axis, length, places):
    """The places between which the run was not computed: twice the same where it came to its end or the end is not known."""
    end = x_axis.axis.places([x_axis.end], 0, length)[0]
    last = next((place for place in reversed(places) if place == place), None)
    if last is None:
        last = x_axis.axis.places([curve.x0], 0, length)[0] if not x_axis.axis.log else 0.0
    came = next((far for far in reversed(x_axis.far[:-1]) if far == far), 0.0)
    beyond = x_axis.far[-1] > came  # a run may pass its end by a hair
    return (min(last, end), max(last, end)) if beyond and last == last and end == end else (0.0, 0.0)


def noted(notes):
    """The notes in lines: as many on one as fit, none broken that fits on a line of its own."""
    lines, room = [], WIDTH - 2 * MARGIN
    for note in notes:
        joined = f"{lines[-1]}   \u00b7   {note}" if lines else note
        if lines and width(joined, NOTE_SIZE) <= room:
            lines[-1] = joined
        else:
            lines += wrapped(note, room, NOTE_SIZE, 9)
    return lines
