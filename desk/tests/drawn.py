"""Runs for the tests of the picture, and pictures taken apart."""
import unittest
from types import SimpleNamespace
from xml.etree import ElementTree

from desk import picture, words


def even(start, end, count):
    return [start + (end - start) * i / (count - 1) for i in range(count)]


def curve(xs, *ys, names=None, title="a run", axis="time in seconds", x0=None, xend=None):
    names = [f"V{i + 1}" for i in range(len(ys))] if names is None else names
    x0 = (xs[0] if xs else 0.0) if x0 is None else x0
    xend = (xs[-1] if xs else 1.0) if xend is None else xend
    return SimpleNamespace(title=title, axis=axis, names=names, x0=x0, xend=xend, xs=xs, ys=list(ys))


def of(function, xs):
    return [function(x) for x in xs]


class Drawn:
    """A picture taken apart."""

    def __init__(self, run, kind="settled", line=None, log=None):
        self.svg = picture.draw(run, SimpleNamespace(kind=kind, line=line or f"{kind}: so it is"), log)
        assert self.svg.startswith("<svg ") and self.svg.endswith("</svg>\n")
        self.root = ElementTree.fromstring(self.svg.encode("utf-8"))
        self.width, self.height = float(self.root.get("width")), float(self.root.get("height"))
        self.frames = [tuple(float(r.get(k)) for k in ("x", "y", "width", "height")) for r in self.all("rect") if r.get("stroke")]
        self.texts = [t for t in self.all("text") if t.get("transform") is None]
        self.words = [t.text or "" for t in self.texts]
        self.across = [t for t in self.all("text") if t.get("transform")]

    def all(self, tag):
        return self.root.findall("{http://www.w3.org/2000/svg}" + tag)

    def said(self, part):
        return any(part in line for line in self.words)

    def lines(self, within=True):
        """The curves' lines as points; those of the legend lie to the right of the frame."""
        found = []
        for shape in self.all("polyline"):
            points = [tuple(map(float, pair.split(","))) for pair in shape.get("points").split()]
            if not within or points[-1][0] <= max(x + w for x, _, w, _ in self.frames) + 0.2:
                found.append((shape, points))
        return found

    def x_labels(self):
        x, y, w, h = self.frames[-1]
        return [t.text for t in self.texts if abs(float(t.get("y")) - y - h - 19) < 0.2 and t.get("text-anchor") == "middle"]

    def y_labels(self):
        return [t.text for t in self.texts if t.get("text-anchor") == "end" and abs(float(t.get("x")) - self.frames[0][0] + 8) < 0.2]

    def shade(self):
        return [r for r in self.all("rect") if r.get("fill") == picture.RED]


def box(element):
    size, length = float(element.get("font-size")), words.width(element.text or "", float(element.get("font-size")), bool(element.get("font-weight")))
    left = float(element.get("x")) - length * {"start": 0, "middle": 0.5, "end": 1}[element.get("text-anchor")]
    return left, left + length, float(element.get("y")) - 0.75 * size, float(element.get("y")) + 0.2 * size


class Picture(unittest.TestCase):
    def fits(self, drawn):
        """No text leaves the picture, and none lies on another."""
        boxes = [(box(t), t.text) for t in drawn.texts if t.text]
        for i, ((left, right, top, bottom), text) in enumerate(boxes):
            self.assertTrue(left >= 0 and right <= drawn.width + 0.5 and top >= 0 and bottom <= drawn.height, text)
            for (left2, right2, top2, bottom2), other in boxes[:i]:
                self.assertFalse(left < right2 and left2 < right and top < bottom2 and top2 < bottom, f"{text!r} lies on {other!r}")

    def finite(self, drawn):
        for element in drawn.root.iter():
            for key, value in element.attrib.items():
                if key in ("x", "y", "x1", "x2", "y1", "y2", "cx", "cy", "r", "width", "height", "points", "transform", "viewBox"):
                    self.assertNotRegex(value, "nan|inf", element.tag)
        for shape, points in drawn.lines(within=False):
            self.assertTrue(all(-1 <= x <= drawn.width and -1 <= y <= drawn.height for x, y in points))
