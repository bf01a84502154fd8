"""The shapes that a picture is made of, as SVG. No number in them is infinite: what cannot be placed is not drawn."""
from xml.sax.saxutils import escape


def text(x, y, words, size=13, colour="black", anchor="start", bold=False):
    weight = ' font-weight="bold"' if bold else ""
    return f'<text x="{x:.1f}" y="{y:.1f}" font-size="{size}" fill="{colour}" text-anchor="{anchor}"{weight}>{escape(words)}</text>'


def slanted(x, y, words, size, colour):
    """Large letters through which the curves can be seen."""
    return (
        f'<text x="{x:.1f}" y="{y + 0.35 * size:.1f}" font-size="{size}" font-weight="bold" fill="{colour}" fill-opacity="0.32" '
        f'text-anchor="middle" transform="rotate(-22 {x:.1f} {y:.1f})">{escape(words)}</text>'
    )


def box(x, y, width, height, look):
    return f'<rect x="{x:.1f}" y="{y:.1f}" width="{width:.1f}" height="{height:.1f}" {look}/>'


def line(x1, y1, x2, y2, colour):
    return f'<line x1="{x1:.1f}" y1="{y1:.1f}" x2="{x2:.1f}" y2="{y2:.1f}" stroke="{colour}"/>'


def dot(x, y, radius, colour):
    return f'<circle cx="{x:.1f}" cy="{y:.1f}" r="{radius:.1f}" fill="{colour}"/>'


def polyline(points, colour, stroke, dashes):
    dashed = f' stroke-dasharray="{dashes}"' if dashes else ""
    return f'<polyline points="{joined(points)}" fill="none" stroke="{colour}" stroke-width="{stroke:.2g}" stroke-linejoin="round"{dashed}/>'


def polygon(points, colour):
    return f'<polygon points="{joined(points)}" fill="{colour}" fill-opacity="0.2"/>'


def joined(points):
    return " ".join(f"{x:.1f},{y:.1f}" for x, y in points)
