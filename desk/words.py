"""Words of a job or a status, made fit to be shown: nothing in them is unseen, and they keep to their room."""
import re
import unicodedata

# What would damage an XML file, move a terminal's cursor or turn the reading order round: control characters, line and
# paragraph separators, halves of surrogate pairs, characters that are none, and the marks of the bidirectional algorithm.
UNSEEN = re.compile(
    "[\x00-\x1f\x7f-\x9f\u061c\u200e\u200f\u2028-\u202e\u2066-\u2069\ud800-\udfff\ufdd0-\ufdef\ufffe\uffff"
    + "".join(chr(plane << 16 | low) for plane in range(1, 17) for low in (0xFFFE, 0xFFFF))
    + "]"
)
ELLIPSIS = "..."


def plain(words):
    """The words with every unseen character written as \\xNN, \\uNNNN or \\UNNNNNNNN; all other text is left alone."""
    return UNSEEN.sub(lambda found: escaped(ord(found.group())), str(words))


def escaped(code):
    if code <= 0xFF:
        return f"\\x{code:02x}"
    return f"\\u{code:04x}" if code <= 0xFFFF else f"\\U{code:08x}"


def width(words, size, bold=False):
    """An estimate of the pixels that the words take: no font is known here. Bold letters are an eighth wider."""
    wide = sum(unicodedata.east_asian_width(letter) in "WF" for letter in words)
    return (0.6 * (len(words) - wide) + wide) * size * (1.125 if bold else 1)


def fitting(words, room, size, bold=False):
    """How many of the first letters fit into the room, at least one."""
    taken = 0.0
    for count, letter in enumerate(words):
        taken += width(letter, size, bold)
        if taken > room + 1e-6:
            return max(count, 1)
    return len(words)


def shortened(words, room, size, bold=False):
    """The words, or as much of their beginning as fits with an ellipsis after it."""
    if width(words, size, bold) <= room:
        return words
    return words[: fitting(words, room - width(ELLIPSIS, size, bold), size, bold)].rstrip() + ELLIPSIS


def narrowed(words, room, size, bold=False):
    """Shortened in the middle: names are often told apart by their last letters only."""
    if width(words, size, bold) <= room:
        return words
    half = (room - width(ELLIPSIS, size, bold)) / 2
    tail = words[::-1]
    return words[: fitting(words, half, size, bold)] + ELLIPSIS + tail[: fitting(tail, half, size, bold)][::-1]


def wrapped(words, room, size, most, bold=False):
    """Lines of the words, broken at spaces where there are any; what does not fit into so many lines is cut by an ellipsis."""
    lines, rest = [], words.strip()
    while rest and len(lines) < most - 1 and width(rest, size, bold) > room:
        cut = fitting(rest, room, size, bold)
        space = rest.rfind(" ", 0, cut + 1)
        cut = space if space > 0 else cut
        lines.append(rest[:cut].rstrip())
        rest = rest[cut:].lstrip()
    return lines + [shortened(rest, room, size, bold)] if rest else lines
