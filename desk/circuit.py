"""A circuit as text: what an editor writes, read as a form (`packed`). A mistake is told with its line.

A comment begins with `#` at a line's beginning or after a blank, so that 'Prelude in C# minor' and 'C#4' stay whole.
"""
import difflib
import os
import re
import stat

from desk.packed import COUNTS, DOUBLES, SPOKEN, WORDS, Form, Wrong, bits_of, numbers, of_bytes, refusal, refused

SPECIAL = {"infinity": 0x7FF0 << 48, "-infinity": 0xFFF0 << 48, "nan": 0x7FF8 << 48}
# Forty times the longest text that `show` prints: 32 rows of 32 numbers. No circuit is longer, and a device never ends.
MOST_BYTES = 1_000_000


def number(text, where):
    """The bits of a number as written: decimal, or 0x and sixteen digits."""
    if text in SPECIAL:
        return SPECIAL[text]
    if text[:2] in ("0x", "0X"):
        if not re.fullmatch("[0-9A-Fa-f]{16}", text[2:]):
            raise Wrong(f"{where}: {text}: after 0x come the 16 hexadecimal digits of a double")
        return int(text, 16)
    if not re.fullmatch(r"[+-]?([0-9]+\.?[0-9]*|\.[0-9]+)([eE][+-]?[0-9]+)?", text):
        raise Wrong(f"{where}: {text} is no number (such as 0.5, -1e-3, infinity, or 0x and 16 digits){hint(text)}")
    x = float(text)
    nothing_but_zeros = not re.search("[1-9]", re.split("[eE]", text)[0])
    if abs(x) == float("inf") or (x == 0 and not nothing_but_zeros):
        raise Wrong(f"{where}: {text} is too {'small' if x == 0 else 'large'} for a double")
    return bits_of(x)


def hint(text):
    """What was probably meant by something that is no number."""
    if "#" in text:
        return "; before the # of a comment leave a blank"
    if "," in text and re.search(r"\d", text):
        return "; write the decimal point as a point, not as a comma, and no commas between digits"
    if any(dash in text for dash in "\u2010\u2011\u2012\u2013\u2014\u2212"):
        return "; write the minus as -"
    if text.lower().lstrip("+-") in ("inf", "infinity", "nan"):
        return f"; write {text.lower().replace('infinity', 'inf').replace('inf', 'infinity').lstrip('+')}"
    return ""


def whole(text, where):
    """A count as written. 20 digits are more than any count may have; `refusal` says which are too large."""
    if not re.fullmatch("0*[0-9]{1,20}", text):
        raise Wrong(f"{where}: {text} is no whole number that a job can have (such as 0, 4 or 1000){'; write digits alone' if text[:1].isdigit() else ''}")
    return int(text[-20:])


def of_text(text, name):
    """The job that a text says. Every word is written once; what is no form is told first, then what the writer refuses, by its
    line and in the writer's order."""
    said, where = sorted_by_word(text, name)
    for word in WORDS:
        if word not in said:
            raise Wrong(f"{name}: there is no line that begins with {word}")
    form = form_of(said, where)
    found = refusal(form)
    if found:
        raise refused(*in_its_line(found, form, said, where))
    misshapen = shape(said["A"], form.n, where["A"])
    if misshapen:  # as many numbers as there should be, but in other rows
        raise Wrong(": ".join(misshapen))
    names_fit(said.get("names"), form.n, where.get("names"))
    form.lines = {word: line_of(place) for word, place in where.items()}
    form.row_lines = [line_of(place) for _, place in said["A"]]
    return form


def line_of(place):
    return int(place.rsplit(" ", 1)[1])


def form_of(said, where):
    """What stands in a text, word by word, whether or not it may be saved."""
    fields = {word: said.get(word) for word in SPOKEN}
    for word in COUNTS:
        fields[word] = whole(one(said[word], word, where), where[word])
    for word in DOUBLES:
        given = one(said[word], word, where)
        automatic = word == "first_step" and given == "automatic"
        fields[word] = 0 if automatic else number(given, where[word])
    fields["automatic"] = said["first_step"] == ["automatic"]
    fields["y0"] = [number(part, where["y0"]) for part in said["y0"]]
    fields["A"] = [number(part, place) for parts, place in said["A"] for part in parts]
    return Form(fields)


def in_its_line(found, form, said, where):
    """The place in the text of what `refusal` found, and that again: of A the row that is at fault."""
    by, word, _ = found
    if word != "A":
        return where[word], found
    place, sentence = shape(said["A"], form.n, where["A"])
    return place, (by, word, sentence)


def shape(rows, n, place):
    """Where A is not n rows of n numbers, and in what way; None where it is."""
    if len(rows) != n:
        return place, f"A has {len(rows)} row{'' if len(rows) == 1 else 's'}, but n is {n}"
    for i, (parts, at) in enumerate(rows, 1):
        if len(parts) != n:
            return at, f"row {i} of A has {numbers(len(parts))}, but n is {n}"
    return None


def names_fit(names, n, place):
    """Two components of one name could be taken for one another."""
    if names is None:
        return
    if len(names) != n:
        raise Wrong(f"{place}: names has {len(names)}, but n is {n}")
    for i, name in enumerate(names):
        if name in names[:i]:
            raise Wrong(f"{place}: two components are named {name}")


def sorted_by_word(text, name):
    """What stands after each word, and the place of its line. The rows of A are the lines after it that begin with no word."""
    said, where = {}, {}
    for count, line in enumerate(re.split("\r\n|\n|\r", text), 1):
        parts = re.sub(r"(^|\s)#.*", "", line).split()
        place = f"{name}, line {count}"
        if not parts:
            continue
        word = parts[0]
        if word not in WORDS + SPOKEN:
            if list(said)[-1:] == ["A"] and not meant(word):
                said["A"].append((parts, place))
                continue
            raise Wrong(f"{place}: '{word}': {meant(word)}a line begins with one of {', '.join(WORDS + SPOKEN)}; the rows of A follow its line")
        if word in said:
            raise Wrong(f"{place}: {word} already stands in {where[word].split(', ')[-1]}")
        where[word] = place
        said[word] = parts[1:]
        if word in ("title", "axis"):
            said[word] = " ".join(parts[1:])
        if word == "A":
            said[word] = [(parts[1:], place)] if parts[1:] else []
    return said, where


def meant(word):
    """The word that was probably meant, in words; nothing where none is like it."""
    if not re.match(r"[^\W\d_]", word):
        return ""  # it begins as no word does: a number
    by_lower = {known.lower(): known for known in WORDS + SPOKEN}
    name, _, value = word.partition("=")
    key = re.sub("[:-]", "", name.lower())
    close = [key] if key in by_lower else difflib.get_close_matches(key, by_lower, 1, 0.75)
    return f"write {' '.join([by_lower[close[0]], value]).strip()}; " if close else ""


def one(parts, word, where):
    if len(parts) != 1:
        raise Wrong(f"{where[word]}: {word} wants one value, here are {len(parts)}")
    return parts[0]


def of_file(path):
    """A file whose name ends in .job is packed, any other is text. Without a title it is called by its name."""
    data = bytes_of(path)
    form = packed_form(data, path) if is_job(path) else text_form(data, path)
    form.title = form.spoken.get("title", os.path.basename(path))
    return form


def is_job(path):
    return path.lower().endswith(".job")


def packed_form(data, path):
    try:
        return of_bytes(data, path)
    except Wrong as wrong:
        if re.fullmatch(rb"[\t\r\n -~]{5,}", data):
            raise Wrong(f"{wrong}; this looks like a text, whose name must not end in .job", wrong.number)
        raise


def text_form(data, path):
    if not data.strip():
        raise Wrong(f"{path}: the file is empty")
    try:
        return of_text(data.decode("utf-8-sig"), path)
    except UnicodeDecodeError as fault:
        line = data[: fault.start].count(b"\n") + 1
        raise Wrong(f"{path}, line {line}: this is no text in UTF-8; save it as UTF-8 (and a packed job's name ends in .job)")


def bytes_of(path):
    try:
        if stat.S_ISDIR(os.stat(path).st_mode):
            raise Wrong(f"{path}: this is a folder")
        with open(path, "rb") as file:
            data = file.read(MOST_BYTES + 1)
    except (OSError, ValueError) as fault:  # ValueError: a name with a zero byte in it
        raise Wrong(f"{path}: {getattr(fault, 'strerror', None) or fault}")
    if len(data) > MOST_BYTES:
        raise Wrong(f"{path}: more than {MOST_BYTES:,} bytes; no circuit is so long")
    return data
