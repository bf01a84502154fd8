"""A job as a form, and as the packed bytes that the job program reads (docs/JOB-FORMAT.md). Its text is `circuit`'s.

Every number is kept as its 64 bits, never as a float that is written out again: so what is shown and packed once more is
the same file, byte for byte. What may be saved goes by the rules of the proved writer, which `refusal` holds once.
"""
import copy
import struct

MAX_N, MAX_STEPS, MAX_NEWTON = 32, 1_000_000, 64
STEPS_ROOM, NEWTON_ROOM = 1 << 20, 1 << 7  # from these on the two limits do not fit their 20 and 7 bits
ZEROS = (0, 1 << 63)  # +0 and -0
COUNTS = ("n", "max_steps", "newton_maxiter")
DOUBLES = ("x0", "xend", "first_step", "rtol", "atol")
WORDS = COUNTS + DOUBLES + ("y0", "A")
SPOKEN = ("title", "axis", "names")  # for table and picture alone: a packed job has no place for them


class Wrong(Exception):
    """What is wrong with a text or a file, in words for whoever wrote it. It has a number where a job is refused by that number,
    and None where the mistake is one of the text alone."""

    def __init__(self, sentence, number=None):
        super().__init__(sentence)
        self.number = number


class Form:
    """Counts as whole numbers, numbers as 64 bits. Where the start is automatic, first_step is not used.

    A form can say what no job says, such as an automatic start with a first_step beside it: `refusal` tells."""

    def __init__(self, fields):
        self.n, self.max_steps, self.newton_maxiter = (fields[word] for word in COUNTS)
        self.x0, self.xend, self.first_step, self.rtol, self.atol = (fields[word] for word in DOUBLES)
        self.automatic = fields["automatic"]
        self.y0, self.a = fields["y0"], fields["A"]
        self.spoken = {word: fields[word] for word in SPOKEN if fields.get(word)}
        self.title = self.spoken.get("title", "a job")
        self.axis = self.spoken.get("axis", "x")
        self.names = self.spoken.get("names", [f"y{i + 1}" for i in range(len(self.y0))])
        self.lines, self.row_lines = {}, []  # of a text: the line of each word, and of each row of A

    def but(self, **change):
        """The same form with something else in it."""
        other = copy.copy(self)
        vars(other).update(change)
        return other

    def packed(self):
        """The bytes of the job file. A form that fits no file has none."""
        found = unfit(self)
        if found:
            raise refused(self.title, found)
        head = self.n << 34 | self.max_steps << 14 | self.newton_maxiter << 7 | self.automatic << 6
        doubles = [self.x0, self.xend, self.first_step, self.rtol, self.atol, *self.y0, *self.a]
        return head.to_bytes(5, "big") + b"".join(bits.to_bytes(8, "big") for bits in doubles)

    def text(self):
        first = "automatic" if self.automatic else written(self.first_step)
        lines = [f"{word} {self.spoken[word]}" for word in ("title", "axis") if word in self.spoken]
        lines += [" ".join(["names", *self.names])] if "names" in self.spoken else []
        lines += [f"n {self.n}", f"max_steps {self.max_steps}", f"newton_maxiter {self.newton_maxiter}"]
        lines += [f"x0 {written(self.x0)}", f"xend {written(self.xend)}", f"first_step {first}"]
        lines += [f"rtol {written(self.rtol)}", f"atol {written(self.atol)}", row("y0", self.y0), "A"]
        lines += [row(" ", self.a[i * self.n : (i + 1) * self.n]) for i in range(self.n)]
        return "\n".join(lines) + "\n"


def refusal(form):
    """Why a form cannot be saved as a job: the number, the word that is at fault, and a sentence; None where it can be saved.

    These are the rules of the proved writer, in its order. With no component a run ends at once, and 5 to 8 are not looked at."""
    return unfit(form) or (unready(form) if form.n > 0 else None)


def unfit(form):
    """Numbers 1 and 17: what no job file says."""
    n = form.n
    if n > MAX_N:
        return 1, "n", f"n is {n}, above {MAX_N}"
    if len(form.y0) != n:
        return 17, "y0", f"y0 has {numbers(len(form.y0))}, but n is {n}"
    if len(form.a) != n * n:
        return 17, "A", f"A has {numbers(len(form.a))}, but n is {n}, which wants {n * n}"
    if form.max_steps >= STEPS_ROOM:
        return 17, "max_steps", f"max_steps is {form.max_steps}, too large for a job file; write at most {MAX_STEPS:,}"
    if form.newton_maxiter >= NEWTON_ROOM:
        return 17, "newton_maxiter", f"newton_maxiter is {form.newton_maxiter}, too large for a job file; write at most {MAX_NEWTON}"
    if form.automatic and form.first_step != 0:
        return 17, "first_step", "the start is automatic and yet there is a first_step"
    return None


def numbers(count):
    return f"{count} number{'' if count == 1 else 's'}"


def unready(form):
    """Numbers 5 to 8: what the job program does not begin with. NaN and -0 are not below 0."""
    for word, bits in (("rtol", form.rtol), ("atol", form.atol)):
        if value(bits) < 0:
            return 5, word, f"{word} is below 0"
    if form.max_steps == 0:
        return 6, "max_steps", "max_steps is 0"
    if form.max_steps > MAX_STEPS:
        return 7, "max_steps", f"max_steps is {form.max_steps}, above {MAX_STEPS:,}"
    if form.newton_maxiter > MAX_NEWTON:
        return 7, "newton_maxiter", f"newton_maxiter is {form.newton_maxiter}, above {MAX_NEWTON}"
    if not form.automatic and form.first_step in ZEROS:
        return 8, "first_step", "first_step is 0; write automatic, or another number"
    return None


def refused(place, found):
    """What `refusal` found, in words that end in its number."""
    by, _, sentence = found
    who = "no job file can say it: refused" if by == 17 else "the job program would refuse it"
    return Wrong(f"{place}: {sentence} ({who} by number {by})", by)


def to_save(form, name):
    """The bytes of a form that is to be saved: only what the writer accepts."""
    found = refusal(form)
    if found:
        raise refused(name, found)
    return form.packed()


def row(head, numbers):
    return " ".join([head, *map(written, numbers)])


def value(bits):
    return struct.unpack(">d", bits.to_bytes(8, "big"))[0]


def bits_of(x):
    return int.from_bytes(struct.pack(">d", x), "big")


def written(bits):
    """The shortest decimal that reads back as these bits; a NaN keeps its own by being shown as them."""
    x = value(bits)
    if x != x:
        return f"0x{bits:016X}"
    return {float("inf"): "infinity", float("-inf"): "-infinity"}.get(x) or repr(x)


def of_bytes(data, name):
    """The job in a packed file: whatever the job program reads as one. It may yet refuse it by 5 to 8, and so does `to_save`."""
    if len(data) < 5:
        raise Wrong(f"{name}: {len(data)} bytes; a job has at least 5 (refused by number 17)", 17)
    head = int.from_bytes(data[:5], "big")
    n, automatic = head >> 34, head >> 6 & 1
    if n > MAX_N:
        raise Wrong(f"{name}: n is {n}, above {MAX_N} (refused by number 1)", 1)
    length = 5 + 8 * (5 + n + n * n)
    if len(data) != length:
        raise Wrong(f"{name}: {len(data)} bytes; a job of n {n} has {length} (refused by number 17)", 17)
    if head & 0x3F:
        raise Wrong(f"{name}: one of the six zero bits of the head is set (refused by number 17)", 17)
    doubles = [int.from_bytes(data[i : i + 8], "big") for i in range(5, length, 8)]
    if automatic and doubles[2] != 0:
        raise Wrong(f"{name}: the start is automatic and yet there is a first_step (refused by number 17)", 17)
    fields = {"n": n, "max_steps": head >> 14 & 0xFFFFF, "newton_maxiter": head >> 7 & 0x7F}
    fields.update(zip(DOUBLES, doubles), automatic=automatic == 1)
    fields["y0"], fields["A"] = doubles[5 : 5 + n], doubles[5 + n :]
    return Form(fields)


