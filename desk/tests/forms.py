"""Forms and files at random, for `agree.py`: ordinary ones, and ones at each rule's bound and one beyond.

The job program runs what is accepted. So that no run is long, jobs have few steps, or end at once."""
import itertools
import struct

from desk import packed

SIGN, INFINITY = 1 << 63, 0x7FF0 << 48
MOST = (1 << 64) - 1  # the largest word
LONGEST_ROOM = 8_800  # the program lends the writer no longer slice, and takes no longer file
FEW = 20  # steps of a job whose run may be any


def bits(x):
    return int.from_bytes(struct.pack(">d", x), "big")


# Neither sign nor bits of a NaN make it less than 0.
NANS = (INFINITY | 1, SIGN | INFINITY | 1, 0x7FF8 << 48, 0xFFF8 << 48, 0x7FF8_0000_DEAD_BEEF, SIGN - 1, MOST)
EDGES = (0, SIGN, 1, SIGN | 1, (1 << 52) - 1, 1 << 52, INFINITY - 1, MOST - (1 << 52), INFINITY, SIGN | INFINITY, bits(1.0), bits(-1.0))
TOLERANCES = EDGES + NANS
LENGTHS = {"one short": lambda words: words[:-1], "one long": lambda words: words + [0], "empty": lambda words: []}
# What a field is set to. Of first_step: while it is used; of automatic: the first_step that stands beside it.
BOUNDS = {
    "n": (33, 63, 64, MOST),
    "y0": tuple(LENGTHS),
    "A": tuple(LENGTHS),
    "max_steps": (0, 1, 1_000_000, 1_000_001, (1 << 20) - 1, 1 << 20, MOST),
    "newton_maxiter": (0, 1, 64, 65, 127, 128, MOST),
    "automatic": (0, 1, SIGN),
    "rtol": TOLERANCES,
    "atol": TOLERANCES,
    "first_step": (0, SIGN),
}
# Those that a file can say. A million steps is left out. A turned bit can still make many, but then the numbers are ordinary ones, save one
# that is at its bound, and the run ends long before.
UNREADY = {
    "max_steps": (0, 1, 1_000_001, (1 << 20) - 1),
    "newton_maxiter": (0, 1, 64, 65, 127),
    "rtol": TOLERANCES,
    "atol": TOLERANCES,
    "first_step": (0, SIGN),
}
# One value of each that is refused, whatever else is.
REFUSED = [("n", 33), ("y0", "one long"), ("A", "one long"), ("max_steps", 1 << 20), ("newton_maxiter", 128), ("automatic", SIGN)]
REFUSED += [("rtol", SIGN | 1), ("atol", SIGN | 1), ("max_steps", 0), ("max_steps", 1_000_001), ("newton_maxiter", 65), ("first_step", SIGN)]


def length(n):
    """Of the job in bytes; where no job has so many components, that of none."""
    return 5 + 8 * (5 + n + n * n) if n <= packed.MAX_N else 45


def ordinary(random, n):
    """The fields of a form that may be saved, and whose run is a usual one."""
    automatic = random.random() < 0.5
    return {
        "n": n,
        "max_steps": random.randint(1, FEW),
        "newton_maxiter": random.randint(2, 8),
        "automatic": automatic,
        "x0": bits(random.uniform(-1, 1)),
        "xend": bits(random.uniform(-10, 10)),
        "first_step": 0 if automatic else bits(random.uniform(1e-4, 1)),
        "rtol": bits(random.uniform(1e-8, 1e-2)),
        "atol": bits(random.uniform(1e-9, 1e-3)),
        "y0": [bits(random.uniform(-1, 1)) for _ in range(n)],
        "A": [bits(random.uniform(-1, 1)) for _ in range(n * n)],
    }


def any_numbers(random, n):
    """The same with any numbers at all, as far as they may be saved."""
    fields = ordinary(random, n)
    for word in ("x0", "xend", "rtol", "atol", *(() if fields["automatic"] else ("first_step",))):
        fields[word] = accepted(random, word)
    for word in ("y0", "A"):
        fields[word] = [any_bits(random) for _ in fields[word]]
    return fields


def accepted(random, word):
    while True:
        found = any_bits(random)
        if not (word in ("rtol", "atol") and packed.value(found) < 0) and not (word == "first_step" and found in packed.ZEROS):
            return found


def any_bits(random):
    sign = random.choice((0, SIGN))
    return random.choice(
        (
            random.getrandbits(64),
            random.choice(EDGES + NANS),
            sign | INFINITY | random.randint(1, (1 << 52) - 1),  # a NaN with bits of its own
            sign | random.getrandbits(random.randint(1, 52)),  # subnormal
            bits(random.uniform(-1, 1)),
        )
    )


def damaged(fields, word, how):
    fields = dict(fields)
    if word in ("y0", "A"):
        fields[word] = LENGTHS[how](fields[word])
    elif word in ("automatic", "first_step"):
        fields.update(automatic=word == "automatic", first_step=how)
    else:
        fields[word] = how
    return fields


def ending_soon(fields):
    """Where a job with many steps may be saved, the same with numbers of which it makes few."""
    form = packed.Form(fields)
    if form.max_steps <= FEW or form.n == 0 or packed.refusal(form):
        return form
    n, one = form.n, bits(1.0)
    numbers = {"x0": 0, "xend": one, "rtol": bits(1e-3), "atol": bits(1e-6), "y0": [one] * n, "A": [0] * (n * n)}
    numbers["first_step"] = 0 if form.automatic else one
    numbers["newton_maxiter"] = max(form.newton_maxiter, 4)
    return packed.Form({**fields, **numbers})


def each_bound(random):
    """Every bound by itself, and every n, in a slice that is long enough and in one that is not: row, form, room."""
    for n in (0, 1, 32):
        for word, hows in BOUNDS.items():
            for how in hows:
                form = ending_soon(damaged(ordinary(random, n), word, how))
                for room in (LONGEST_ROOM, length(form.n) - 1):
                    yield "each bound", form, room
    for n in range(33):
        form = packed.Form(ordinary(random, n))
        for room in (length(n) - 1, length(n), length(n) + 1, 0):
            yield "each n", form, room
    # as many numbers as 33 components want: only the count of them is at fault
    yield "each n", packed.Form(ordinary(random, 33)), LONGEST_ROOM


def each_two(random):
    """Every two refusals at once: which number is given goes by the order of checking."""
    for one, other in itertools.combinations(REFUSED, 2):
        form = packed.Form(damaged(damaged(ordinary(random, 1), *one), *other))
        yield "each two refusals", form, random.choice((LONGEST_ROOM, 0))


def some_forms(random, count):
    """Row, form, room."""
    for _ in range(count):
        n = random.choice((0, 1, 1, 2, 2, 3, 4, 5, random.randint(6, 32), 32))
        row, damages = random.choice((("ordinary", 0), ("any numbers", 0), ("one damage", 1), ("one damage", 1), ("several damages", random.randint(2, 4))))
        fields = (any_numbers if row == "any numbers" else ordinary)(random, n)
        for _ in range(damages):
            word = random.choice(list(BOUNDS))
            fields = damaged(fields, word, random.choice(BOUNDS[word]))
        exact = length(fields["n"])
        rooms = (exact, exact, exact + 1, exact + random.randint(2, 100), LONGEST_ROOM, exact - 1, random.randrange(exact), 0)
        yield row, ending_soon(fields), random.choice(rooms)


def some_files(random, count):
    """Row, bytes, room."""
    for _ in range(count):
        fields = ordinary(random, random.choice((0, 1, 1, 2, 3, 5, random.randint(6, 32))))
        if random.random() < 0.3:
            word = random.choice(list(UNREADY))
            fields = damaged(fields, word, random.choice(UNREADY[word]))
        row, data = damaged_file(random, packing(packed.Form(fields)))
        yield row, data, random.randrange(len(data) + 1) if random.random() < 0.1 else LONGEST_ROOM


def damaged_file(random, data):
    cut, at = random.randrange(len(data)), random.randrange(8 * len(data))
    more = any_bytes(random, random.choice((1, 1, 7, 8, random.randint(1, 100))))
    padding = data[4] | random.randint(1, 63)
    above = random.randint(33, 63) << 2 | data[0] & 3
    beside = random.choice((SIGN, 1, random.getrandbits(64) | 1)).to_bytes(8, "big")
    return random.choice(
        (
            ("as they are", data),
            ("cut", data[:cut]),
            ("longer", data + more),
            ("a padding bit", data[:4] + bytes([padding]) + data[5:]),
            ("n above 32", bytes([above]) + data[1 : random.choice((4, 5, 5, len(data)))]),
            ("unused first_step", data[:4] + bytes([data[4] | 64]) + data[5:21] + beside + data[29:]),
            ("a bit flipped", flipped(data, at)),
            ("a bit of the head", flipped(data, at % 40)),
            ("any bytes", any_bytes(random, 8 * random.randrange(90) + random.choice((0, 4, 6)))),
            ("any bytes", after_a_head(random)),
        )
    )


def any_bytes(random, count):
    return bytes(random.getrandbits(8) for _ in range(count))


def after_a_head(random):
    """Any bytes after the head of a job, as many as it says, with few steps and no padding bit in it: some of these are jobs, and run."""
    n = random.choice((0, 1, 2, 3, random.randrange(10)))
    head = ((n << 20 | random.randint(0, FEW)) << 7 | random.randrange(80)) << 7 | random.getrandbits(1) << 6
    return head.to_bytes(5, "big") + any_bytes(random, length(n) - 5)


def flipped(data, at):
    """With one bit turned, counted from the most significant of the first byte."""
    return (int.from_bytes(data, "big") ^ 1 << (8 * len(data) - 1 - at)).to_bytes(len(data), "big")


def packing(form):
    """The bytes that say a form, whether or not it is refused; None where no bytes do."""
    n, words = form.n, [form.x0, form.xend, form.first_step, form.rtol, form.atol, *form.y0, *form.a]
    if n > 63 or form.max_steps >> 20 or form.newton_maxiter >> 7:
        return None
    if n <= packed.MAX_N and len(form.y0) != n and 5 + 8 * len(words) == length(n):
        return None  # what y0 lacks A has too much, and the bytes say another form
    head = ((n << 20 | form.max_steps) << 7 | form.newton_maxiter) << 7 | form.automatic << 6
    return head.to_bytes(5, "big") + struct.pack(f">{len(words)}Q", *words)


def spelled(form, spelling):
    """A form as a text, whatever is wrong with it; None where no text says it. The rows of A have n numbers, as far as they go."""
    if form.automatic and form.first_step != 0:
        return None
    first = "automatic" if form.automatic else spelling(form.first_step)
    across = max(form.n, 1)
    rows = [form.a[i : i + across] for i in range(0, len(form.a), across)]
    lines = [f"n {form.n}", f"max_steps {form.max_steps}", f"newton_maxiter {form.newton_maxiter}", f"first_step {first}"]
    lines += [f"{word} {spelling(getattr(form, word))}" for word in ("x0", "xend", "rtol", "atol")]
    lines += [" ".join(["y0", *map(spelling, form.y0)]), "A"]
    return "\n".join(lines + [" ".join(map(spelling, row)) for row in rows]) + "\n"


def by_its_digits(number):
    return f"0x{number:016X}"
