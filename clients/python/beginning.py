"""What a run is begun with, as the words of docs/transcript.md (kind 0), and what is wrong with it that the solver does not refuse itself."""
import math
import struct

ALL_ONES = 2**64 - 1
MAX_STEP, FIRST_STEP, GUARDED = 1, 8, 16  # the flags


def begun(span, y0, tolerances_of, limits, sizes, guarded):
    """The words. `tolerances_of`: relative and absolute; `limits`: max_steps and newton_maxiter; `sizes`: max_step and first_step."""
    max_step, first_step = sizes
    if max_step == math.inf:
        max_step = None  # as SciPy says it
    flags = (max_step is not None) * MAX_STEP + (first_step is not None) * FIRST_STEP + bool(guarded) * GUARDED
    max_steps, newton_maxiter = (whole(limit, name) for limit, name in zip(limits, ("max_steps", "newton_maxiter")))
    head = struct.pack(">5Q", 0, len(y0), max_steps, newton_maxiter, flags)
    given = (0 if size is None else number(size, name) for size, name in ((max_step, "max_step"), (first_step, "first_step")))
    head += struct.pack(">2d", *span) + struct.pack(">4d", next(given), 0, 0, next(given))
    return head + b"".join(map(packed, tolerances_of)) + struct.pack(f">{len(y0)}d", *y0)


def number(value, what):
    found = float(value)
    if not math.isfinite(found):
        raise ValueError(f"{what} is {found!r}: a finite number is wanted")
    return found


def whole(value, what):
    """A count as a word: what is too large for one is refused as the largest is."""
    if value < 0 or value != int(value):
        raise ValueError(f"{what} is {value!r}: a whole number from 0 on is wanted")
    return min(int(value), ALL_ONES)


def tolerances(value, n, what):
    """A number, or a list of them: as many as there are components. Fewer the solver refuses."""
    if not hasattr(value, "__iter__") or not getattr(value, "ndim", 1):
        return number(value, what)
    found = [number(entry, f"an entry of {what}") for entry in value]
    if len(found) > n:
        raise ValueError(f"{what} has {len(found)} entries, and there are {n} components")
    return found


def packed(tolerance):
    """A word of all ones and a number, or a count and so many numbers."""
    if isinstance(tolerance, float):
        return struct.pack(">Qd", ALL_ONES, tolerance)
    return struct.pack(f">Q{len(tolerance)}d", len(tolerance), *tolerance)


def scales(rtols, atols, y0):
    """For the differences: below which size each component counts for nothing, as its tolerances say; at most what the run begins with, or 1."""
    rtols, atols = ([each] * len(y0) if isinstance(each, float) else each for each in (rtols, atols))
    most = max([1.0, *map(abs, y0)])
    return [min(a / r, most) if r > 0 else 1.0 for r, a in zip(rtols, atols)]
