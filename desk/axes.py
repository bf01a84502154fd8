"""Axes: where on a picture's side a number lies, and which round numbers are written there.

The marks are counted in exact fractions, so that an axis from 1 to 1 + 1e-15 or from -1e308 to 1e308 has marks as right as any.
"""
import math
import sys
from fractions import Fraction

LARGEST = sys.float_info.max
NAN = math.nan
MOST_MARKS = 11
MOST_DIGITS = 5  # of a label; where it would have more, what all labels share is said once beside the axis


def span_of(numbers):
    """Lowest and highest of the finite numbers, or None where there is none."""
    finite = list(filter(math.isfinite, numbers))
    return (min(finite), max(finite)) if finite else None


def apart(lo, hi):
    """Never one number, nor two neighbours that differ by rounding: a flat line wants an axis too."""
    size = max(abs(lo), abs(hi))
    if hi / 2 - lo / 2 > size * 2.0**-52:
        return lo, hi
    room = size / 2 if size > 1e-300 else 1.0
    return max(lo - room, -LARGEST), min(hi + room, LARGEST)


class Linear:
    log = False

    def __init__(self, lo, hi, padding=0.0):
        lo, hi = apart(lo, hi)
        room = (hi / 2 - lo / 2) * (2 * padding)
        self.lo, self.hi = max(lo - room, -LARGEST), min(hi + room, LARGEST)

    def places(self, values, start, end):
        """Each value's place between start and end; no number where it cannot be shown."""
        lo, hi = self.lo, self.hi
        span, length = hi - lo, end - start
        if math.isinf(span):
            return Linear(lo / 4, hi / 4).places([value / 4 for value in values], start, end)
        return [start + (value - lo) / span * length if lo <= value <= hi else NAN for value in values]

    def marks(self, length, need):
        """(Place from 0 to 1, label) of each mark, and what is to be added to all labels ("" for nothing).

        `need` says how many pixels a label takes along the axis, which is `length` pixels long.
        """
        lo, hi = Fraction(self.lo), Fraction(self.hi)
        best = [], ""
        for digit, power in self.steps():
            step = digit * Fraction(10) ** power
            first, last = math.ceil(lo / step), math.floor(hi / step)
            if last - first + 1 > MOST_MARKS:
                continue
            if last < first:
                break
            labels, added = labelled([digit * k for k in range(first, last + 1)], power)
            found = [(float((step * k - lo) / (hi - lo)), label) for k, label in zip(range(first, last + 1), labels)]
            best = clear(found, length, need), added
            if len(best[0]) == len(found):
                break
        return best

    def steps(self):
        """1, 2 and 5 at the decimals that may suit, the finest first."""
        span = self.hi - self.lo
        power = 308 if math.isinf(span) else math.floor(math.log10(span))
        return [(digit, power + k) for k in (-2, -1, 0, 1) for digit in (1, 2, 5)]


class Logarithmic:
    """For numbers of one sign; `lo` and `hi` are the smallest and the largest size. It rises as the numbers do."""

    log = True

    def __init__(self, lo, hi, sign=1, padding=0.0):
        lo, hi = math.log10(lo), math.log10(hi)
        if hi - lo < 1e-9:
            lo, hi = lo - 0.5, hi + 0.5
        room = (hi - lo) * padding
        self.lo, self.hi, self.sign = max(lo - room, -330.0), min(hi + room, math.log10(LARGEST)), sign

    def places(self, values, start, end):
        lo, span, sign, log10 = self.lo, self.hi - self.lo, self.sign, math.log10
        if sign < 0:
            start, end = end, start
        length = end - start
        return [start + (log10(value * sign) - lo) / span * length if 0 < value * sign <= LARGEST else NAN for value in values]

    def marks(self, length, need):
        decades = range(math.ceil(self.lo), math.floor(self.hi) + 1)
        if len(decades) >= 3:
            return self.decades(decades, length, need), ""
        found = [(digit, power) for power in range(math.floor(self.lo), math.ceil(self.hi) + 1) for digit in (1, 2, 5)]
        found = [(digit, power) for digit, power in found if self.lo <= power + math.log10(digit) <= self.hi]
        if len(found) >= 3:
            return clear([self.mark(digit, power) for digit, power in found], length, need), ""
        return self.as_linear(length, need)

    def decades(self, powers, length, need):
        """Every power of ten, or every second, fifth .. one where that is too many."""
        for stride in (1, 2, 5, 10, 20, 50, 100, 200):
            found = [self.mark(1, power) for power in powers if power % stride == 0]
            if len(clear(found, length, need)) == len(found) <= 2 * MOST_MARKS:
                break
        return clear(found, length, need)

    def mark(self, digit, power):
        place = (power + math.log10(digit) - self.lo) / (self.hi - self.lo)
        return (place, decimal(digit, power)) if self.sign > 0 else (1 - place, "-" + decimal(digit, power))

    def as_linear(self, length, need):
        """Less than a decade: the marks of a linear axis, at their places here."""
        ends = sorted((self.sign * 10**self.lo, self.sign * 10 ** min(self.hi, 308.25)))
        linear = Linear(*ends)
        found, added = linear.marks(length, need)
        values = [linear.lo + place * (linear.hi - linear.lo) for place, _ in found]
        moved = [(place, label) for place, (_, label) in zip(self.places(values, 0, 1), found) if 0 <= place <= 1]
        return clear(moved, length, need), added


def clear(marks, length, need):
    """The marks without those whose labels would run into the one before."""
    kept = []
    for place, label in sorted(marks):
        if not kept or (place - kept[-1][0]) * length >= (need(label) + need(kept[-1][1])) / 2:
            kept.append((place, label))
    return kept


def labelled(counts, power):
    """A label for each count of 10 ** power, and what is to be added to all of them."""
    if max(map(abs, counts)) < 10**MOST_DIGITS:
        return [decimal(count, power) for count in counts], ""
    base, low, high = 1, min(counts), max(counts)
    while -(-low // (10 * base)) * 10 * base <= high:
        base *= 10
    shared = -(-low // base) * base  # the roundest number of the axis
    return [decimal(count - shared, power) for count in counts], f"counted from {decimal(shared, power, most=17)}"


def decimal(count, power, most=6):
    """count * 10 ** power, exactly: as it is spoken where that is short, else with an exponent."""
    if count == 0:
        return "0"
    digits = str(abs(count)).rstrip("0")
    power += len(str(abs(count))) - len(digits)
    first = len(digits) - 1 + power  # the first digit's power of ten
    if 0 <= power and first < most:
        text = digits + "0" * power
    elif 0 <= first < most:
        text = f"{digits[: first + 1]}.{digits[first + 1 :]}"
    elif -5 < first < 0:
        text = "0." + "0" * (-first - 1) + digits
    else:
        text = digits[0] + ("." + digits[1:] if len(digits) > 1 else "") + f"e{first}"
    return "-" + text if count < 0 else text
