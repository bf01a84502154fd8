"""Own right sides in Python: y' = f(x, y), solved by the proved solver over a pipe (docs/OWN-RIGHT-SIDES.md).

    from cuzzimbra import solve
    run = solve(lambda x, y: [-y[0]], (0, 1), [1])
    print(run.status, run.end)

The solver is a process of its own, `replay`, which asks for derivatives and Jacobians and tells its steps (docs/transcript.md, kind 0).
Here its questions are answered by Python functions. What it says is taken as it is said: only its word Success means that the end
was reached, and a result has an `end` only then.
"""
import contextlib
import itertools
import math
import re
import struct
import sys

from beginning import begun, number, scales, tolerances
from replaying import Broken, Process

__all__ = ["solve", "Solver", "Result", "Step", "Unfinished", "Overflowed", "Refused", "NotFinite", "Broken"]
STATUSES = ("Success", "UserInterrupt", "NeedLargerNMax", "StepSizeTooSmall")
COUNTERS = ("total", "accepted", "rejected", "ode", "jac", "lu", "start")
REFUSALS = {
    1: "there are more than 32 components",
    4: "a sequence of tolerances has fewer entries than there are components",
    5: "a tolerance is below 0",
    6: "max_steps is 0",
    7: "max_steps is above 1,000,000 or newton_maxiter above 64",
    8: "first_step is 0",
}
END = re.compile(rb"E ([0-3]) [0-9A-F]{16}((?: [0-9]+){7})\n")
REFUSAL = re.compile(rb"R ([0-9]{1,3})(?: ([ra]) ([0-9]+))?((?: [0-9A-F]{16})*)\n")
MOST = 64  # components that the program reads; it refuses those above 32
HALF_DIGITS = math.sqrt(sys.float_info.epsilon)
TINY = 1e-290
HAIR = 16  # units in the last place


class Unfinished(RuntimeError):
    """The end was asked of a run that did not reach it. `status`, `x`: how and how far it came; `xend`: how far it should have."""

    def __init__(self, status, x, xend):
        super().__init__(status, x, xend)
        self.status, self.x, self.xend = status, x, xend

    def __str__(self):
        words = f"{self.status}: the run came to x = {self.x!r}, and xend is {self.xend!r}. The last state is NOT the end's"
        return words + self.advice()

    def advice(self):
        if self.status == "NeedLargerNMax":
            return "; the steps were used up: raise max_steps"
        if self.status == "StepSizeTooSmall" and self.x == self.xend:
            return "; x0 is xend, and there is no step to take"
        if self.x == self.xend:
            return "; it was stopped there"
        short = abs(self.xend - self.x) <= HAIR * max(abs(self.x), abs(self.xend)) * sys.float_info.epsilon
        if self.status == "StepSizeTooSmall" and short:
            return "; rounding stopped it a hair short: move xend a little, or give another first_step"
        return ""


class Overflowed(ArithmeticError):
    """The end was reached, but a value there is infinite or no number (docs/DIFFERENCES.md, 13)."""


class Refused(ValueError):
    """The solver refused to begin: `number` (docs/RULES.md), `words`, and the `values` that it told with it."""

    def __init__(self, number, values=()):
        super().__init__(number, values)
        self.number, self.values, self.words = number, tuple(values), REFUSALS.get(number, "docs/RULES.md says why")

    def __str__(self):
        told = f" ({', '.join(map(str, self.values))})" if self.values else ""
        return f"refused by number {self.number}: {self.words}{told}"


class NotFinite(ArithmeticError):
    """The right side or the Jacobian gave an infinity or NaN: nothing that follows from it could be believed."""


class Step:
    """One accepted step, from `start` to `x`, and the polynomial that belongs to it. Its coefficients are kept packed: 8 bytes each."""

    __slots__ = ("start", "x", "h", "n", "packed")

    def __init__(self, start, x, h, n, packed):
        self.start, self.x, self.h, self.n, self.packed = start, x, h, n, packed

    def at(self, x):
        """The state at x within the step, to the bit what the proved interpolation gives: the same operations in the same order."""
        if not min(self.start, self.x) <= x <= max(self.start, self.x):
            raise ValueError(f"x = {x!r} is not within the step from {self.start!r} to {self.x!r}")
        return interpolate(x, struct.unpack(f">{7 * self.n}d", self.packed), self.start, self.h)


def interpolate(xi, coefficients, start, h):
    """The polynomial of a step at xi (crates/interpolation/specs/Interpolate.antt). h is not 0 in any step that is told."""
    mark = coefficients[6]
    order = 0 if mark != mark else 1 + sum(mark >= bound for bound in (1.5, 2.5, 3.5, 4.5))
    new, products, product = start + h, [], 1.0
    for k in range(order):
        factor = (xi - (new - h * k)) / (h * (k + 1.0))
        product = product * factor if k else factor
        products.append(product)
    found = []
    for base in range(0, len(coefficients), 7):
        total = coefficients[base]
        for k, product in enumerate(products, base + 1):
            total += coefficients[k] * product
        found.append(total)
    return found


class Result:
    """How a run came out. `status`: Success, UserInterrupt, NeedLargerNMax or StepSizeTooSmall; `reached`: True for Success alone; `x` and `y`:
    where the steps ended, the start first, and the state at each; `xend`; `steps`, a Step for each x but the first; `counters`."""

    def __init__(self, x0, y0, xend):
        self.status, self.counters, self.xend = None, {}, xend
        self.x, self.y, self.steps = [x0], [list(y0)], []

    @property
    def reached(self):
        return self.status == "Success"

    @property
    def end(self):
        """The state at xend. A run that did not reach it has none, and raises Unfinished: so the last state cannot be taken for it."""
        if not self.reached:
            raise Unfinished(self.status, self.x[-1], self.xend)
        for i, value in enumerate(self.y[-1]):
            if not math.isfinite(value):
                raise Overflowed(f"Success, but y[{i}] is {value!r} at x = {self.x[-1]!r}: do not use these values")
        return list(self.y[-1])

    def at(self, x):
        """The state at any x that was computed; ValueError where x was not."""
        first, last = self.x[0], self.x[-1]
        sign = -1.0 if self.xend < first else 1.0
        if not self.steps and self.reached and not self.y[0]:
            last = self.xend  # without components there is nothing to compute on the way
        if not sign * first <= sign * x <= sign * last:
            raise ValueError(f"x = {x!r} was not computed: the run went from {first!r} to {last!r} ({self.status}, xend is {self.xend!r})")
        return list(self.y[0]) if x == first or not self.steps else self.step_to(x, sign).at(float(x))

    def step_to(self, x, sign):
        """The first step that comes to x."""
        low, high = 0, len(self.steps) - 1
        while low < high:
            middle = (low + high) // 2
            if sign * self.steps[middle].x < sign * x:
                low = middle + 1
            else:
                high = middle
        return self.steps[low]

    def __repr__(self):
        return f"<{self.status}: from x = {self.x[0]!r} to {self.x[-1]!r} in {len(self.steps)} steps; xend is {self.xend!r}>"


class Asked:
    """Answers the solver's questions in one run by the user's functions, and sees to it that each answer has its length and is finite."""

    def __init__(self, fun, jac, notice, n, scales):
        self.fun, self.notice, self.n, self.scales = fun, notice, n, scales
        constant = None if jac is None or callable(jac) else [numbers(row, "jac", None) for row in gone_through(jac)]
        self.jac = jac if constant is None else lambda x, y: constant
        self.calls = self.differences = 0
        self.refused = None
        self.last = None  # the last derivative that was asked: x, y, and what it was

    def derivative(self, x, y):
        found = self.slope(x, y)
        self.last = (x, y, found)
        return found

    def slope(self, x, y, moved=""):
        """fun at a point. It gets a list of its own, so that it may change it. `moved` says where the point is one of the differences'."""
        self.calls += 1
        found = numbers(self.fun(x, list(y)), "fun", x)
        if len(found) != self.n:
            raise ValueError(f"fun gave {len(found)} numbers at x = {x!r}{moved}, and {self.n} were wanted")
        finite(found, lambda i: f"fun gave {found[i]!r} for component {i} at x = {x!r}{moved}")
        return found

    def jacobian(self, x, y):
        """The Jacobian by rows, as one list."""
        if self.jac is None:
            return self.by_differences(x, y)
        rows = [numbers(row, "jac", x) for row in gone_through(self.jac(x, list(y)))]
        if len(rows) != self.n or any(len(row) != self.n for row in rows):
            lengths = sorted({len(row) for row in rows})
            words = f"jac gave {len(rows)} rows of {' or '.join(map(str, lengths)) or 'no'} numbers at x = {x!r}"
            raise ValueError(f"{words}, and {self.n} rows of {self.n} were wanted")
        found = list(itertools.chain(*rows))
        finite(found, lambda i: f"jac gave {found[i]!r} in row {i // self.n}, column {i % self.n} at x = {x!r}")
        return found

    def by_differences(self, x, y):
        """Forward differences: a call of fun for each component, and one at the point itself unless it was the last that was asked."""
        before = self.calls
        base = self.last[2] if self.last and self.last[:2] == (x, y) else self.slope(x, y)
        columns = []
        for j, scale in enumerate(self.scales):
            moved = list(y)
            size = max(abs(y[j]), scale)
            moved[j] += math.copysign(HALF_DIGITS * (size if size > TINY else 1.0), base[j])  # the way that the run goes
            width = moved[j] - y[j]  # what the addition made of it
            slopes = self.slope(x, moved, f", moved in component {j} for the Jacobian")
            columns.append([(new - old) / width for new, old in zip(slopes, base)])
        self.differences += self.calls - before
        found = list(itertools.chain(*zip(*columns)))
        finite(found, lambda i: f"the differences gave {found[i]!r} in row {i // self.n}, column {i % self.n} at x = {x!r}")
        return found

    def stops(self, x, y, step):
        """Whether the user's notice says True: numpy's True is meant as well, and nothing else that merely counts as true."""
        said = self.notice(x, list(y), step) if self.notice else None
        return said is True or (type(said).__name__ in ("bool_", "bool") and bool(said))


def numbers(values, who, x):
    """Whatever can be gone through, as floats; a number alone is a sequence of one."""
    alone = not hasattr(values, "__iter__") or not getattr(values, "ndim", 1)
    try:
        return [float(item) for item in ([values] if alone else values)]
    except (TypeError, ValueError, OverflowError):
        raise ValueError(f"{who} gave {values!r} at x = {x!r}: that is no row of numbers") from None


def gone_through(rows):
    """A matrix by its rows; a number alone is one of one row."""
    if hasattr(rows, "__iter__") and getattr(rows, "ndim", 1):
        return rows
    return [[rows]]


def finite(found, words):
    if not all(map(math.isfinite, found)):
        raise NotFinite(words(next(i for i, value in enumerate(found) if not math.isfinite(value))))


def solve(fun, span, y0, jac=None, rtol=1e-3, atol=1e-6, max_steps=100_000, first_step=None, notice=None, max_step=None,
          newton_maxiter=4, guarded=True, solver=None):
    """Solves y' = fun(x, y) from span[0] to span[1], beginning with y0, in the manner of SciPy's `solve_ivp`. Gives a Result.

    fun(x, y): the n derivatives, anything that can be gone through; y is a list of n floats. n is at most 32.
    jac(x, y): the Jacobian, n rows of n numbers; or such a matrix, where it is constant; or None. With None it is had by differences,
        which cost n more calls of fun for each Jacobian, and one more where the point is not the last that was asked: `counters` has them
        as `differences`. Their steps are sqrt(eps) * max(|y|, atol / rtol), the latter at most the largest of 1 and |y0|, and go the way of fun.
    rtol, atol: a number, or n numbers.  max_steps: attempts after which it gives up, at most 1,000,000.
    first_step: its size; None finds one.  max_step: the largest; None for the whole span.  newton_maxiter: at most 64.
    notice(x, y, step): is called at the start, with step None, and after each accepted step, with its Step; if it returns True, the run stops
        (UserInterrupt).
    guarded: an attempt whose error is no number is rejected (docs/USING.md). Without it the answers are the published Rust's in every case.
    solver: a Solver whose process is used; without one a process is started and ended.

    Raises Refused where the solver refuses to begin; ValueError where what is given, or what fun or jac return, has the wrong length or is no
    number; NotFinite where fun or jac give an infinity or NaN; Broken where the solver's process ends. What fun, jac or notice raise themselves
    is passed on. In each case the process is ended."""
    x0, xend = (number(end, "an end of span") for end in span)
    y0 = [number(value, "a value of y0") for value in y0]
    n, rtols, atols = len(y0), tolerances(rtol, len(y0), "rtol"), tolerances(atol, len(y0), "atol")
    if n > MOST:
        raise Refused(1)  # so many the program would not even read
    case = begun((x0, xend), y0, (rtols, atols), (max_steps, newton_maxiter), (max_step, first_step), guarded)
    asked = Asked(fun, jac, notice, n, scales(rtols, atols, y0))
    with contextlib.nullcontext(solver) if solver else Solver() as used:
        return used.converse(case, asked, Result(x0, y0, xend))


class Solver:
    """Keeps the solver's process for any number of runs, one after another: `with Solver() as solver: solver.solve(..)`.

    A run that raises ends the process, unless it was only refused; the next run then starts another."""

    def __init__(self, program=None):
        self.process, self.busy = Process(program), False

    def __enter__(self):
        return self

    def __exit__(self, *_):
        self.close()

    def close(self):
        self.process.close()

    def solve(self, *given, **named):
        """As the function `solve`."""
        return solve(*given, solver=self, **named)

    def converse(self, case, asked, result):
        """One run: the words that begin it, and a reply to each line until it is over."""
        if self.busy:
            raise RuntimeError("this Solver is in a run: a solve within fun, jac or notice wants a Solver of its own")
        self.busy = True
        try:
            self.process.start()
            self.process.send(case)
            reply = answered(self.process.line(), asked, result)
            while reply:
                self.process.send(reply)
                reply = answered(self.process.line(), asked, result)
        except BaseException:
            self.process.close()
            raise
        finally:
            self.busy = False
        if asked.refused:
            raise asked.refused
        return result


def answered(line, asked, result):
    """What to reply to a line of a run, as bytes; empty where the run is over. What it tells is added to the result."""
    kind = line[:2]
    if kind in (b"E ", b"R "):
        return over(line, asked, result)
    count = {b"D ": 1 + asked.n, b"J ": 1 + asked.n, b"I ": 1 + asked.n, b"S ": 4 + 8 * asked.n}.get(kind, 0)
    data = doubles(line, count)
    if kind == b"S ":
        return told(data, asked, result)
    x, *y = struct.unpack(f">{count}d", data)
    if kind == b"I ":
        return struct.pack(">Q", asked.stops(x, y, None))
    found = asked.derivative(x, y) if kind == b"D " else asked.jacobian(x, y)
    return struct.pack(f">{len(found)}d", *found)


def doubles(line, count):
    """So many doubles after a letter, packed."""
    try:
        data = bytes.fromhex(line[2:].decode("ascii"))
    except ValueError:
        data = b""
    if not data or len(data) != 8 * count:
        raise strange(line)
    return data


def strange(line):
    return Broken(f"the solver said what cannot be understood: {line[:60]!r}")


def told(data, asked, result):
    """A step: reported old x, new x, true start, h, the state, the coefficients."""
    _, x, start, h, *y = struct.unpack_from(f">{4 + asked.n}d", data)
    step = Step(start, x, h, asked.n, data[8 * (4 + asked.n) :])
    result.x.append(x)
    result.y.append(y)
    result.steps.append(step)
    return struct.pack(">Q", asked.stops(x, y, step))


def over(line, asked, result):
    """The end, or a refusal: nothing is to be replied."""
    ended, refused = END.fullmatch(line), REFUSAL.fullmatch(line)
    if ended:
        counts = dict(zip(COUNTERS, map(int, ended[2].split())))
        result.counters = {**counts, "differences": asked.differences, "fun": asked.calls}
        result.status = STATUSES[int(ended[1])]
    elif refused:
        number, which, index, values = refused.groups()
        place = [which.decode(), int(index)] if which else []
        data = bytes.fromhex(values.decode())
        asked.refused = Refused(int(number), place + list(struct.unpack(f">{len(data) // 8}d", data)))
    else:
        raise strange(line)
    return b""
