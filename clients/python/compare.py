#!/usr/bin/env python3
"""Problems that others published, put to this solver, and to SciPy's BDF where SciPy is there.

    compare.py              prints the page docs/PUBLISHED-PROBLEMS.md; without SciPy its columns are left out
    compare.py --write      saves it
    compare.py --quick      without the ring modulator, which takes a quarter of an hour
    compare.py references   makes references.json by SciPy's Radau (wants SciPy; some minutes)
    compare.py cost         measures what a question costs over the pipe
"""
import json
import math
import subprocess
import sys
import time
from pathlib import Path

sys.dont_write_bytecode = True
HERE = Path(__file__).resolve().parent
sys.path[:0] = [str(HERE)]

from cuzzimbra import Solver
from problems import PROBLEMS, REFERENCES, RING_MODULATOR, references

try:
    import scipy
    from scipy.integrate import solve_ivp
except ImportError:
    scipy = None

PAGE = HERE.parents[1] / "docs" / "PUBLISHED-PROBLEMS.md"
RTOLS = (1e-4, 1e-7, 1e-10)
FINEST = 1e-12  # of Radau; SciPy takes nothing finer than 2.3e-14
MOST_STEPS = 1_000_000
HEAD = """# Published problems

Made by `clients/python/compare.py`, the ring modulator's finest row by a run of its own. The problems are of Hairer and Wanner, Solving Ordinary Differential Equations II,
and of the Test Set for IVP Solvers; their equations and constants stand in `clients/python/problems.py`. Each is run by the Python client, and by
SciPy's BDF ({scipy}) at the same tolerances with the same Jacobian.

Digits: how many agree with the published end in the worst component, -log10 of the largest relative difference. Steps: the accepted ones.
Calls: of the right side, those of the start among them. `atol` is `rtol` times about the size of each component at the end:

"""
FOOT = """
The published ends were held against SciPy's Radau, an implicit Runge-Kutta method and no BDF, run on the same equations
(`clients/python/references.json`, which says how it was asked). So many digits agree in the worst component:

| problem | digits |
|---|---|
"""


def ours(problem, rtol):
    with Solver() as solver:
        run = solver.solve(problem.fun, problem.span, problem.y0, problem.jac, rtol, problem.atol(rtol), MOST_STEPS)
    digits = f"{problem.digits(run.end):.1f}" if run.reached else run.status
    return [digits, len(run.steps), run.counters["fun"], run.counters["jac"]]


def scipys(problem, rtol):
    if not scipy:
        return []
    run = solve_ivp(problem.fun, problem.span, problem.y0, method="BDF", jac=problem.jac, rtol=rtol, atol=problem.atol(rtol))
    digits = f"{problem.digits(run.y[:, -1].tolist()):.1f}" if run.success else "failed"
    return [digits, len(run.t) - 1, run.nfev, run.njev]


def page(problems):
    known = references()["ends"]
    text = HEAD.format(scipy=f"SciPy {scipy.__version__}" if scipy else "not run: SciPy is not there")
    text += "".join(f"- {problem.name}: from {problem.span[0]:g} to {problem.span[1]:.7g}, {sizes(problem)}\n" for problem in problems)
    columns = ["problem", "rtol", "digits", "steps", "calls", "Jacobians"]
    columns += ["SciPy: digits", "steps", "calls", "Jacobians"] if scipy else []
    text += "\n" + row(columns) + row(["---"] * len(columns))
    for problem in problems:
        for rtol in RTOLS:
            text += row([problem.name, f"{rtol:g}", *ours(problem, rtol), *scipys(problem, rtol)])
    held = "".join(row([problem.name, f"{problem.digits(known[problem.name]):.1f}"]) for problem in problems if problem.name in known)
    return text + FOOT + held


def sizes(problem):
    each = sorted(set(problem.sizes), key=problem.sizes.index)
    if len(each) == 1:
        return f"sizes {each[0]:g}"
    return "sizes " + ", ".join(f"{size:g} of {', '.join(f'y{i + 1}' for i, one in enumerate(problem.sizes) if one == size)}" for size in each)


def row(cells):
    return f"| {' | '.join(map(str, cells))} |\n"


def make_references(problems):
    """By a method of another kind, at tolerances finer than any that are compared."""
    if not scipy:
        raise SystemExit("the references are made by SciPy's Radau, and SciPy is not there")
    known = references() if REFERENCES.exists() else {"how": {}, "ends": {}}
    for problem in problems:
        rtol = 1e-8 if problem is RING_MODULATOR else FINEST  # which would take an hour there
        run = solve_ivp(problem.fun, problem.span, problem.y0, method="Radau", jac=problem.jac, rtol=rtol, atol=problem.atol(rtol))
        if not run.success:
            raise SystemExit(f"{problem.name}: Radau did not reach its end: {run.message}")
        words = f"SciPy {scipy.__version__}, solve_ivp, method Radau, the Jacobian of problems.py, rtol {rtol:g}, atol rtol times `sizes`"
        end = known["ends"][problem.name] = run.y[:, -1].tolist()
        how = known["how"][problem.name] = f"{words}: {run.message} {len(run.t) - 1} steps"
        print(f"{problem.name}: {how}, {problem.digits(end):.1f} digits as published", flush=True)
        REFERENCES.write_text(json.dumps(known, indent=1) + "\n", encoding="utf-8")


def cost():
    """Microseconds for a question or notice: a right side that costs nothing, so that the whole of the time is the solver's, the pipe's and the
    client's. Beside it the solver's alone, put to the same words from a file."""
    for n in (1, 4, 16, 32):
        slopes, jac, talked, alone = [0.0] * n, [[0.0] * n for _ in range(n)], math.inf, math.inf
        for _ in range(5):
            with Solver() as solver:
                sent, send = [], solver.process.send
                solver.process.send = lambda data: sent.append(data) or send(data)
                start = time.perf_counter()
                run = solver.solve(lambda x, y: slopes, (0, 1), [1.0] * n, jac=jac, first_step=2e-4, max_step=2e-4)
                talked = min(talked, time.perf_counter() - start)
            count = run.counters["fun"] + run.counters["jac"] + len(run.x)
            start = time.perf_counter()
            subprocess.run(solver.process.words, input=b"".join(sent), stdout=subprocess.DEVNULL, check=True)
            alone = min(alone, time.perf_counter() - start)
        print(f"n = {n}: {1e6 * talked / count:.1f} microseconds for a question; the solver alone {1e6 * alone / count:.1f}", flush=True)


def main(words):
    problems = [problem for problem in PROBLEMS if problem is not RING_MODULATOR or "--quick" not in words]
    if "references" in words:
        make_references(problems)
    elif "cost" in words:
        cost()
    elif "--write" in words:
        if scipy is None or "--quick" in words:
            raise SystemExit("the page is saved whole: with SciPy, and without --quick")
        PAGE.write_text(page(problems), encoding="utf-8")
    else:
        print(page(problems), end="")


if __name__ == "__main__":
    main(sys.argv[1:])
