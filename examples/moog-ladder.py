#!/usr/bin/env python3
"""Moog's transistor ladder: four stages, each a pair of transistors and a capacitor, and the last one fed back to the first.
`python3 examples/moog-ladder.py`, from the repository's root.

    dV1/dt = I / (2 C) (tanh((input - K V4) / (2 VT)) - tanh(V1 / (2 VT)))
    dVi/dt = I / (2 C) (tanh(V(i-1) / (2 VT))         - tanh(Vi / (2 VT)))     i = 2, 3, 4

Vi is the voltage across the capacitor of stage i. For small voltages each stage is a low pass at I / (8 pi C VT), here 1 kHz; from K = 4 on it
sounds by itself. The tanh of the transistor pairs is kept: it is what bounds the resonance.
"""
import math
import sys
from pathlib import Path

sys.dont_write_bytecode = True
sys.path[:0] = [str(Path(__file__).resolve().parents[1] / "clients" / "python")]

from cuzzimbra import solve
from drawing import show

C = 68e-9  # farads
VT = 25.85e-3  # volts: the thermal voltage at 27 degrees Celsius
CUTOFF = 1000.0  # hertz
I = 8 * math.pi * C * VT * CUTOFF  # amperes: the control current, some 44 microamperes
K = 3.6  # the resonance
AMPLITUDE = 0.05  # volts
FREQUENCY = 110.0  # hertz
OVERTONES = 12
LENGTH = 0.03  # seconds


def saw(t):
    """A saw's first overtones: a saw itself jumps, and no solver steps over a jump unharmed."""
    return AMPLITUDE * sum(math.sin(2 * math.pi * FREQUENCY * k * t) / k for k in range(1, OVERTONES + 1))


def ladder(t, v):
    driven = [saw(t) - K * v[3], *v]
    bent = [math.tanh(voltage / (2 * VT)) for voltage in driven]
    return [I / (2 * C) * (bent[i] - bent[i + 1]) for i in range(4)]


def ladder_jac(t, v):
    """The slope of tanh is 1 - tanh squared."""
    driven = [saw(t) - K * v[3], *v]
    slopes = [I / (4 * C * VT) * (1 - math.tanh(voltage / (2 * VT)) ** 2) for voltage in driven]
    rows = [[0.0] * 4 for _ in range(4)]
    rows[0][3] = -K * slopes[0]
    for i in range(4):
        rows[i][i] -= slopes[i + 1]
        if i:
            rows[i][i - 1] = slopes[i]
    return rows


if __name__ == "__main__":
    run = solve(ladder, (0, LENGTH), [0.0] * 4, jac=ladder_jac, rtol=1e-6, atol=1e-9)
    names = ["stage 1", "stage 2", "stage 3", "stage 4"]
    folder = sys.argv[1] if len(sys.argv) > 1 else None
    sys.exit(show(run, __file__, names, "Moog ladder at 1 kHz, resonance 3.6, a saw of 110 Hz", "time in seconds, volts", folder=folder))
