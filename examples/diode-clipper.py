#!/usr/bin/env python3
"""A diode clipper: what makes the tone of an overdriven amplifier. `python3 examples/diode-clipper.py`, from the repository's root.

    input o---[ R ]---+-------+-------+---o output
                      |       |       |
                    =====   --|>|-- --|<|--     two diodes, one each way, from the output to the ground
                      C       |       |
                      +-------+-------+---o ground

    C dV/dt = (input - V) / R - 2 IS sinh(V / (N VT))

The diodes have their true exponential: a circuit's text, which is linear (docs/FOR-EDITORS.md), cannot say this one.
"""
import math
import sys
from pathlib import Path

sys.dont_write_bytecode = True
sys.path[:0] = [str(Path(__file__).resolve().parents[1] / "clients" / "python")]

from cuzzimbra import solve
from drawing import show

R = 2.2e3  # ohms
C = 10e-9  # farads
IS = 2.52e-9  # amperes: the saturation current of a 1N4148
N_VT = 1.752 * 25.85e-3  # volts: its ideality, times the thermal voltage at 27 degrees Celsius
AMPLITUDE = 4.5  # volts
FREQUENCY = 1000.0  # hertz
LENGTH = 3e-3  # seconds


def sine(t):
    return AMPLITUDE * math.sin(2 * math.pi * FREQUENCY * t)


def clipper(t, v):
    return [((sine(t) - v[0]) / R - 2 * IS * math.sinh(v[0] / N_VT)) / C]


def clipper_jac(t, v):
    return [[(-1 / R - 2 * IS / N_VT * math.cosh(v[0] / N_VT)) / C]]


if __name__ == "__main__":
    run = solve(clipper, (0, LENGTH), [0.0], jac=clipper_jac, rtol=1e-6, atol=1e-9)
    folder = sys.argv[1] if len(sys.argv) > 1 else None
    sys.exit(show(run, __file__, ["output"], "Diode clipper, a sine of 1 kHz and 4.5 V", "time in seconds, volts", {"input": sine}, folder))
