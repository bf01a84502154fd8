"""Problems that others published, each with its equations, its Jacobian, and a state at its end that is known from elsewhere.

Robertson, Van der Pol, HIRES and the ring modulator are in Hairer and Wanner, Solving Ordinary Differential Equations II, and in the
Test Set for IVP Solvers (Lioen, de Swart, Mazzia, Iavernaro); `published` has the end values that the latter prints. references.json
has those that SciPy's Radau gives for the equations as they stand here, and says how it was asked (compare.py makes it).
"""
import json
import math
from pathlib import Path

REFERENCES = Path(__file__).resolve().parent / "references.json"


class Problem:
    """`sizes`: about which size of each component matters; a run at rtol has rtol times this for its atol."""

    def __init__(self, name, fun, jac, span, y0, sizes, published):
        self.name, self.fun, self.jac, self.span, self.y0 = name, fun, jac, span, y0
        self.sizes, self.published = sizes, published

    def atol(self, rtol):
        return [rtol * size for size in self.sizes]

    def digits(self, y, reference=None):
        """How many digits agree in the worst component: -log10 of the largest relative difference."""
        pairs = list(zip(y, reference or self.published))
        if not all(math.isfinite(found) for found, _ in pairs):
            return -math.inf
        worst = max(abs(found - known) / abs(known) for found, known in pairs)
        return -math.log10(worst) if worst > 0 else math.inf


def references():
    with open(REFERENCES, encoding="utf-8") as file:
        return json.load(file)


# ---- Robertson: an autocatalytic reaction, of three speeds that are far apart


def robertson(_, y):
    slow, middle, fast = 0.04 * y[0], 1e4 * y[1] * y[2], 3e7 * y[1] * y[1]
    return [-slow + middle, slow - middle - fast, fast]


def robertson_jac(_, y):
    two, three, fast = 1e4 * y[1], 1e4 * y[2], 6e7 * y[1]
    return [[-0.04, three, two], [0.04, -three - fast, -two], [0.0, fast, 0.0]]


ROBERTSON = Problem(
    "Robertson",
    robertson,
    robertson_jac,
    (0.0, 1e11),
    [1.0, 0.0, 0.0],
    [1e-8, 1e-13, 1.0],
    [0.2083340149701255e-7, 0.8333360770334713e-13, 0.9999999791665050],
)

# ---- Van der Pol's oscillator with mu = 1000, in its own time. The Test Set prints it in the time x / mu, in which the second component is mu
# times the one here, at 2: y = 0.1706167732170483e1 and -0.8928097010247975.

MU = 1000.0


def van_der_pol(_, y):
    return [y[1], MU * (1.0 - y[0] * y[0]) * y[1] - y[0]]


def van_der_pol_jac(_, y):
    return [[0.0, 1.0], [-2.0 * MU * y[0] * y[1] - 1.0, MU * (1.0 - y[0] * y[0])]]


VAN_DER_POL = Problem(
    "Van der Pol, mu 1000",
    van_der_pol,
    van_der_pol_jac,
    (0.0, 2.0 * MU),
    [2.0, 0.0],
    [1.0, 1.0 / MU],
    [0.1706167732170483e1, -0.8928097010247975 / MU],
)

# ---- HIRES: how light steers the growth of plants, eight substances


def hires(_, y):
    light = 280.0 * y[5] * y[7]
    return [
        -1.71 * y[0] + 0.43 * y[1] + 8.32 * y[2] + 0.0007,
        1.71 * y[0] - 8.75 * y[1],
        -10.03 * y[2] + 0.43 * y[3] + 0.035 * y[4],
        8.32 * y[1] + 1.71 * y[2] - 1.12 * y[3],
        -1.745 * y[4] + 0.43 * y[5] + 0.43 * y[6],
        -light + 0.69 * y[3] + 1.71 * y[4] - 0.43 * y[5] + 0.69 * y[6],
        light - 1.81 * y[6],
        -light + 1.81 * y[6],
    ]


def hires_jac(_, y):
    six, eight = 280.0 * y[7], 280.0 * y[5]
    return [
        [-1.71, 0.43, 8.32, 0.0, 0.0, 0.0, 0.0, 0.0],
        [1.71, -8.75, 0.0, 0.0, 0.0, 0.0, 0.0, 0.0],
        [0.0, 0.0, -10.03, 0.43, 0.035, 0.0, 0.0, 0.0],
        [0.0, 8.32, 1.71, -1.12, 0.0, 0.0, 0.0, 0.0],
        [0.0, 0.0, 0.0, 0.0, -1.745, 0.43, 0.43, 0.0],
        [0.0, 0.0, 0.0, 0.69, 1.71, -six - 0.43, 0.69, -eight],
        [0.0, 0.0, 0.0, 0.0, 0.0, six, -1.81, eight],
        [0.0, 0.0, 0.0, 0.0, 0.0, -six, 1.81, -eight],
    ]


HIRES = Problem(
    "HIRES",
    hires,
    hires_jac,
    (0.0, 321.8122),
    [1.0, 0.0, 0.0, 0.0, 0.0, 0.0, 0.0, 0.0057],
    [1e-4] * 8,
    [
        0.7371312573325668e-3,
        0.1442485726316185e-3,
        0.5888729740967575e-4,
        0.1175651343283149e-2,
        0.2386356198831331e-2,
        0.6238968252742796e-2,
        0.2849998395185769e-2,
        0.2850001604814231e-2,
    ],
)

# ---- the ring modulator: four diodes in a ring, two transformers; it mixes a tone of 1 kHz with a carrier of 10 kHz. Volts, amperes, seconds; the
# stray capacitance CS makes it stiff, and makes it swing fast as well

C, CS, CP = 1.6e-8, 2e-12, 1e-8
LH, LS1, LS2, LS3 = 4.45, 0.002, 5e-4, 5e-4
R, RP, RC, RI, RG1, RG2, RG3 = 25000.0, 50.0, 600.0, 50.0, 36.3, 17.3, 17.3
GAMMA, DELTA = 40.67286402e-9, 17.7493332


def diode_voltages(x, y):
    carrier = 2.0 * math.sin(20000.0 * math.pi * x)
    return y[2] - y[4] - y[6] - carrier, -y[3] + y[5] - y[6] - carrier, y[3] + y[4] + y[6] + carrier, -y[2] - y[5] + y[6] + carrier


def ring_modulator(x, y):
    q1, q2, q3, q4 = (GAMMA * (math.exp(DELTA * voltage) - 1.0) for voltage in diode_voltages(x, y))
    tone = 0.5 * math.sin(2000.0 * math.pi * x)
    return [
        (y[7] - 0.5 * y[9] + 0.5 * y[10] + y[13] - y[0] / R) / C,
        (y[8] - 0.5 * y[11] + 0.5 * y[12] + y[14] - y[1] / R) / C,
        (y[9] - q1 + q4) / CS,
        (-y[10] + q2 - q3) / CS,
        (y[11] + q1 - q3) / CS,
        (-y[12] - q2 + q4) / CS,
        (-y[6] / RP + q1 + q2 - q3 - q4) / CP,
        -y[0] / LH,
        -y[1] / LH,
        (0.5 * y[0] - y[2] - RG2 * y[9]) / LS2,
        (-0.5 * y[0] + y[3] - RG3 * y[10]) / LS3,
        (0.5 * y[1] - y[4] - RG2 * y[11]) / LS2,
        (-0.5 * y[1] + y[5] - RG3 * y[12]) / LS3,
        (-y[0] + tone - (RI + RG1) * y[13]) / LS1,
        (-y[1] - (RC + RG1) * y[14]) / LS1,
    ]


# Row, column and value of what is constant in the Jacobian; then for each diode by which components its voltage moves, and the rows that its
# current is in.
CONSTANT = (
    (0, 0, -1 / R / C), (0, 7, 1 / C), (0, 9, -0.5 / C), (0, 10, 0.5 / C), (0, 13, 1 / C),
    (1, 1, -1 / R / C), (1, 8, 1 / C), (1, 11, -0.5 / C), (1, 12, 0.5 / C), (1, 14, 1 / C),
    (2, 9, 1 / CS), (3, 10, -1 / CS), (4, 11, 1 / CS), (5, 12, -1 / CS), (6, 6, -1 / RP / CP), (7, 0, -1 / LH), (8, 1, -1 / LH),
    (9, 0, 0.5 / LS2), (9, 2, -1 / LS2), (9, 9, -RG2 / LS2), (10, 0, -0.5 / LS3), (10, 3, 1 / LS3), (10, 10, -RG3 / LS3),
    (11, 1, 0.5 / LS2), (11, 4, -1 / LS2), (11, 11, -RG2 / LS2), (12, 1, -0.5 / LS3), (12, 5, 1 / LS3), (12, 12, -RG3 / LS3),
    (13, 0, -1 / LS1), (13, 13, -(RI + RG1) / LS1), (14, 1, -1 / LS1), (14, 14, -(RC + RG1) / LS1),
)
DIODES = (
    (((2, 1), (4, -1), (6, -1)), ((2, -1 / CS), (4, 1 / CS), (6, 1 / CP))),
    (((3, -1), (5, 1), (6, -1)), ((3, 1 / CS), (5, -1 / CS), (6, 1 / CP))),
    (((3, 1), (4, 1), (6, 1)), ((3, -1 / CS), (4, -1 / CS), (6, -1 / CP))),
    (((2, -1), (5, -1), (6, 1)), ((2, 1 / CS), (5, 1 / CS), (6, -1 / CP))),
)


def ring_modulator_jac(x, y):
    rows = [[0.0] * 15 for _ in range(15)]
    for row, column, value in CONSTANT:
        rows[row][column] = value
    for voltage, (moves, currents) in zip(diode_voltages(x, y), DIODES):
        slope = GAMMA * DELTA * math.exp(DELTA * voltage)
        for row, part in currents:
            for column, sign in moves:
                rows[row][column] += part * sign * slope
    return rows


RING_MODULATOR = Problem(
    "ring modulator",
    ring_modulator,
    ring_modulator_jac,
    (0.0, 1e-3),
    [0.0] * 15,
    [1e-2] * 7 + [1e-6] * 2 + [1e-4] * 6,
    [
        -0.2339057358486745e-1,
        -0.7367485485540825e-2,
        0.2582956709291169,
        -0.4064465721283450,
        -0.4039455665149794,
        0.2607966765422943,
        0.1106761861269975,
        0.2939904342435596e-6,
        -0.2840029933642329e-7,
        0.7267198267264553e-3,
        0.7929487196960840e-3,
        -0.7255283495698965e-3,
        -0.7941401968526521e-3,
        0.7088495416976114e-4,
        0.2390059075236570e-4,
    ],
)

PROBLEMS = (ROBERTSON, VAN_DER_POL, HIRES, RING_MODULATOR)
