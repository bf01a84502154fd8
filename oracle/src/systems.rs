//! The right-hand sides that runs are made of: circuits and the usual stiff problems, each with a beginning and a span.
use crate::random::Random;

pub enum System {
    /// y' = A y
    Linear { a: Vec<f64> },
    /// y' = -rate (y - cos x), each component a little faster
    Follower { rate: f64 },
    VanDerPol { mu: f64 },
    Robertson,
    /// a diode clipper: a capacitor charged through a resistor by a tone, two diodes across it
    Diode { tone: f64, level: f64 },
    /// a ladder filter of n stages with feedback
    Ladder { cutoff: f64, feedback: f64 },
    /// n / 2 cells in a row
    Brusselator { a: f64, b: f64, diffusion: f64 },
    /// y' = y^2: no solution beyond x = 1 / y0
    Blowup,
    /// a right side that jumps, so that Newton's method fails at the jump
    Relay { height: f64 },
    /// one slope, and from the turn on others, eighth by eighth of a step h, or wavering with y; each component has its share
    Brink { x0: f64, h: f64, turn: f64, before: f64, slopes: [f64; 4], shares: Vec<f64>, wavers: bool },
}

/// A system with its natural beginning.
pub struct Problem {
    pub system: System,
    pub x0: f64,
    pub xend: f64,
    pub y0: Vec<f64>,
}

impl Problem {
    pub fn random(random: &mut Random) -> Problem {
        let size = match random.below(20) {
            0 => 32,
            1..=3 => random.from_to(7, 16),
            _ => random.from_to(1, 6),
        };
        let problem = |system, xend, y0| Problem { system, x0: 0.0, xend, y0 };
        match random.below(10) {
            0 | 1 => linear(random, size),
            2 => problem(System::Follower { rate: random.decade(0.0, 6.0) }, random.decade(-1.0, 1.0), some(random, size)),
            3 => problem(System::VanDerPol { mu: random.decade(0.0, 4.0) }, random.decade(0.0, 3.0), vec![2.0, 0.0]),
            4 => problem(System::Robertson, random.decade(-2.0, 6.0), vec![1.0, 0.0, 0.0]),
            5 => problem(System::Diode { tone: random.decade(1.0, 3.5), level: random.decade(-1.0, 1.0) }, random.decade(-4.0, -1.5), vec![0.0]),
            6 => {
                let system = System::Ladder { cutoff: random.decade(2.0, 4.0), feedback: 4.5 * random.unit() };
                problem(system, random.decade(-4.0, -2.0), vec![0.0; size])
            }
            7 => {
                let cells = size.div_ceil(2).min(8);
                let y0 = (0..2 * cells).map(|_| 1.0 + random.unit()).collect();
                let system = System::Brusselator { a: 1.0, b: 1.0 + 3.0 * random.unit(), diffusion: random.decade(-3.0, 1.0) };
                problem(system, random.decade(0.0, 1.5), y0)
            }
            8 => problem(System::Blowup, 1.5, vec![1.0; size.min(3)]),
            _ => problem(System::Relay { height: random.decade(0.0, 4.0) }, random.decade(-1.0, 1.0), some(random, size.min(4))),
        }
    }
}

fn some(random: &mut Random, size: usize) -> Vec<f64> {
    (0..size).map(|_| random.signed()).collect()
}

fn linear(random: &mut Random, size: usize) -> Problem {
    let (decay, spread) = (random.decade(-1.0, 3.0), random.decade(-1.0, 1.0));
    let a = (0..size * size)
        .map(|i| match random.below(6) {
            0 => 0.0,
            _ if i / size == i % size => -decay * random.unit(),
            _ => spread * random.signed(),
        })
        .collect();
    let y0 = some(random, size);
    let length = random.decade(-1.0, 1.0);
    let (x0, xend) = match random.below(4) {
        0 => (random.signed(), random.signed()),
        1 => (length / 100.0, 0.0),
        _ => (0.0, length),
    };
    Problem { system: System::Linear { a }, x0, xend, y0 }
}

impl System {
    pub fn derivative(&self, x: f64, y: &[f64], dydx: &mut [f64]) {
        let n = y.len();
        match self {
            System::Linear { a } => {
                for r in 0..n {
                    let mut sum = 0.0;
                    for c in 0..n {
                        sum += a[r * n + c] * y[c];
                    }
                    dydx[r] = sum;
                }
            }
            System::Follower { rate } => {
                for i in 0..n {
                    dydx[i] = -rate * (1.0 + i as f64) * (y[i] - x.cos());
                }
            }
            System::VanDerPol { mu } => {
                dydx[0] = y[1];
                dydx[1] = mu * (1.0 - y[0] * y[0]) * y[1] - y[0];
            }
            System::Robertson => {
                dydx[0] = -0.04 * y[0] + 1e4 * y[1] * y[2];
                dydx[2] = 3e7 * y[1] * y[1];
                dydx[1] = -dydx[0] - dydx[2];
            }
            System::Diode { tone, level } => {
                let (resistance, capacity, saturation, thermal) = (2200.0, 1e-8, 2.52e-9, 0.04525);
                let driven = level * (tone * x * std::f64::consts::TAU).sin();
                dydx[0] = (driven - y[0]) / (resistance * capacity) - 2.0 * saturation / capacity * (y[0] / thermal).sinh();
            }
            System::Ladder { cutoff, feedback } => {
                let mut input = (440.0 * x * std::f64::consts::TAU).sin() - feedback * y[n - 1];
                for i in 0..n {
                    dydx[i] = cutoff * std::f64::consts::TAU * (input.tanh() - y[i].tanh());
                    input = y[i];
                }
            }
            System::Brusselator { a, b, diffusion } => {
                let cells = n / 2;
                for i in 0..cells {
                    let (left, right) = (if i == 0 { i } else { i - 1 }, if i + 1 == cells { i } else { i + 1 });
                    let (u, v) = (y[2 * i], y[2 * i + 1]);
                    let spread = |k: usize, own: f64| diffusion * (y[2 * left + k] - 2.0 * own + y[2 * right + k]);
                    dydx[2 * i] = a + u * u * v - (b + 1.0) * u + spread(0, u);
                    dydx[2 * i + 1] = b * u - u * u * v + spread(1, v);
                }
            }
            System::Blowup => {
                for i in 0..n {
                    dydx[i] = y[i] * y[i];
                }
            }
            System::Brink { x0, h, turn, before, slopes, shares, wavers } => {
                let beyond = (x - x0).abs() / h - turn;
                let place = if *wavers { y[0].to_bits() as usize % 4 } else { (8.0 * beyond).min(3.0) as usize };
                let slope = if beyond < 0.0 { *before } else { slopes[place] };
                for i in 0..n {
                    dydx[i] = shares[i] * slope;
                }
            }
            System::Relay { height } => {
                for i in 0..n {
                    dydx[i] = if y[i] > 0.0 { -height } else { *height } + y[(i + 1) % n];
                }
            }
        }
    }

    /// By rows: A itself, or a difference quotient of each column.
    pub fn jacobian(&self, x: f64, y: &[f64], rows: &mut [f64]) {
        if let System::Linear { a } = self {
            rows.copy_from_slice(a);
            return;
        }
        let n = y.len();
        let (mut moved, mut here, mut there) = (y.to_vec(), vec![0.0; n], vec![0.0; n]);
        self.derivative(x, y, &mut here);
        for c in 0..n {
            let shift = 1e-7 * y[c].abs().max(1e-3);
            moved[c] = y[c] + shift;
            self.derivative(x, &moved, &mut there);
            for r in 0..n {
                rows[r * n + c] = (there[r] - here[r]) / shift;
            }
            moved[c] = y[c];
        }
    }
}
