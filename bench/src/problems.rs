//! The problems of the table of runs, on the Rust's side: right sides of + - * / alone, in the order of problems.in.
pub enum Kind {
    Linear(Vec<f64>),
    /// Van der Pol's, by mu.
    Oscillator(f64),
    /// Four stages of diodes, by their rate.
    Ladder(f64),
}

pub struct Problem {
    pub what: String,
    pub kind: Kind,
    pub y0: Vec<f64>,
    pub xend: f64,
}

/// All of them. The matrix of a ladder of n stages: each stage's rate times what its neighbours drive through it.
pub fn all() -> Vec<Problem> {
    let mut problems: Vec<Problem> = [1, 4, 16, 32].map(ladder_of).into();
    problems.push(Problem { what: "Van der Pol, mu 1000, to 3000".into(), kind: Kind::Oscillator(1000.0), y0: vec![2.0, 0.0], xend: 3000.0 });
    problems.push(Problem { what: "diode ladder, 110 Hz, 1 s".into(), kind: Kind::Ladder(6283.0), y0: vec![0.0; 4], xend: 1.0 });
    problems
}

fn ladder_of(n: usize) -> Problem {
    let mut a = vec![0.0; n * n];
    for i in 0..n {
        let share = if n == 1 { 0.5 } else { i as f64 / (n - 1) as f64 };
        let rate = 50.0 * 1e4f64.powf(share);
        a[i * n + i] = if i + 1 == n { -rate } else { -2.0 * rate };
        if i > 0 {
            a[i * n + i - 1] = rate;
        }
        if i + 1 < n {
            a[i * n + i + 1] = rate;
        }
    }
    Problem { what: format!("y' = A y, ladder, n {n}"), kind: Kind::Linear(a), y0: vec![1.0; n], xend: 0.05 }
}

impl Problem {
    /// What problems.in is given after the count of times.
    pub fn words(&self, rtol: f64, atol: f64) -> Vec<u64> {
        let (number, parameter, a): (u64, f64, &[f64]) = match &self.kind {
            Kind::Linear(a) => (0, 0.0, a),
            Kind::Oscillator(mu) => (1, *mu, &[]),
            Kind::Ladder(rate) => (2, *rate, &[]),
        };
        let numbers = [&[0.0, self.xend, rtol, atol, parameter], &self.y0[..], a].concat();
        [number, self.y0.len() as u64].into_iter().chain(numbers.iter().map(|x| x.to_bits())).collect()
    }

    pub fn derivative(&self, x: f64, y: &[f64], dydx: &mut [f64]) {
        match &self.kind {
            Kind::Linear(a) => {
                let n = y.len();
                for r in 0..n {
                    let mut sum = 0.0;
                    for c in 0..n {
                        sum += a[r * n + c] * y[c];
                    }
                    dydx[r] = sum;
                }
            }
            Kind::Oscillator(mu) => {
                dydx[0] = y[1];
                dydx[1] = mu * (1.0 - y[0] * y[0]) * y[1] - y[0];
            }
            Kind::Ladder(w) => {
                let a = diode(LOUD * wave(x) - FEEDBACK * y[3] - y[0]);
                let b = diode(y[0] - y[1]);
                let c = diode(y[1] - y[2]);
                let d = diode(y[2] - y[3]);
                dydx[0] = w * (a - b);
                dydx[1] = w * (b - c);
                dydx[2] = w * (c - d);
                dydx[3] = w * (d - diode(y[3]));
            }
        }
    }

    pub fn jacobian(&self, x: f64, y: &[f64], j: &mut [f64]) {
        match &self.kind {
            Kind::Linear(a) => j.copy_from_slice(a),
            Kind::Oscillator(mu) => {
                j[0] = 0.0;
                j[1] = 1.0;
                j[2] = -2.0 * mu * y[0] * y[1] - 1.0;
                j[3] = mu * (1.0 - y[0] * y[0]);
            }
            Kind::Ladder(w) => {
                let a = slope(LOUD * wave(x) - FEEDBACK * y[3] - y[0]);
                let b = slope(y[0] - y[1]);
                let c = slope(y[1] - y[2]);
                let d = slope(y[2] - y[3]);
                j.fill(0.0);
                j[0] = w * (-a - b);
                j[1] = w * b;
                j[3] = w * (-FEEDBACK * a);
                j[4] = w * b;
                j[5] = w * (-b - c);
                j[6] = w * c;
                j[9] = w * c;
                j[10] = w * (-c - d);
                j[11] = w * d;
                j[14] = w * d;
                j[15] = w * (-d - slope(y[3]));
            }
        }
    }
}

const FEEDBACK: f64 = 4.0;
const LOUD: f64 = 5.0;

/// What a pair of diodes passes at v: near tanh.
fn diode(v: f64) -> f64 {
    v * (27.0 + v * v) / (27.0 + 9.0 * v * v)
}

fn slope(v: f64) -> f64 {
    let below = 27.0 + 9.0 * v * v;
    ((27.0 + 3.0 * v * v) * below - v * (27.0 + v * v) * (18.0 * v)) / (below * below)
}

/// Near a sine of 110 Hz; the great number rounds to the nearest whole one.
fn wave(x: f64) -> f64 {
    let periods = 110.0 * x;
    let r = periods - ((periods + 6755399441055744.0) - 6755399441055744.0);
    20.78 * r * (0.25 - r * r)
}

/// A packed job of some 10,000 steps: growth for n 1, otherwise n / 2 pairs that swing, each at its own speed and faintly joined.
pub fn long_job(n: usize, xend: f64, rtol: f64, random: &mut crate::random::Random) -> Vec<u8> {
    let mut a = vec![0.0; n * n];
    if n == 1 {
        a[0] = 1.0;
    } else {
        a.fill_with(|| 1e-3 * random.signed());
        for i in (0..n).step_by(2) {
            let speed = 1.0 + 0.3 * i as f64;
            a[i * n + i + 1] += speed;
            a[(i + 1) * n + i] -= speed;
        }
    }
    let head = (n as u64) << 34 | 1_000_000 << 14 | 4 << 7 | 1 << 6;
    let doubles = [&[0.0, xend, 0.0, rtol, 1e-12][..], &vec![1.0; n], &a].concat();
    let mut bytes = head.to_be_bytes()[3..].to_vec();
    bytes.extend(doubles.iter().flat_map(|x| x.to_be_bytes()));
    bytes
}
