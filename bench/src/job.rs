//! job < JOB: a packed job that runs, by the Rust with the powers of docs/RULES.md put in, its lines printed as the job program prints
//! them: the other side of the job program's time. It judges no file.
use ivp_patched::dense::StepInterpolant;
use ivp_patched::ivp::FirstOrderSystem;
use ivp_patched::matrix::Matrix;
use ivp_patched::methods::BDF;
use ivp_patched::solout::{ControlFlag, SolOut};
use ivp_patched::status::Status;
use std::cell::Cell;
use std::io::{BufWriter, Read, Stdout, Write};

/// y' = A y, each sum from +0 upward by column. It counts how often it is asked, so that `start` can be printed: the Rust's `ode`
/// leaves the start's derivative out.
struct Linear {
    a: Vec<f64>,
    asked: Cell<usize>,
}

impl FirstOrderSystem for Linear {
    fn derivative(&self, _: f64, y: &[f64], dydx: &mut [f64]) {
        self.asked.set(self.asked.get() + 1);
        let n = y.len();
        for (i, d) in dydx.iter_mut().enumerate() {
            let mut sum = 0.0;
            for c in 0..n {
                sum += self.a[i * n + c] * y[c];
            }
            *d = sum;
        }
    }

    fn jac(&self, _: f64, _: &[f64], j: &mut Matrix) {
        j.data.copy_from_slice(&self.a);
    }
}

struct Lines(BufWriter<Stdout>);

impl Lines {
    /// The 16 digits of a double after a space; every NaN has one pattern.
    fn double(&mut self, x: f64) {
        let bits = if x.is_nan() { 0x7FF8_0000_0000_0000 } else { x.to_bits() };
        let mut text = [b' '; 17];
        for i in 0..16 {
            text[16 - i] = b"0123456789ABCDEF"[(bits >> (4 * i)) as usize & 15];
        }
        self.0.write_all(&text).unwrap();
    }
}

impl SolOut for Lines {
    fn solout(&mut self, _: f64, x: &mut f64, y: &mut [f64], interpolant: Option<&StepInterpolant<'_>>) -> ControlFlag {
        self.0.write_all(if interpolant.is_some() { b"S" } else { b"I" }).unwrap();
        self.double(*x);
        for &v in y.iter() {
            self.double(v);
        }
        self.0.write_all(b"\n").unwrap();
        ControlFlag::Continue
    }
}

fn main() {
    let mut bytes = vec![];
    std::io::stdin().read_to_end(&mut bytes).unwrap();
    let head = bytes[..5].iter().fold(0u64, |v, &b| v << 8 | b as u64);
    let (n, automatic) = ((head >> 34) as usize, head >> 6 & 1 == 1);
    let doubles: Vec<f64> = bytes[5..].chunks_exact(8).map(|c| f64::from_be_bytes(c.try_into().unwrap())).collect();
    let mut solver = BDF::default();
    solver.max_steps = (head >> 14 & 0xF_FFFF) as usize;
    solver.newton_maxiter = (head >> 7 & 0x7F) as usize;
    solver.first_step = (!automatic).then_some(doubles[2]);
    let mut lines = Lines(BufWriter::with_capacity(65_536, std::io::stdout()));
    let system = Linear { a: doubles[5 + n..].to_vec(), asked: Cell::new(0) };
    let done = solver.solve(&system, doubles[0], &doubles[5..5 + n], doubles[1], doubles[3].into(), doubles[4].into(), Some(&mut lines)).unwrap();
    let status = match done.status {
        Status::Success => 0,
        Status::UserInterrupt => 1,
        Status::NeedLargerNMax => 2,
        _ => 3,
    };
    write!(lines.0, "E {status}").unwrap();
    lines.double(done.h);
    let (steps, evals) = (done.steps, done.evals);
    let start = system.asked.get() - evals.ode;
    writeln!(lines.0, " {} {} {} {} {} {} {start}", steps.total, steps.accepted, steps.rejected, evals.ode, evals.jac, evals.lu).unwrap();
}
