//! The Rust's side: the published library as it is (`ivp`), and for whole runs also with the powers of docs/RULES.md put in.
use crate::problems::Problem;
use ivp::matrix::{Matrix, lin_solve, lu_decomp};
use ivp::methods::BDF;
use std::hint::black_box;

pub fn factors(a: &[f64], n: usize) -> (Matrix, Vec<usize>) {
    let mut matrix = Matrix::from_vec(n, n, a.to_vec());
    let mut ip = vec![0; n];
    lu_decomp(&mut matrix, &mut ip).unwrap();
    (matrix, ip)
}

thread_local! {
    /// Kept between calls, so that no allocation is timed: ours is lent its slices too.
    static ROOM: std::cell::RefCell<(Matrix, Vec<usize>, Vec<f64>)> = std::cell::RefCell::new((Matrix::zeros(32, 32), vec![0; 32], vec![0.0; 32]));
}

/// Copies and factors; the last diagonal element.
pub fn factor(a: &[f64], n: usize) -> f64 {
    ROOM.with_borrow_mut(|(matrix, ip, _)| {
        if matrix.n != n {
            *matrix = Matrix::zeros(n, n);
        }
        matrix.data.copy_from_slice(black_box(a));
        lu_decomp(matrix, &mut ip[..n]).unwrap();
        matrix.data[n * n - 1]
    })
}

/// Copies and solves; the first component.
pub fn solve(lu: &Matrix, b: &[f64], ip: &[usize]) -> f64 {
    ROOM.with_borrow_mut(|(_, _, x)| {
        x[..b.len()].copy_from_slice(black_box(b));
        lin_solve(lu, &mut x[..b.len()], ip);
        x[0]
    })
}

pub fn interpolate(xi: f64, cont: &[f64], xold: f64, h: f64, n: usize) -> f64 {
    ROOM.with_borrow_mut(|(_, _, yi)| {
        BDF::interpolate(black_box(xi), &mut yi[..n], black_box(cont), xold, h);
        yi[n - 1]
    })
}

/// The Rust's own rescaling, which is private there: the published functions as oracle/build takes them out.
mod private {
    type Float = f64;
    const MAX_ORDER: usize = 5;
    include!("../../target/oracle/compute_r.rs");
    include!("../../target/oracle/matmul.rs");
    include!("../../target/oracle/change_d.rs");

    thread_local! {
        static D: std::cell::RefCell<[Vec<Vec<f64>>; 2]> = const { std::cell::RefCell::new([vec![], vec![]]) };
    }

    /// Copies and rescales; the last component of the last row.
    pub fn rescale(rows: &[Vec<f64>], factor: f64) -> f64 {
        D.with_borrow_mut(|[d, scratch]| {
            if d.len() != rows.len() || d[0].len() != rows[0].len() {
                (*d, *scratch) = (rows.to_vec(), rows.to_vec());
            }
            d.iter_mut().zip(std::hint::black_box(rows)).for_each(|(to, from)| to.copy_from_slice(from));
            change_d(d, rows.len() - 1, factor, scratch);
            d[rows.len() - 1][rows[0].len() - 1]
        })
    }
}
pub use private::rescale;

/// What a run came to: its attempts, the sum of the first component over the steps that it told, and where it was asked for the
/// state at the last of them.
pub struct Done {
    pub attempts: u64,
    pub sum: f64,
    pub last: Vec<f64>,
}

/// A run of a problem by one build of the library, with an automatic start; `keeps` asks for the last state.
macro_rules! run_by {
    ($name:ident, $ivp:ident) => {
        pub fn $name(problem: &Problem, rtol: f64, atol: f64, keeps: bool) -> Done {
            use $ivp::{dense::StepInterpolant, ivp::FirstOrderSystem, matrix::Matrix, methods::BDF, solout::ControlFlag, solout::SolOut};

            struct System<'a>(&'a Problem);
            impl FirstOrderSystem for System<'_> {
                fn derivative(&self, x: f64, y: &[f64], dydx: &mut [f64]) {
                    self.0.derivative(x, y, dydx);
                }

                fn jac(&self, x: f64, y: &[f64], j: &mut Matrix) {
                    self.0.jacobian(x, y, &mut j.data);
                }
            }

            struct Sum {
                keeps: bool,
                sum: f64,
                last: Vec<f64>,
            }
            impl SolOut for Sum {
                fn solout(&mut self, _: f64, _: &mut f64, y: &mut [f64], interpolant: Option<&StepInterpolant<'_>>) -> ControlFlag {
                    if interpolant.is_some() {
                        self.sum += y[0];
                        if self.keeps {
                            self.last = y.to_vec();
                        }
                    }
                    ControlFlag::Continue
                }
            }

            let mut told = Sum { keeps, sum: 0.0, last: vec![] };
            let done = BDF::default().solve(&System(problem), 0.0, &problem.y0, problem.xend, rtol.into(), atol.into(), Some(&mut told)).unwrap();
            Done { attempts: done.steps.total as u64, sum: told.sum, last: told.last }
        }
    };
}

run_by!(unaltered, ivp);
run_by!(patched, ivp_patched);
