//! Kind 0, a run: the Rust's `solve` with every question and notice written down as it comes.
use crate::GUARDED;
use crate::config::{Config, first_entries};
use crate::words::{Stream, Unfit, hex, push_doubles};
use ivp::dense::StepInterpolant;
use ivp::ivp::FirstOrderSystem;
use ivp::matrix::Matrix;
use ivp::methods::IntegrationResult;
use ivp::solout::{ControlFlag, SolOut};
use ivp::status::Status;
use std::cell::RefCell;
use std::panic::{AssertUnwindSafe, catch_unwind, resume_unwind};
use std::process::exit;

pub enum Told {
    Continue,
    Interrupt,
    Modified(f64, Vec<f64>),
}

/// Whoever answers a run's questions.
pub trait Replies {
    fn derivative(&mut self, x: f64, y: &[f64], dydx: &mut [f64]);
    fn jacobian(&mut self, x: f64, y: &[f64], rows: &mut [f64]);
    fn told(&mut self, x: f64, y: &[f64]) -> Told;
}

/// One run between `solve` and whoever replies. `solve` lends the system shared and the listener alone, so both are one cell.
struct Exchange<'a> {
    replies: &'a mut dyn Replies,
    text: &'a mut String,
    /// how many derivatives `solve` has asked
    derivatives: usize,
}

struct System<'a, 'b>(&'a RefCell<Exchange<'b>>);
struct Listener<'a, 'b>(&'a RefCell<Exchange<'b>>);

impl Exchange<'_> {
    fn line(&mut self, head: String, y: &[f64], cont: &[f64]) {
        *self.text += &head;
        push_doubles(self.text, y);
        push_doubles(self.text, cont);
        self.text.push('\n');
    }
}

impl FirstOrderSystem for System<'_, '_> {
    fn derivative(&self, x: f64, y: &[f64], dydx: &mut [f64]) {
        let exchange = &mut *self.0.borrow_mut();
        exchange.derivatives += 1;
        exchange.line(format!("D {}", hex(x)), y, &[]);
        exchange.replies.derivative(x, y, dydx);
    }

    fn jac(&self, x: f64, y: &[f64], j: &mut Matrix) {
        let exchange = &mut *self.0.borrow_mut();
        exchange.line(format!("J {}", hex(x)), y, &[]);
        exchange.replies.jacobian(x, y, &mut j.data);
    }
}

impl SolOut for Listener<'_, '_> {
    fn solout(&mut self, xold: f64, x: &mut f64, y: &mut [f64], interpolant: Option<&StepInterpolant<'_>>) -> ControlFlag {
        let exchange = &mut *self.0.borrow_mut();
        match interpolant {
            None => exchange.line(format!("I {}", hex(*x)), y, &[]),
            Some(interpolant) => {
                let (start, h) = interpolant.step_params();
                let head = format!("S {} {} {} {}", hex(xold), hex(*x), hex(start), hex(h));
                exchange.line(head, y, &interpolant.to_segment().cont);
            }
        }
        match exchange.replies.told(*x, y) {
            Told::Continue => ControlFlag::Continue,
            Told::Interrupt => ControlFlag::Interrupt,
            Told::Modified(new_x, new_y) => {
                *x = new_x;
                y.copy_from_slice(&new_y);
                ControlFlag::ModifiedSolution
            }
        }
    }
}

/// The whole run, its lines added to the text as they come: what was asked before an unwinding stays.
pub fn run(config: &Config, replies: &mut dyn Replies, text: &mut String) {
    if config.guarded != GUARDED {
        let (setting, other) = if GUARDED { ("guarded", "oracle") } else { ("unguarded", "oracle-guarded") };
        eprintln!("oracle: this oracle answers {setting} runs alone: use {other}");
        exit(2)
    }
    if let Some(line) = config.refused_before() {
        *text += &line;
        text.push('\n');
        return;
    }
    let mut solver = config.solver();
    let mut nothing = Nothing;
    let mut dropped = String::new();
    // Where 7 or 8 holds, `solve` is run to its own 8, and what it asked on the way is dropped.
    let late = config.refused_late();
    if late {
        solver.first_step = config.first_step.filter(|&h| h == 0.0).or(Some(0.0));
    }
    let exchange = RefCell::new(match late {
        true => Exchange { replies: &mut nothing, text: &mut dropped, derivatives: 0 },
        false => Exchange { replies, text: &mut *text, derivatives: 0 },
    });
    let n = config.y0.len();
    let (rtol, atol) = (first_entries(&config.rtol, n), first_entries(&config.atol, n));
    let result = solver.solve(&System(&exchange), config.x0, &config.y0, config.xend, rtol, atol, Some(&mut Listener(&exchange)));
    let asked = exchange.into_inner().derivatives;
    *text += &match result {
        Ok(result) => end_line(&result, asked),
        Err(error) => config.refusal(error),
    };
    text.push('\n');
}

/// Last comes `start`, for which the Rust has no counter: the derivatives that it asked beyond those that it counts.
fn end_line(result: &IntegrationResult, asked: usize) -> String {
    let status = match result.status {
        Status::Success => 0,
        Status::UserInterrupt => 1,
        Status::NeedLargerNMax => 2,
        Status::StepSizeTooSmall => 3,
        _ => unreachable!(),
    };
    let (steps, evals) = (&result.steps, &result.evals);
    let counts = [steps.total, steps.accepted, steps.rejected, evals.ode, evals.jac, evals.lu, asked - evals.ode];
    let counts = counts.map(|count| count.to_string()).join(" ");
    format!("E {status} {} {counts}", hex(result.h))
}

struct Nothing;

impl Replies for Nothing {
    fn derivative(&mut self, _: f64, _: &[f64], _: &mut [f64]) {}
    fn jacobian(&mut self, _: f64, _: &[f64], _: &mut [f64]) {}
    fn told(&mut self, _: f64, _: &[f64]) -> Told {
        Told::Continue
    }
}

/// Replies that stand in the stream after the configuration.
impl Replies for Stream {
    fn derivative(&mut self, _: f64, _: &[f64], dydx: &mut [f64]) {
        read_into(self, dydx);
    }

    fn jacobian(&mut self, _: f64, _: &[f64], rows: &mut [f64]) {
        read_into(self, rows);
    }

    fn told(&mut self, _: f64, y: &[f64]) -> Told {
        match self.word().unwrap_or_else(|unfit| leave(unfit)) {
            0 => Told::Continue,
            1 => Told::Interrupt,
            2 => {
                let x = self.double().unwrap_or_else(|unfit| leave(unfit));
                Told::Modified(x, self.doubles(y.len()).unwrap_or_else(|unfit| leave(unfit)))
            }
            _ => leave(Unfit),
        }
    }
}

fn read_into(stream: &mut Stream, places: &mut [f64]) {
    for place in places {
        *place = stream.double().unwrap_or_else(|unfit| leave(unfit));
    }
}

/// Out of `solve` from inside a reply: the stream has ended there.
fn leave(unfit: Unfit) -> ! {
    resume_unwind(Box::new(unfit))
}

/// The lines of a recorded run.
pub fn answer_run(stream: &mut Stream, text: &mut String) -> Result<(), Unfit> {
    let config = Config::read(stream)?;
    catch_unwind(AssertUnwindSafe(|| run(&config, stream, text))).map_err(|cause| match cause.downcast::<Unfit>() {
        Ok(unfit) => *unfit,
        Err(fault) => resume_unwind(fault),
    })
}
