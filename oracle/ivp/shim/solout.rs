//! Stands in for the absent src/solout.rs: what is told at the start and after each accepted step.
use crate::{Float, dense::StepInterpolant};

pub enum ControlFlag {
    Continue,
    Interrupt,
    ModifiedSolution,
    XOut(Float),
}

pub trait SolOut {
    fn solout(
        &mut self,
        xold: Float,
        x: &mut Float,
        y: &mut [Float],
        interpolant: Option<&StepInterpolant<'_>>,
    ) -> ControlFlag;
}
