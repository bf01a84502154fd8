//! Stands in for the absent src/ivp.rs: the system as the caller gives it. There is no default Jacobian.
use crate::{Float, matrix::Matrix};

pub trait FirstOrderSystem {
    fn derivative(&self, x: Float, y: &[Float], dydx: &mut [Float]);
    fn jac(&self, x: Float, y: &[Float], j: &mut Matrix);
}
