//! Stands in for the absent src/solve.rs: the names that lib.rs re-exports, and nothing behind them.
pub struct FirstOrderIvp;
pub struct HamiltonianIvp;
pub struct Ivp;
pub struct JacobianSource;
pub struct Method;
pub struct SecondOrderIvp;
pub struct Solution;
