//! Stands in for the absent src/matrix/mod.rs: the modules, and a full matrix's entries by rows.
mod base;
mod linear;
mod lu;

pub use base::{Matrix, MatrixStorage};
pub use linear::lin_solve;
pub use lu::lu_decomp;

use crate::Float;
use std::ops::{Index, IndexMut};

impl Index<(usize, usize)> for Matrix {
    type Output = Float;

    #[inline]
    fn index(&self, (row, column): (usize, usize)) -> &Float {
        &self.data[row * self.m + column]
    }
}

impl IndexMut<(usize, usize)> for Matrix {
    #[inline]
    fn index_mut(&mut self, (row, column): (usize, usize)) -> &mut Float {
        &mut self.data[row * self.m + column]
    }
}
