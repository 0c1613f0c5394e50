//! Functions and types that the Rust's text names by path.

use super::field::*;
use super::view::*;
use crate::arith;

/// How a product is stored; the base takes no product of matrices.
pub enum Accum {
    Add,
}

pub enum Conj {
    No,
}

#[derive(Clone, Copy)]
pub enum Par {
    Seq,
}
impl Par {
    pub fn degree(&self) -> usize {
        1
    }
}

#[derive(Clone, Copy)]
pub struct EvdFromSchurParams {
    pub recursion_threshold: usize,
}

/// A complex number as `partial_schur_real_imp` writes it.
#[derive(Clone, Copy)]
pub struct Complex<T> {
    pub re: T,
    pub im: T,
}
impl<T> Complex<T> {
    pub fn new(re: T, im: T) -> Self {
        Complex { re, im }
    }
}

/// The rows of a form in their order, up to the most there can be.
pub static ROWS: [usize; 64] = {
    let mut rows = [0; 64];
    let mut i = 0;
    while i < rows.len() {
        rows[i] = i;
        i += 1;
    }
    rows
};

pub mod perm {
    use super::*;

    pub fn swap_rows_idx<T>(mut a: MatMut<'_, T>, i: usize, k: usize) {
        for j in 0..a.ncols() {
            a.swap((i, j), (k, j));
        }
    }

    pub fn swap_cols_idx<T>(mut a: MatMut<'_, T>, j: usize, k: usize) {
        for i in 0..a.nrows() {
            a.swap((i, j), (i, k));
        }
    }
}

pub mod linalg {
    pub mod matmul {
        use super::super::*;

        pub mod dot {
            use super::super::super::*;

            pub fn inner_prod<T: RealField>(x: RowRef<'_, T>, _: Conj, y: ColRef<'_, T>, _: Conj) -> T {
                assert!(x.ncols() == y.nrows());
                T::from_f64(arith::inner_prod((0..y.nrows()).map(|i| (x[i].to_f64(), y[i].to_f64()))))
            }
        }

        /// Only the split branch of the solvers takes a product; the base never takes that branch.
        pub fn matmul<T: RealField>(_: MatMut<'_, T>, _: Accum, _: MatRef<'_, T>, _: MatRef<'_, T>, _: T, _: Par) {
            unreachable!("the plain branch of the solvers is always taken");
        }
    }
}

pub mod complex_schur {
    use super::*;

    /// The complex exchange is not ported.
    pub fn schur_swap<T: ComplexField>(_: MatMut<'_, T>, _: Option<MatMut<'_, T>>, _: usize) -> isize {
        unreachable!("only real forms are exchanged");
    }
}
