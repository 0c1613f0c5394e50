//! The Rust's own functions, taken by build.rs and compiled as they stand, in modules that lay out
//! the names they use. Only what is written out here is ours.

#![allow(non_snake_case, unused_assignments)]

pub mod jacobi {
    use crate::arith;
    use crate::shim::*;
    include!(concat!(env!("OUT_DIR"), "/jacobi.rs"));

    impl<T: RealField> JacobiRotation<T> {
        /// Ours: the rotation of two whole columns.
        pub fn apply_on_the_right_in_place(&self, (mut x, mut y): (ColMut<'_, T>, ColMut<'_, T>)) {
            assert!(x.nrows() == y.nrows());
            let (c, s) = (self.c.to_f64(), self.s.to_f64());
            let turn = |x: &mut T, y: &mut T| {
                let (p, q) = arith::apply(c, s, x.to_f64(), y.to_f64());
                (*x, *y) = (T::from_f64(p), T::from_f64(q));
            };
            match (x.slice_mut(), y.slice_mut()) {
                (Some(x), Some(y)) => x.iter_mut().zip(y).for_each(|(x, y)| turn(x, y)),
                _ => (0..x.nrows()).for_each(|i| turn(&mut x[i], &mut y[i])),
            }
        }
    }
}

pub mod householder {
    use crate::shim::macros::{Zip, unzip, zip};
    use crate::shim::{RealField as ComplexField, *};
    include!(concat!(env!("OUT_DIR"), "/householder.rs"));
}

/// The small solve, the standardising and the four swaps.
pub mod leaves {
    use super::householder::*;
    use super::jacobi::JacobiRotation;
    use crate::shim::macros::{assert, stack_mat, unzip, z};
    use crate::shim::*;
    include!(concat!(env!("OUT_DIR"), "/leaves.rs"));
}

/// The exchange, over swaps that count their runs.
pub mod real_schur {
    use super::jacobi::JacobiRotation;
    use super::leaves::{self, lahqr_schur22};
    use crate::note;
    use crate::shim::*;
    include!(concat!(env!("OUT_DIR"), "/real_schur.rs"));

    macro_rules! counted {
        ($($name:ident)*) => { $(
            fn $name<T: RealField>(a: MatMut<'_, T>, q: Option<MatMut<'_, T>>, j0: usize) -> isize
            where
                for<'x> &'x T: Ops<T>,
            {
                note::swap();
                let info = leaves::$name(a, q, j0);
                if info != 0 {
                    note::decline();
                }
                info
            }
        )* };
    }
    counted!(schur_swap_11 schur_swap_12 schur_swap_21 schur_swap_22);
}

/// The move, and the block values as they are read there.
pub mod eigen {
    use super::schur;
    use crate::note;
    use crate::shim::macros::{Zip, assert, unzip, zip};
    use crate::shim::*;
    include!(concat!(env!("OUT_DIR"), "/eigen.rs"));
    include!(concat!(env!("OUT_DIR"), "/block_values.rs"));
}

pub mod evd {
    use crate::shim::macros::assert;
    use crate::shim::*;
    include!(concat!(env!("OUT_DIR"), "/evd.rs"));
}

/// The names by which the move reaches the exchange.
mod schur {
    pub use crate::shim::complex_schur;

    pub mod real_schur {
        use crate::note;
        use crate::shim::*;
        use crate::taken::real_schur;

        /// The exchange as the move and the callers reach it: notes a size 2 with a zero inside.
        pub fn schur_swap<T: RealField>(
            a: MatMut<'_, T>,
            q: Option<MatMut<'_, T>>,
            j0: usize,
            n1: usize,
            n2: usize,
        ) -> isize
        where
            for<'x> &'x T: Ops<T>,
        {
            let open = |j: usize, size: usize| size == 2 && a[(j + 1, j)] == zero();
            if open(j0, n1) || open(j0 + n1, n2) {
                note::split();
            }
            real_schur::schur_swap(a, q, j0, n1, n2)
        }
    }
}
pub use schur::real_schur::schur_swap;
