//! Safe calls of libvolmeixi.a: reordering of real Schur forms, and its parts.
//!
//! A form is n rows by n columns of f64, column after column: row i, column j stands at i + n × j.
//! Rows and columns count from 0; n is 1 to 64. A 2-block stands where the entry just below the
//! diagonal, at (j + 1, j), is not zero (a NaN is not zero, minus zero is); all other rows are
//! 1-blocks. A factor and vectors have the same layout. No number of a form is refused: NaN,
//! infinities and subnormals are worked with. A 2-block need not be standardised; [`block_values`]
//! and [`evd_from_real_schur`] read it as it stands, [`standardised_values`] a copy of it that is
//! standardised first.
//!
//! What a call gives back can be sent to any call again: after any moves and exchanges an accepted
//! form is still accepted, so that a later call is turned away for its own arguments alone. The
//! form and the results are the same with a factor of any content and with none.
//!
//! For a form in the corner of a larger array, [`View`] and [`ViewMut`] have the same calls with a
//! stride, where row i, column j stands at i + stride × j. One stride, n to 128, serves all buffers
//! of a call.
//!
//! ```
//! let mut t = [1.0, 0.0, 0.0, 0.0, 2.0, 0.0, 0.0, 0.0, 3.0];
//! let moved = volmeixi::reorder_schur(3, &mut t, None, 0, 2)?;
//! assert_eq!((moved.landed, moved.swaps, moved.declined), (2, 2, 0));
//! assert_eq!([t[0], t[4], t[8]], [2.0, 3.0, 1.0]);
//! # Ok::<(), volmeixi::Refusal>(())
//! ```

/// The examples of bindings/README.md.
#[cfg(doctest)]
#[doc = include_str!("../../README.md")]
mod readme {}

mod abi;
mod arithmetic;
mod blocks;
mod moves;
mod refusal;
mod small;
mod vectors;
mod view;

pub use arithmetic::{abs, abs1, abs2, fmax, fmin, hypot, mul_pow2, norm_l2, recip, sqrt};
pub use blocks::{Eigenvalues, Standardised, Sylvester, lahqr_schur22, lasy2};
pub use moves::{
    Exchanged, Moved, StoppingMove, reorder_schur, reorder_schur_list, reorder_schur_stopping, schur_swap,
};
pub use refusal::Refusal;
pub use small::{JacobiRotation, Reflection, RotationWith, adjoint, apply, make_householder_in_place, rotg};
pub use vectors::{block_values, column, evd_from_real_schur, standardised_values};
pub use view::{View, ViewMut};
