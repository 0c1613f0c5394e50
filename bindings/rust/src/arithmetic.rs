//! Arithmetic: nothing is turned away.

use crate::abi;

/// The magnitude.
///
/// ```
/// assert_eq!(volmeixi::abs(-3.0), 3.0);
/// ```
pub fn abs(x: f64) -> f64 {
    unsafe { abi::vx_abs(x) }
}

/// The same, under the name that faer has for it.
///
/// ```
/// assert_eq!(volmeixi::abs1(-3.0), 3.0);
/// ```
pub fn abs1(x: f64) -> f64 {
    unsafe { abi::vx_abs1(x) }
}

/// x × x.
///
/// ```
/// assert_eq!(volmeixi::abs2(-3.0), 9.0);
/// ```
pub fn abs2(x: f64) -> f64 {
    unsafe { abi::vx_abs2(x) }
}

/// 1 / x.
///
/// ```
/// assert_eq!(volmeixi::recip(4.0), 0.25);
/// ```
pub fn recip(x: f64) -> f64 {
    unsafe { abi::vx_recip(x) }
}

/// x × p.
///
/// ```
/// assert_eq!(volmeixi::mul_pow2(3.0, 0.5), 1.5);
/// ```
pub fn mul_pow2(x: f64, p: f64) -> f64 {
    unsafe { abi::vx_mul_pow2(x, p) }
}

/// p where p > q or q is a NaN, else q.
///
/// ```
/// assert_eq!(volmeixi::fmax(1.0, f64::NAN), 1.0);
/// ```
pub fn fmax(p: f64, q: f64) -> f64 {
    unsafe { abi::vx_fmax(p, q) }
}

/// p where p < q or q is a NaN, else q.
///
/// ```
/// assert_eq!(volmeixi::fmin(1.0, 2.0), 1.0);
/// ```
pub fn fmin(p: f64, q: f64) -> f64 {
    unsafe { abi::vx_fmin(p, q) }
}

/// The square root of IEEE 754: NaN of a NaN or a number below zero; zeros and plus infinity give
/// themselves; all else gives the nearest f64.
///
/// ```
/// assert_eq!(volmeixi::sqrt(4.0), 2.0);
/// assert!(volmeixi::sqrt(-1.0).is_nan());
/// ```
pub fn sqrt(x: f64) -> f64 {
    unsafe { abi::vx_sqrt(x) }
}

/// Infinity if either is infinite; else NaN if either is; else the f64 nearest to the exact root of
/// p × p + q × q, ties to even: +0 of two zeros, infinity where the root is at least
/// (2^54 - 1) × 2^970.
///
/// ```
/// assert_eq!(volmeixi::hypot(3.0, 4.0), 5.0);
/// ```
pub fn hypot(p: f64, q: f64) -> f64 {
    unsafe { abi::vx_hypot(p, q) }
}

/// The magnitude of the first number, then [`hypot`] with each next; of no number, +0.
///
/// ```
/// assert_eq!(volmeixi::norm_l2(&[-3.0, 4.0]), 5.0);
/// assert_eq!(volmeixi::norm_l2(&[]), 0.0);
/// ```
pub fn norm_l2(x: &[f64]) -> f64 {
    // SAFETY: the pointer and the length are those of a slice.
    unsafe { abi::vx_norm_l2(x.as_ptr(), x.len()) }
}
