//! The helpers that the Rust only calls, for f64, as document 01 settles them under
//! "Arithmetic" and "Rotations", and Note 3 of document 02 the modulus. Nothing here is fused; std's
//! `hypot`, `max` and `min` are not used.

use crate::modulus;

pub const EPS: f64 = f64::EPSILON; // 2^-52
pub const MIN_POSITIVE: f64 = f64::MIN_POSITIVE; // 2^-1022

pub fn abs(x: f64) -> f64 {
    f64::from_bits(x.to_bits() & !(1 << 63))
}

pub fn abs1(x: f64) -> f64 {
    abs(x)
}

pub fn abs2(x: f64) -> f64 {
    x * x
}

pub fn recip(x: f64) -> f64 {
    1.0 / x
}

pub fn mul_pow2(x: f64, p: f64) -> f64 {
    x * p
}

pub fn fmax(p: f64, q: f64) -> f64 {
    if p > q || q.is_nan() { p } else { q }
}

pub fn fmin(p: f64, q: f64) -> f64 {
    if p < q || q.is_nan() { p } else { q }
}

/// std's root is the processor's, which follows IEEE 754.
pub fn sqrt(x: f64) -> f64 {
    x.sqrt()
}

/// The nearest, by whole numbers.
pub fn hypot(p: f64, q: f64) -> f64 {
    modulus::hypot(p, q)
}

pub fn norm_l2(mut x: impl Iterator<Item = f64>) -> f64 {
    match x.next() {
        None => 0.0,
        Some(first) => x.fold(abs(first), hypot),
    }
}

pub fn inner_prod(pairs: impl Iterator<Item = (f64, f64)>) -> f64 {
    pairs.fold(0.0, |sum, (x, y)| sum + x * y)
}

/// A rotation applied on the right to one pair of numbers.
pub fn apply(c: f64, s: f64, x: f64, y: f64) -> (f64, f64) {
    (c * x + s * y, c * y - s * x)
}
