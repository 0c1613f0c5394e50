//! The traits RealField and ComplexField, for f64 alone, and the constants.
//!
//! The Rust writes `&a - &b` with `T: RealField` as its only bound; build.rs adds the bound on `&T`,
//! which no supertrait can imply.

use crate::arith;
use core::ops::*;

/// Operators of a number or of a reference to one, the other side by value or lent.
pub trait Ops<T>:
    Neg<Output = T>
    + Add<T, Output = T>
    + Sub<T, Output = T>
    + Mul<T, Output = T>
    + Div<T, Output = T>
    + for<'b> Add<&'b T, Output = T>
    + for<'b> Sub<&'b T, Output = T>
    + for<'b> Mul<&'b T, Output = T>
    + for<'b> Div<&'b T, Output = T>
{
}
impl Ops<f64> for f64 {}
impl Ops<f64> for &f64 {}

pub trait AssignOps:
    Sized
    + AddAssign
    + SubAssign
    + MulAssign
    + DivAssign
    + for<'b> AddAssign<&'b Self>
    + for<'b> SubAssign<&'b Self>
    + for<'b> MulAssign<&'b Self>
{
}
impl AssignOps for f64 {}

/// An argument that may come by value or lent.
pub trait ByRef<T> {
    fn lent(&self) -> &T;
}
impl<T> ByRef<T> for T {
    fn lent(&self) -> &T {
        self
    }
}
impl<T> ByRef<T> for &T {
    fn lent(&self) -> &T {
        self
    }
}

pub trait ComplexField: 'static + Sized + PartialEq + Ops<Self> + AssignOps {
    type Real: RealField;
    const IS_REAL: bool;
    fn from_f64(x: f64) -> Self;
    fn copy(&self) -> Self;
    fn conj(&self) -> Self;
    fn real(&self) -> Self::Real;
    fn imag(&self) -> Self::Real;
    fn abs(&self) -> Self::Real;
    fn abs1(&self) -> Self::Real;
    fn abs2(&self) -> Self::Real;
    fn recip(&self) -> Self;
    fn mul_real(&self, x: impl ByRef<Self::Real>) -> Self;
    fn mul_pow2(&self, x: impl ByRef<Self::Real>) -> Self;
}

pub trait RealField: ComplexField<Real = Self> + PartialOrd {
    fn sqrt(&self) -> Self;
    fn hypot(&self, q: impl ByRef<Self>) -> Self;
    fn fmax(&self, q: impl ByRef<Self>) -> Self;
    fn fmin(&self, q: impl ByRef<Self>) -> Self;
    fn to_cplx<T: ComplexField<Real = Self>>(&self) -> T;
    fn to_f64(&self) -> f64;
}

impl ComplexField for f64 {
    type Real = f64;
    const IS_REAL: bool = true;
    fn from_f64(x: f64) -> f64 {
        x
    }
    fn copy(&self) -> f64 {
        *self
    }
    fn conj(&self) -> f64 {
        *self
    }
    fn real(&self) -> f64 {
        *self
    }
    fn imag(&self) -> f64 {
        0.0
    }
    fn abs(&self) -> f64 {
        arith::abs(*self)
    }
    fn abs1(&self) -> f64 {
        arith::abs1(*self)
    }
    fn abs2(&self) -> f64 {
        arith::abs2(*self)
    }
    fn recip(&self) -> f64 {
        arith::recip(*self)
    }
    fn mul_real(&self, x: impl ByRef<f64>) -> f64 {
        *self * *x.lent()
    }
    fn mul_pow2(&self, x: impl ByRef<f64>) -> f64 {
        arith::mul_pow2(*self, *x.lent())
    }
}

impl RealField for f64 {
    fn sqrt(&self) -> f64 {
        arith::sqrt(*self)
    }
    fn hypot(&self, q: impl ByRef<f64>) -> f64 {
        arith::hypot(*self, *q.lent())
    }
    fn fmax(&self, q: impl ByRef<f64>) -> f64 {
        arith::fmax(*self, *q.lent())
    }
    fn fmin(&self, q: impl ByRef<f64>) -> f64 {
        arith::fmin(*self, *q.lent())
    }
    fn to_cplx<T: ComplexField<Real = f64>>(&self) -> T {
        T::from_f64(*self)
    }
    fn to_f64(&self) -> f64 {
        *self
    }
}

pub fn zero<T: ComplexField>() -> T {
    T::from_f64(0.0)
}
pub fn one<T: ComplexField>() -> T {
    T::from_f64(1.0)
}
pub fn eps<T: ComplexField>() -> T {
    T::from_f64(arith::EPS)
}
pub fn min_positive<T: ComplexField>() -> T {
    T::from_f64(arith::MIN_POSITIVE)
}
pub fn max_positive<T: ComplexField>() -> T {
    T::from_f64(f64::MAX)
}
pub fn infinity<T: ComplexField>() -> T {
    T::from_f64(f64::INFINITY)
}
pub fn from_f64<T: ComplexField>(x: f64) -> T {
    T::from_f64(x)
}
