//! Standardising a 2-block, and the small Sylvester solve.

use crate::abi;

/// A real pair, or a complex pair.
#[derive(Clone, Copy, Debug, PartialEq)]
pub enum Eigenvalues {
    /// The two values.
    Real(f64, f64),
    /// Both diagonal numbers and the imaginary size m: the first has +m, the second -m.
    Complex(f64, f64, f64),
}

/// A block made standard: its rows are (a, b) and (c, d).
#[derive(Clone, Copy, Debug, PartialEq)]
pub struct Standardised {
    pub a: f64,
    pub b: f64,
    pub c: f64,
    pub d: f64,
    /// The cosine of the rotation that made it.
    pub cs: f64,
    /// Its sine.
    pub sn: f64,
    pub eigenvalues: Eigenvalues,
}

/// A solution x, column after column, and its scale.
#[derive(Clone, Copy, Debug, PartialEq)]
pub struct Sylvester {
    pub x: [f64; 4],
    pub scale: f64,
}

/// Standardises the block of rows (a, b) and (c, d). The values are complex where the new c is not
/// zero.
///
/// ```
/// use volmeixi::Eigenvalues;
///
/// let s = volmeixi::lahqr_schur22(5.0, 0.0, 2.0, 7.0);
/// assert_eq!([s.a, s.b, s.c, s.d, s.cs, s.sn], [7.0, -2.0, 0.0, 5.0, 0.0, 1.0]);
/// assert_eq!(s.eigenvalues, Eigenvalues::Real(7.0, 5.0));
///
/// let s = volmeixi::lahqr_schur22(0.0, 1.0, -1.0, 0.0);
/// assert_eq!(s.eigenvalues, Eigenvalues::Complex(0.0, 0.0, 1.0));
/// ```
pub fn lahqr_schur22(a: f64, b: f64, c: f64, d: f64) -> Standardised {
    let eigenvalues = Eigenvalues::Real(0.0, 0.0);
    let mut s = Standardised { a: 0.0, b: 0.0, c: 0.0, d: 0.0, cs: 0.0, sn: 0.0, eigenvalues };
    let [mut re1, mut im1, mut re2, mut im2] = [0.0; 4];
    // SAFETY: each result is a variable or a field of its own. The answer is 0 always.
    unsafe {
        abi::vx_lahqr_schur22(
            a, b, c, d, &mut s.a, &mut s.b, &mut s.c, &mut s.d, &mut re1, &mut im1, &mut re2, &mut im2, &mut s.cs,
            &mut s.sn,
        )
    };
    s.eigenvalues = if s.c != 0.0 { Eigenvalues::Complex(re1, re2, im1) } else { Eigenvalues::Real(re1, re2) };
    s
}

/// Solves tl × x - x × tr = scale × b for x, all column after column.
///
/// ```
/// let (tl, tr) = ([3.0, 0.0, 0.0, 3.0], [1.0, 0.0, 0.0, 1.0]);
/// let s = volmeixi::lasy2(&tl, &tr, &[2.0, 4.0, 6.0, 8.0]);
/// assert_eq!((s.x, s.scale), ([1.0, 2.0, 3.0, 4.0], 1.0));
/// ```
pub fn lasy2(tl: &[f64; 4], tr: &[f64; 4], b: &[f64; 4]) -> Sylvester {
    let mut s = Sylvester { x: [0.0; 4], scale: 0.0 };
    // SAFETY: what is written is lent apart from the rest.
    unsafe { abi::vx_lasy2(tl, tr, b, &mut s.x, &mut s.scale) };
    s
}
