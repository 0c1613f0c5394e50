//! Rotations and reflections.

use crate::Refusal;
use crate::abi;

/// The rotation of cosine c and sine s.
#[derive(Clone, Copy, Debug, PartialEq)]
pub struct JacobiRotation {
    pub c: f64,
    pub s: f64,
}

/// A rotation, with the r that it makes of p and q.
#[derive(Clone, Copy, Debug, PartialEq)]
pub struct RotationWith {
    pub rot: JacobiRotation,
    pub r: f64,
}

/// What a reflection gives beside the tail.
#[derive(Clone, Copy, Debug, PartialEq)]
pub struct Reflection {
    /// The new head.
    pub head: f64,
    pub tau: f64,
    pub head_with_beta_inv: f64,
    /// The norm of head and tail.
    pub norm: f64,
}

/// The rotation with c × p - s × q = r and s × p + c × q = 0, up to rounding.
///
/// ```
/// let g = volmeixi::rotg(3.0, 4.0);
/// assert_eq!((g.rot.c, g.rot.s, g.r), (0.6, -0.8, 5.0));
/// ```
pub fn rotg(p: f64, q: f64) -> RotationWith {
    let [mut c, mut s, mut r] = [0.0; 3];
    // SAFETY: each result is a variable of its own.
    unsafe { abi::vx_rotg(p, q, &mut c, &mut s, &mut r) };
    RotationWith { rot: JacobiRotation { c, s }, r }
}

/// The rotation back: s negated, a zero's sign too.
///
/// ```
/// let back = volmeixi::adjoint(volmeixi::JacobiRotation { c: 0.6, s: 0.8 });
/// assert_eq!((back.c, back.s), (0.6, -0.8));
/// ```
pub fn adjoint(rot: JacobiRotation) -> JacobiRotation {
    let [mut c, mut s] = [0.0; 2];
    // SAFETY: as in rotg.
    unsafe { abi::vx_adjoint(rot.c, rot.s, &mut c, &mut s) };
    JacobiRotation { c, s }
}

/// The rotation applied on the right to the pair x, y: c × x + s × y and c × y - s × x.
///
/// ```
/// let turn = volmeixi::JacobiRotation { c: 0.0, s: 1.0 };
/// assert_eq!(volmeixi::apply(turn, 5.0, 7.0), (7.0, -5.0));
/// ```
pub fn apply(rot: JacobiRotation, x: f64, y: f64) -> (f64, f64) {
    let [mut new_x, mut new_y] = [0.0; 2];
    // SAFETY: as in rotg.
    unsafe { abi::vx_apply(rot.c, rot.s, x, y, &mut new_x, &mut new_y) };
    (new_x, new_y)
}

/// The reflection that takes the head and the tail to a new head and zeros. The tail, 1 to 64
/// numbers, is multiplied by head_with_beta_inv and becomes the reflection's own; if its norm, from
/// left to right, is below 2^-1022 it stays, and tau is infinite.
///
/// Refused by [`Refusal::TailLength`].
///
/// ```
/// let mut tail = [4.0];
/// let r = volmeixi::make_householder_in_place(2.0, &mut [0.0])?;
/// assert_eq!((r.head, r.tau), (2.0, f64::INFINITY));
/// let r = volmeixi::make_householder_in_place(0.0, &mut tail)?;
/// assert_eq!((r.head, r.tau, r.norm, tail), (-4.0, 1.0, 4.0, [1.0]));
/// let mut tail = [1.0; 64];
/// let r = volmeixi::make_householder_in_place(0.0, &mut tail)?;
/// assert_eq!(tail, [r.head_with_beta_inv; 64]);
/// # Ok::<(), volmeixi::Refusal>(())
/// ```
pub fn make_householder_in_place(head: f64, tail: &mut [f64]) -> Result<Reflection, Refusal> {
    let mut r = Reflection { head: 0.0, tau: 0.0, head_with_beta_inv: 0.0, norm: 0.0 };
    // SAFETY: the pointer and the length are those of a slice, and each result is a field of its own.
    Refusal::of(unsafe {
        abi::vx_make_householder_in_place(
            head,
            tail.as_mut_ptr(),
            tail.len(),
            &mut r.head,
            &mut r.tau,
            &mut r.head_with_beta_inv,
            &mut r.norm,
        )
    })?;
    Ok(r)
}
