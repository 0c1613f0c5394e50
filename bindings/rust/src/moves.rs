//! Exchange and moves.
//!
//! A swap of two 2-blocks may decline: they stay in place (and are standardised), and a move goes on
//! as if they had been exchanged. [`reorder_schur_stopping`] stops there, as LAPACK's dtrexc does.

use crate::abi;
use crate::{Refusal, ViewMut};

/// What a move did.
#[derive(Clone, Copy, Debug, PartialEq, Eq)]
pub struct Moved {
    /// The row landed on. If any swap declined, it need not hold the moved block.
    pub landed: usize,
    /// The number of swaps.
    pub swaps: usize,
    /// How many of these declined: two 2-blocks that stayed in place, only standardised.
    pub declined: usize,
}

/// What a move that stops did.
#[derive(Clone, Copy, Debug, PartialEq, Eq)]
pub struct StoppingMove {
    /// Whether a test has failed, so that the move stopped there.
    pub stopped: bool,
    /// The row that the block came to: its last, or where it stood as the step began in which the
    /// move stopped.
    pub here: usize,
    /// The number of swaps, the one that failed counted.
    pub swaps: usize,
    /// How many of these declined: 1 if the move stopped, else 0.
    pub declined: usize,
}

/// What an exchange did.
#[derive(Clone, Copy, Debug, PartialEq, Eq)]
pub struct Exchanged {
    /// The number of swaps.
    pub swaps: usize,
    /// How many of these declined: two 2-blocks that stayed in place, only standardised.
    pub declined: usize,
}

/// Moves the block in row `from` of the form t to row `to`, by exchanges of neighbouring blocks, and
/// applies the same rotations and reflections to the columns of the factor u. A position inside a
/// 2-block means the block's first row. An empty factor is none. Both have n × n numbers;
/// [`ViewMut::reorder_schur`] takes a stride.
///
/// Refused by, in this order, [`Refusal::Rows`], [`FormLength`](Refusal::FormLength),
/// [`BufferLength`](Refusal::BufferLength) (the factor's), [`DeepEntry`](Refusal::DeepEntry),
/// [`Touching`](Refusal::Touching), [`Position`](Refusal::Position).
///
/// ```
/// let mut t = [1.0, 0.0, 0.0, 2.0];
/// let mut u = [1.0, 0.0, 0.0, 1.0];
/// let moved = volmeixi::reorder_schur(2, &mut t, Some(&mut u), 0, 1)?;
/// assert_eq!(moved, volmeixi::Moved { landed: 1, swaps: 1, declined: 0 });
/// assert_eq!(t, [2.0, 0.0, 0.0, 1.0]);
/// assert_eq!(u, [0.0, 1.0, -1.0, 0.0]);
/// # Ok::<(), volmeixi::Refusal>(())
/// ```
pub fn reorder_schur(n: usize, t: &mut [f64], u: Option<&mut [f64]>, from: usize, to: usize) -> Result<Moved, Refusal> {
    ViewMut { n, stride: n, numbers: t }.reorder_schur(u, from, to)
}

/// Moves the block as LAPACK's dtrexc and dlaexc do it, by the swaps of [`reorder_schur`]: an exchange
/// with a 2-block in it is tried on a copy first, by dlaexc's tests, and the move stops at the first
/// that fails. Form and factor then hold the earlier exchanges, standardised, and nothing of the failed
/// one. On a triangular form it does what `reorder_schur` does. Form, factor and positions are as there,
/// and [`ViewMut::reorder_schur_stopping`] takes a stride.
///
/// Refused as `reorder_schur` is.
///
/// ```
/// // two 2-blocks of equal values and other scales, that of rows (0, 1), (-1, 0) above
/// let form = [0.0, -1.0, 0.0, 0.0, 1.0, 0.0, 0.0, 0.0, 1.0, 0.0, 0.0, -1e-8, 0.0, 1.0, 1e8, 0.0];
/// let mut t = form;
/// let moved = volmeixi::reorder_schur_stopping(4, &mut t, None, 0, 2)?;
/// assert_eq!(moved, volmeixi::StoppingMove { stopped: true, here: 0, swaps: 1, declined: 1 });
/// assert_eq!(t, form);
/// # Ok::<(), volmeixi::Refusal>(())
/// ```
pub fn reorder_schur_stopping(
    n: usize,
    t: &mut [f64],
    u: Option<&mut [f64]>,
    from: usize,
    to: usize,
) -> Result<StoppingMove, Refusal> {
    ViewMut { n, stride: n, numbers: t }.reorder_schur_stopping(u, from, to)
}

/// Makes up to 64 moves over one form, which is checked once and not for each. The form and the factor
/// are what [`reorder_schur`] leaves, called for each pair (from, to) in turn, and so are the results, one
/// for each pair. A pair that is turned away has its refusal, changes nothing, and the next pair goes
/// on. What is wrong with the form or a length refuses every pair, and the list itself is `Ok` then too.
/// An empty list changes nothing. [`ViewMut::reorder_schur_list`] takes a stride.
///
/// Refused by [`Refusal::MoveList`] alone, and each pair as `reorder_schur` is.
///
/// ```
/// use volmeixi::{Moved, Refusal};
///
/// let mut t = [1.0, 0.0, 0.0, 0.0, 2.0, 0.0, 0.0, 0.0, 3.0];
/// let moved = volmeixi::reorder_schur_list(3, &mut t, None, &[(0, 2), (3, 0), (1, 0)])?;
/// assert_eq!(moved[0], Ok(Moved { landed: 2, swaps: 2, declined: 0 }));
/// assert_eq!(moved[1], Err(Refusal::Position));
/// assert_eq!(moved[2], Ok(Moved { landed: 0, swaps: 1, declined: 0 }));
/// assert_eq!([t[0], t[4], t[8]], [3.0, 2.0, 1.0]);
///
/// assert_eq!(volmeixi::reorder_schur_list(3, &mut t, None, &[(0, 0); 65]), Err(Refusal::MoveList));
/// # Ok::<(), volmeixi::Refusal>(())
/// ```
pub fn reorder_schur_list(
    n: usize,
    t: &mut [f64],
    u: Option<&mut [f64]>,
    moves: &[(usize, usize)],
) -> Result<Vec<Result<Moved, Refusal>>, Refusal> {
    ViewMut { n, stride: n, numbers: t }.reorder_schur_list(u, moves)
}

/// Exchanges the n1 rows of the form t from row j0 on with the n2 rows below them; the factor is as
/// in [`reorder_schur`]. Swaps are 1 to 4, and 4 exactly when n1 and n2 are 2, each with a zero
/// inside.
///
/// Refused by what refuses a move (`Position` is j0's), then [`Refusal::BlockSize`],
/// [`PastEnd`](Refusal::PastEnd), [`Across`](Refusal::Across).
///
/// ```
/// let mut t = [1.0, 0.0, 0.0, 2.0];
/// let done = volmeixi::schur_swap(2, &mut t, None, 0, 1, 1)?;
/// assert_eq!((done.swaps, done.declined), (1, 0));
/// assert_eq!(t, [2.0, 0.0, 0.0, 1.0]);
///
/// let mut block = [0.0, -1.0, 1.0, 0.0];
/// assert_eq!(volmeixi::schur_swap(2, &mut block, None, 0, 1, 1), Err(volmeixi::Refusal::Across));
/// # Ok::<(), volmeixi::Refusal>(())
/// ```
pub fn schur_swap(
    n: usize,
    t: &mut [f64],
    u: Option<&mut [f64]>,
    j0: usize,
    n1: usize,
    n2: usize,
) -> Result<Exchanged, Refusal> {
    ViewMut { n, stride: n, numbers: t }.schur_swap(u, j0, n1, n2)
}

impl ViewMut<'_> {
    /// As [`reorder_schur()`], at the view's stride: the factor has stride × n numbers too, or none.
    ///
    /// Refused as there, and by [`Refusal::Stride`], which is tested after `Rows`.
    pub fn reorder_schur(&mut self, u: Option<&mut [f64]>, from: usize, to: usize) -> Result<Moved, Refusal> {
        let (t, u) = (&mut *self.numbers, u.unwrap_or_default());
        let mut moved = Moved { landed: 0, swaps: 0, declined: 0 };
        // SAFETY: each pointer and length are those of a slice, and all is lent apart.
        Refusal::of(unsafe {
            abi::vx_reorder_schur(
                self.n,
                self.stride,
                t.as_mut_ptr(),
                t.len(),
                u.as_mut_ptr(),
                u.len(),
                from,
                to,
                &mut moved.landed,
                &mut moved.swaps,
                &mut moved.declined,
            )
        })?;
        Ok(moved)
    }

    /// As [`reorder_schur_stopping()`], at the view's stride: the factor has stride × n numbers too, or
    /// none.
    ///
    /// Refused as there, and by [`Refusal::Stride`], which is tested after `Rows`.
    ///
    /// ```
    /// let mut t = [1.0, 0.0, f64::NAN, 0.0, 2.0, f64::NAN];
    /// let moved = volmeixi::ViewMut { n: 2, stride: 3, numbers: &mut t }.reorder_schur_stopping(None, 0, 1)?;
    /// assert_eq!((moved.stopped, moved.here, t[0], t[4]), (false, 1, 2.0, 1.0));
    /// # Ok::<(), volmeixi::Refusal>(())
    /// ```
    pub fn reorder_schur_stopping(
        &mut self,
        u: Option<&mut [f64]>,
        from: usize,
        to: usize,
    ) -> Result<StoppingMove, Refusal> {
        let (t, u) = (&mut *self.numbers, u.unwrap_or_default());
        let mut moved = StoppingMove { stopped: false, here: 0, swaps: 0, declined: 0 };
        // SAFETY: as in reorder_schur; the call writes 0 or 1 for the mark.
        Refusal::of(unsafe {
            abi::vx_reorder_schur_stopping(
                self.n,
                self.stride,
                t.as_mut_ptr(),
                t.len(),
                u.as_mut_ptr(),
                u.len(),
                from,
                to,
                &mut moved.stopped,
                &mut moved.here,
                &mut moved.swaps,
                &mut moved.declined,
            )
        })?;
        Ok(moved)
    }

    /// As [`reorder_schur_list()`], at the view's stride: the factor has stride × n numbers too, or none.
    ///
    /// Refused as there, and each pair by [`Refusal::Stride`] too, which is tested after `Rows`.
    ///
    /// ```
    /// let mut t = [1.0, 0.0, f64::NAN, 0.0, 2.0, f64::NAN];
    /// let mut form = volmeixi::ViewMut { n: 2, stride: 3, numbers: &mut t };
    /// let moved = form.reorder_schur_list(None, &[(0, 1), (1, 0), (1, 0)])?;
    /// assert_eq!(moved.iter().map(|one| one.unwrap().landed).collect::<Vec<_>>(), [1, 0, 0]);
    /// assert_eq!((t[0], t[4]), (2.0, 1.0));
    /// # Ok::<(), volmeixi::Refusal>(())
    /// ```
    pub fn reorder_schur_list(
        &mut self,
        u: Option<&mut [f64]>,
        moves: &[(usize, usize)],
    ) -> Result<Vec<Result<Moved, Refusal>>, Refusal> {
        let (t, u) = (&mut *self.numbers, u.unwrap_or_default());
        let moves: Vec<usize> = moves.iter().flat_map(|&(from, to)| [from, to]).collect();
        let mut results = vec![[0; 4]; moves.len() / 2];
        // SAFETY: as in reorder_schur; the list and the results are vectors of their own, and an array
        // of four has no gaps.
        Refusal::of(unsafe {
            abi::vx_reorder_schur_list(
                self.n,
                self.stride,
                t.as_mut_ptr(),
                t.len(),
                u.as_mut_ptr(),
                u.len(),
                moves.as_ptr(),
                moves.len(),
                results.as_mut_ptr().cast(),
                4 * results.len(),
            )
        })?;
        let result = |[number, landed, swaps, declined]: [usize; 4]| {
            Refusal::of(number).map(|()| Moved { landed, swaps, declined })
        };
        Ok(results.into_iter().map(result).collect())
    }

    /// As [`schur_swap()`], at the view's stride: the factor has stride × n numbers too, or none.
    ///
    /// Refused as there, and by [`Refusal::Stride`], which is tested after `Rows`.
    ///
    /// ```
    /// let mut t = [1.0, 0.0, f64::NAN, 0.0, 2.0, f64::NAN];
    /// let done = volmeixi::ViewMut { n: 2, stride: 3, numbers: &mut t }.schur_swap(None, 0, 1, 1)?;
    /// assert_eq!((done.swaps, t[0], t[4]), (1, 2.0, 1.0));
    /// # Ok::<(), volmeixi::Refusal>(())
    /// ```
    pub fn schur_swap(&mut self, u: Option<&mut [f64]>, j0: usize, n1: usize, n2: usize) -> Result<Exchanged, Refusal> {
        let (t, u) = (&mut *self.numbers, u.unwrap_or_default());
        let mut done = Exchanged { swaps: 0, declined: 0 };
        // SAFETY: as in reorder_schur.
        Refusal::of(unsafe {
            abi::vx_schur_swap(
                self.n,
                self.stride,
                t.as_mut_ptr(),
                t.len(),
                u.as_mut_ptr(),
                u.len(),
                j0,
                n1,
                n2,
                &mut done.swaps,
                &mut done.declined,
            )
        })?;
        Ok(done)
    }
}
