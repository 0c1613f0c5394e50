//! Block values and vectors.

use crate::abi;
use crate::{Refusal, View};

/// The values of the form's blocks, to re and im, n numbers each. A 1-block gives its diagonal
/// number and +0; a 2-block its first diagonal number twice, with m and then -m, where m is the root
/// of the lower entry's magnitude times the root of the upper's. That is the 2-block's spectrum only
/// where it is standardised: its diagonal numbers are equal, the other two have unlike signs. Use
/// [`standardised_values`] where one may not be.
///
/// Refused by, in this order, [`Refusal::Rows`], [`FormLength`](Refusal::FormLength),
/// [`BufferLength`](Refusal::BufferLength), [`DeepEntry`](Refusal::DeepEntry),
/// [`Touching`](Refusal::Touching).
///
/// ```
/// let (mut re, mut im) = ([9.0; 2], [9.0; 2]);
/// volmeixi::block_values(2, &[0.0, -1.0, 1.0, 0.0], &mut re, &mut im)?;
/// assert_eq!((re, im), ([0.0, 0.0], [1.0, -1.0]));
/// # Ok::<(), volmeixi::Refusal>(())
/// ```
pub fn block_values(n: usize, t: &[f64], re: &mut [f64], im: &mut [f64]) -> Result<(), Refusal> {
    View { n, stride: n, numbers: t }.block_values(re, im)
}

/// The values of the form's blocks, to re and im, n numbers each. A 1-block gives its diagonal
/// number and +0. Of a 2-block a copy is standardised first, by [`lahqr_schur22`](crate::lahqr_schur22):
/// it gives a real pair in the order in which it comes out, with +0 beside each, or, where the copy
/// ends with c not zero, its two diagonal numbers, with the size and then its negative.
///
/// Refused as [`block_values`] is.
///
/// ```
/// // the 2-blocks of rows (1, 0), (5, 2) and of rows (3, 4), (-1, 3)
/// let t = [1.0, 5.0, 0.0, 0.0, 0.0, 2.0, 0.0, 0.0, 0.0, 0.0, 3.0, -1.0, 0.0, 0.0, 4.0, 3.0];
/// let (mut re, mut im) = ([9.0; 4], [9.0; 4]);
/// volmeixi::standardised_values(4, &t, &mut re, &mut im)?;
/// assert_eq!((re, im), ([2.0, 1.0, 3.0, 3.0], [0.0, 0.0, 2.0, -2.0]));
/// # Ok::<(), volmeixi::Refusal>(())
/// ```
pub fn standardised_values(n: usize, t: &[f64], re: &mut [f64], im: &mut [f64]) -> Result<(), Refusal> {
    View { n, stride: n, numbers: t }.standardised_values(re, im)
}

/// The vectors of the form, to v, n × n numbers, column after column. A 1-block's column is its
/// vector; a 2-block's two columns are the real and the imaginary part. A column is written from row
/// 0 to the last row of its block; the rest of it stays as it was. A 2-block is read as it stands:
/// where it is not standardised, its columns and those of the blocks below it need not be vectors of
/// the form.
///
/// Refused as [`block_values`] is.
///
/// ```
/// let mut v = [0.0; 4];
/// volmeixi::evd_from_real_schur(2, &[1.0, 0.0, 1.0, 2.0], &mut v)?;
/// assert_eq!(volmeixi::column(2, &v, 1)?, [1.0, 1.0]);
/// # Ok::<(), volmeixi::Refusal>(())
/// ```
pub fn evd_from_real_schur(n: usize, t: &[f64], v: &mut [f64]) -> Result<(), Refusal> {
    View { n, stride: n, numbers: t }.evd_from_real_schur(v)
}

/// Column `col` of the vectors v, as a part of them, n numbers long.
///
/// Refused by, in this order, [`Refusal::Rows`], [`BufferLength`](Refusal::BufferLength),
/// [`Position`](Refusal::Position).
///
/// ```
/// assert_eq!(volmeixi::column(2, &[1.0, 2.0, 3.0, 4.0], 1)?, [3.0, 4.0]);
/// # Ok::<(), volmeixi::Refusal>(())
/// ```
pub fn column(n: usize, v: &[f64], col: usize) -> Result<&[f64], Refusal> {
    View { n, stride: n, numbers: v }.column(col)
}

/// A call for the values of a form's blocks: n, the stride, the form, re and im.
type Values = unsafe extern "C" fn(usize, usize, *const f64, usize, *mut f64, usize, *mut f64, usize) -> usize;

impl<'a> View<'a> {
    fn values(self, call: Values, re: &mut [f64], im: &mut [f64]) -> Result<(), Refusal> {
        let t = self.numbers;
        // SAFETY: each pointer and length are those of a slice, and these are lent apart.
        Refusal::of(unsafe {
            call(self.n, self.stride, t.as_ptr(), t.len(), re.as_mut_ptr(), re.len(), im.as_mut_ptr(), im.len())
        })
    }

    /// As [`block_values()`], of the form at the view's stride; re and im have n numbers each.
    ///
    /// Refused as there, and by [`Refusal::Stride`], which is tested after `Rows`.
    pub fn block_values(self, re: &mut [f64], im: &mut [f64]) -> Result<(), Refusal> {
        self.values(abi::vx_block_values, re, im)
    }

    /// As [`standardised_values()`], of the form at the view's stride; re and im have n numbers each.
    ///
    /// Refused as there, and by [`Refusal::Stride`], which is tested after `Rows`.
    ///
    /// ```
    /// let (t, mut re, mut im) = ([1.0, 5.0, 7.0, 0.0, 2.0, 7.0], [9.0; 2], [9.0; 2]);
    /// volmeixi::View { n: 2, stride: 3, numbers: &t }.standardised_values(&mut re, &mut im)?;
    /// assert_eq!((re, im), ([2.0, 1.0], [0.0, 0.0]));
    /// # Ok::<(), volmeixi::Refusal>(())
    /// ```
    pub fn standardised_values(self, re: &mut [f64], im: &mut [f64]) -> Result<(), Refusal> {
        self.values(abi::vx_standardised_values, re, im)
    }

    /// As [`evd_from_real_schur()`], of the form at the view's stride: v has stride × n numbers too.
    /// What stands in its rows from n on stays.
    ///
    /// Refused as there, and by [`Refusal::Stride`], which is tested after `Rows`.
    ///
    /// ```
    /// use volmeixi::View;
    ///
    /// let (t, mut v) = ([1.0, 0.0, 7.0, 1.0, 2.0, 7.0], [9.0; 6]);
    /// View { n: 2, stride: 3, numbers: &t }.evd_from_real_schur(&mut v)?;
    /// assert_eq!(View { n: 2, stride: 3, numbers: &v }.column(1)?, [1.0, 1.0]);
    /// assert_eq!((v[2], v[5]), (9.0, 9.0));
    /// # Ok::<(), volmeixi::Refusal>(())
    /// ```
    pub fn evd_from_real_schur(self, v: &mut [f64]) -> Result<(), Refusal> {
        let t = self.numbers;
        // SAFETY: as in values.
        Refusal::of(unsafe {
            abi::vx_evd_from_real_schur(self.n, self.stride, t.as_ptr(), t.len(), v.as_mut_ptr(), v.len())
        })
    }

    /// Column `col` of these vectors, as a part of their numbers, n long.
    ///
    /// Refused by, in this order, [`Refusal::Rows`], [`Stride`](Refusal::Stride),
    /// [`BufferLength`](Refusal::BufferLength), [`Position`](Refusal::Position). The archive has no
    /// call for it: this is Rust alone.
    pub fn column(self, col: usize) -> Result<&'a [f64], Refusal> {
        let View { n, stride, numbers } = self;
        if !(1..=64).contains(&n) {
            return Err(Refusal::Rows);
        }
        if !(n..=128).contains(&stride) {
            return Err(Refusal::Stride);
        }
        if numbers.len() != stride * n {
            return Err(Refusal::BufferLength);
        }
        if n <= col {
            return Err(Refusal::Position);
        }
        Ok(&numbers[stride * col..stride * col + n])
    }
}
