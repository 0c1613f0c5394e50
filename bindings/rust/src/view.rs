//! A form or vectors in the corner of a larger array.

/// A form or vectors, to be read: row i, column j stands at i + stride × j of the numbers.
///
/// The stride is n where the columns follow each other; for a corner of a larger array it is that
/// array's number of rows, and the numbers begin with the corner's first. Nothing depends on what
/// stands in the rows from n on.
///
/// ```
/// // rows 1 and 2 of columns 1 and 2 of an array of four rows
/// let mut sheet = [f64::NAN; 4 * 4];
/// (sheet[5], sheet[6], sheet[9], sheet[10]) = (1.0, 0.0, 1.0, 2.0);
/// let form = volmeixi::View { n: 2, stride: 4, numbers: &sheet[5..5 + 4 * 2] };
/// let (mut re, mut im) = ([9.0; 2], [9.0; 2]);
/// form.block_values(&mut re, &mut im)?;
/// assert_eq!((re, im), ([1.0, 2.0], [0.0, 0.0]));
/// assert_eq!(form.column(1)?, [1.0, 2.0]);
/// # Ok::<(), volmeixi::Refusal>(())
/// ```
///
/// There are stride × n numbers: a corner that begins below row 0 and ends in the last column of its
/// array has fewer, and has to be copied.
#[derive(Clone, Copy, Debug)]
pub struct View<'a> {
    /// The number of rows and columns, 1 to 64.
    pub n: usize,
    /// How far the next column is, n to 128.
    pub stride: usize,
    /// stride × n numbers.
    pub numbers: &'a [f64],
}

/// A form, to be changed in place; otherwise as [`View`]. What stands in the rows from n on stays.
///
/// ```
/// // rows 0 to 2 of an array of five rows, and a factor of the same stride
/// let (mut t, mut u) = ([f64::NAN; 5 * 3], [f64::NAN; 5 * 3]);
/// for j in 0..3 {
///     t[5 * j..5 * j + 3].fill(0.0);
///     u[5 * j..5 * j + 3].fill(0.0);
///     (t[6 * j], u[6 * j]) = (j as f64, 1.0);
/// }
/// let mut form = volmeixi::ViewMut { n: 3, stride: 5, numbers: &mut t };
/// assert_eq!(form.reorder_schur(Some(&mut u), 0, 2)?.landed, 2);
/// assert_eq!([t[0], t[6], t[12]], [1.0, 2.0, 0.0]);
/// assert!(t[3].is_nan() && t[14].is_nan());
/// # Ok::<(), volmeixi::Refusal>(())
/// ```
#[derive(Debug)]
pub struct ViewMut<'a> {
    /// The number of rows and columns, 1 to 64.
    pub n: usize,
    /// How far the next column is, n to 128.
    pub stride: usize,
    /// stride × n numbers.
    pub numbers: &'a mut [f64],
}

impl ViewMut<'_> {
    /// The same, to be read.
    pub fn view(&self) -> View<'_> {
        View { n: self.n, stride: self.stride, numbers: self.numbers }
    }
}
