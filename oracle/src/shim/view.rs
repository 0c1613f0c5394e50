//! Views of numbers lent column after column: matrices, columns and rows, read-only or writable.
//! Every index and every cut is checked.

use super::field::{ComplexField, RealField};
use crate::arith;
use core::marker::PhantomData;
use core::ops::{Bound, Index, IndexMut, RangeBounds};
use core::ptr::NonNull;

/// A shorter loan of a view to write that may be absent; views have their own `rb` and `rb_mut`.
pub trait ReborrowMut<T> {
    fn rb_mut(&mut self) -> Option<MatMut<'_, T>>;
}

impl<T> ReborrowMut<T> for Option<MatMut<'_, T>> {
    fn rb_mut(&mut self) -> Option<MatMut<'_, T>> {
        self.as_mut().map(|v| v.rb_mut())
    }
}

/// Where the numbers of a view stand: the first, the size, the steps down and across.
struct Grid<T> {
    first: NonNull<T>,
    rows: usize,
    cols: usize,
    down: usize,
    across: usize,
}

impl<T> Clone for Grid<T> {
    fn clone(&self) -> Self {
        *self
    }
}
impl<T> Copy for Grid<T> {}

impl<T> Grid<T> {
    fn at(&self, i: usize, j: usize) -> NonNull<T> {
        assert!(i < self.rows && j < self.cols);
        unsafe { NonNull::new_unchecked(self.first.as_ptr().add(i * self.down + j * self.across)) }
    }

    fn part(&self, i: usize, j: usize, rows: usize, cols: usize) -> Grid<T> {
        assert!(i + rows <= self.rows && j + cols <= self.cols, "part beyond the view");
        let first = if rows == 0 || cols == 0 { self.first } else { self.at(i, j) };
        Grid { first, rows, cols, ..*self }
    }

    fn turned(&self) -> Grid<T> {
        Grid { first: self.first, rows: self.cols, cols: self.rows, down: self.across, across: self.down }
    }
}

pub struct MatRef<'a, T> {
    grid: Grid<T>,
    life: PhantomData<&'a T>,
}
pub struct MatMut<'a, T> {
    grid: Grid<T>,
    life: PhantomData<&'a mut T>,
}
/// One column: a view of one column's width.
pub struct ColRef<'a, T>(MatRef<'a, T>);
pub struct ColMut<'a, T>(MatMut<'a, T>);
/// One row, kept as the column that it turns into.
pub struct RowRef<'a, T>(ColRef<'a, T>);

macro_rules! copied {
    ($($view:ident)*) => { $(
        impl<T> Clone for $view<'_, T> {
            fn clone(&self) -> Self {
                *self
            }
        }
        impl<T> Copy for $view<'_, T> {}
    )* };
}
copied!(MatRef ColRef RowRef);

impl<'a, T> MatRef<'a, T> {
    fn new(grid: Grid<T>) -> Self {
        MatRef { grid, life: PhantomData }
    }
    pub fn from_slice(numbers: &'a [T], rows: usize, cols: usize) -> Self {
        Self::with_stride(numbers, rows, cols, rows)
    }
    /// The first rows of columns that stand a stride apart.
    pub fn with_stride(numbers: &'a [T], rows: usize, cols: usize, across: usize) -> Self {
        assert!(rows <= across && numbers.len() == across * cols);
        let first = NonNull::from(numbers).cast();
        MatRef::new(Grid { first, rows, cols, down: 1, across })
    }
    pub fn nrows(&self) -> usize {
        self.grid.rows
    }
    pub fn ncols(&self) -> usize {
        self.grid.cols
    }
    pub fn submatrix(self, i: usize, j: usize, rows: usize, cols: usize) -> Self {
        MatRef::new(self.grid.part(i, j, rows, cols))
    }
    pub fn subrows(self, i: usize, rows: usize) -> Self {
        self.submatrix(i, 0, rows, self.ncols())
    }
    pub fn split_at(self, i: usize, j: usize) -> (Self, Self, Self, Self) {
        let (m, n) = (self.nrows() - i, self.ncols() - j);
        (self.submatrix(0, 0, i, j), self.submatrix(0, j, i, n), self.submatrix(i, 0, m, j), self.submatrix(i, j, m, n))
    }
    pub fn col(self, j: usize) -> ColRef<'a, T> {
        ColRef(self.submatrix(0, j, self.nrows(), 1))
    }
    pub fn row(self, i: usize) -> RowRef<'a, T> {
        RowRef(ColRef(MatRef::new(self.grid.part(i, 0, 1, self.ncols()).turned())))
    }
}

impl<'a, T> MatMut<'a, T> {
    fn new(grid: Grid<T>) -> Self {
        MatMut { grid, life: PhantomData }
    }
    pub fn from_slice(numbers: &'a mut [T], rows: usize, cols: usize) -> Self {
        Self::with_stride(numbers, rows, cols, rows)
    }
    /// The first rows of columns that stand a stride apart.
    pub fn with_stride(numbers: &'a mut [T], rows: usize, cols: usize, across: usize) -> Self {
        assert!(rows <= across && numbers.len() == across * cols);
        let first = NonNull::from(numbers).cast();
        MatMut::new(Grid { first, rows, cols, down: 1, across })
    }
    pub fn nrows(&self) -> usize {
        self.grid.rows
    }
    pub fn submatrix_mut(self, i: usize, j: usize, rows: usize, cols: usize) -> Self {
        MatMut::new(self.grid.part(i, j, rows, cols))
    }
    pub fn subrows_mut(self, i: usize, rows: usize) -> Self {
        let cols = self.grid.cols;
        self.submatrix_mut(i, 0, rows, cols)
    }
    pub fn get_mut(self, rows: impl RangeBounds<usize>, cols: impl RangeBounds<usize>) -> Self {
        let (i, m) = cut(rows, self.grid.rows);
        let (j, n) = cut(cols, self.grid.cols);
        self.submatrix_mut(i, j, m, n)
    }
    pub fn split_at_row_mut(self, i: usize) -> (Self, Self) {
        let (rows, cols) = (self.grid.rows, self.grid.cols);
        (MatMut::new(self.grid.part(0, 0, i, cols)), MatMut::new(self.grid.part(i, 0, rows - i, cols)))
    }
    pub fn col_mut(self, j: usize) -> ColMut<'a, T> {
        ColMut(MatMut::new(self.grid.part(0, j, self.grid.rows, 1)))
    }
    pub fn two_cols_mut(self, j: usize, k: usize) -> (ColMut<'a, T>, ColMut<'a, T>) {
        assert!(j != k);
        let col = |j| ColMut(MatMut::new(self.grid.part(0, j, self.grid.rows, 1)));
        (col(j), col(k))
    }
    pub fn transpose_mut(self) -> Self {
        MatMut::new(self.grid.turned())
    }
    pub fn swap(&mut self, p: (usize, usize), q: (usize, usize)) {
        unsafe { core::ptr::swap(self.grid.at(p.0, p.1).as_ptr(), self.grid.at(q.0, q.1).as_ptr()) }
    }
    pub fn ncols(&self) -> usize {
        self.grid.cols
    }
}

impl<T: ComplexField> MatMut<'_, T> {
    pub fn copy_from(&mut self, from: MatRef<'_, T>) {
        assert!(self.nrows() == from.nrows() && self.ncols() == from.ncols());
        for j in 0..self.ncols() {
            for i in 0..self.nrows() {
                self[(i, j)] = from[(i, j)].copy();
            }
        }
    }
}

/// A range of rows or columns as its start and its length.
fn cut(range: impl RangeBounds<usize>, whole: usize) -> (usize, usize) {
    let from = match range.start_bound() {
        Bound::Included(&i) => i,
        Bound::Excluded(&i) => i + 1,
        Bound::Unbounded => 0,
    };
    let to = match range.end_bound() {
        Bound::Included(&i) => i + 1,
        Bound::Excluded(&i) => i,
        Bound::Unbounded => whole,
    };
    (from, to - from)
}

impl<'a, T> ColRef<'a, T> {
    pub fn nrows(&self) -> usize {
        self.0.nrows()
    }
    pub fn subrows(self, i: usize, rows: usize) -> Self {
        ColRef(self.0.subrows(i, rows))
    }
    pub fn transpose(self) -> RowRef<'a, T> {
        RowRef(self)
    }
    pub fn as_mat(self) -> MatRef<'a, T> {
        self.0
    }
}

impl<T: RealField> ColRef<'_, T> {
    pub fn norm_l2(&self) -> T {
        T::from_f64(arith::norm_l2((0..self.nrows()).map(|i| self[i].to_f64())))
    }
}

impl<'a, T> ColMut<'a, T> {
    pub fn nrows(&self) -> usize {
        self.0.nrows()
    }
    pub fn subrows_mut(self, i: usize, rows: usize) -> Self {
        ColMut(self.0.subrows_mut(i, rows))
    }
    pub fn split_at_row_mut(self, i: usize) -> (Self, Self) {
        let (upper, lower) = self.0.split_at_row_mut(i);
        (ColMut(upper), ColMut(lower))
    }
    /// The numbers as a slice, if they stand one after the other.
    pub fn slice_mut(&mut self) -> Option<&mut [T]> {
        let grid = self.0.grid;
        (grid.down == 1).then(|| unsafe { core::slice::from_raw_parts_mut(grid.first.as_ptr(), grid.rows) })
    }
    pub fn at_mut(self, i: usize) -> &'a mut T {
        unsafe { self.0.grid.at(i, 0).as_mut() }
    }
    pub fn as_mat_mut(self) -> MatMut<'a, T> {
        self.0
    }
}

impl<'a, T> RowRef<'a, T> {
    pub fn ncols(&self) -> usize {
        self.0.nrows()
    }
    pub fn subcols(self, j: usize, cols: usize) -> Self {
        RowRef(self.0.subrows(j, cols))
    }
    pub fn transpose(self) -> ColRef<'a, T> {
        self.0
    }
}

macro_rules! loans {
    ($($view:ident($read:ident) $inner:ident;)*) => { $(
        impl<T> $view<'_, T> {
            /// A shorter loan to read.
            pub fn rb(&self) -> $read<'_, T> {
                $inner!(rb $read self)
            }
            /// A shorter loan to write.
            pub fn rb_mut(&mut self) -> $view<'_, T> {
                $inner!(rb_mut $view self)
            }
        }
    )* };
}
macro_rules! grid {
    ($loan:ident $view:ident $of:ident) => {
        $view::new($of.grid)
    };
}
macro_rules! mat {
    ($loan:ident $view:ident $of:ident) => {
        $view($of.0.$loan())
    };
}
loans! {
    MatMut(MatRef) grid;
    ColMut(ColRef) mat;
}

macro_rules! indexed {
    ($($view:ident [$place:ty] $at:expr;)*) => { $(
        impl<T> Index<$place> for $view<'_, T> {
            type Output = T;
            fn index(&self, place: $place) -> &T {
                unsafe { $at(self, place).as_ref() }
            }
        }
    )* };
}
indexed! {
    MatRef[(usize, usize)] |m: &MatRef<'_, T>, (i, j)| m.grid.at(i, j);
    MatMut[(usize, usize)] |m: &MatMut<'_, T>, (i, j)| m.grid.at(i, j);
    ColRef[usize] |c: &ColRef<'_, T>, i| c.0.grid.at(i, 0);
    ColMut[usize] |c: &ColMut<'_, T>, i| c.0.grid.at(i, 0);
    RowRef[usize] |r: &RowRef<'_, T>, j| r.0.0.grid.at(j, 0);
}
impl<T> IndexMut<(usize, usize)> for MatMut<'_, T> {
    fn index_mut(&mut self, (i, j): (usize, usize)) -> &mut T {
        unsafe { self.grid.at(i, j).as_mut() }
    }
}
impl<T> IndexMut<usize> for ColMut<'_, T> {
    fn index_mut(&mut self, i: usize) -> &mut T {
        unsafe { self.0.grid.at(i, 0).as_mut() }
    }
}

/// The numbers of views walked together, by `zip!`.
pub struct Zipped<P>(pub P);

/// A view as the walk over its numbers, column after column.
pub trait IntoPlaces {
    type Places: Iterator;
    fn places(self) -> Self::Places;
}

/// The walk over a grid.
struct Walk<T> {
    grid: Grid<T>,
    i: usize,
    j: usize,
}

impl<T> Iterator for Walk<T> {
    type Item = NonNull<T>;
    #[inline]
    fn next(&mut self) -> Option<NonNull<T>> {
        if self.i == self.grid.rows {
            (self.i, self.j) = (0, self.j + 1);
        }
        if self.grid.rows == 0 || self.j >= self.grid.cols {
            return None;
        }
        self.i += 1;
        Some(self.grid.at(self.i - 1, self.j))
    }
    /// A walk from the start, as two plain loops.
    #[inline]
    fn fold<B, F: FnMut(B, NonNull<T>) -> B>(self, init: B, mut f: F) -> B {
        let mut so_far = init;
        for j in 0..self.grid.cols {
            for i in 0..self.grid.rows {
                so_far = f(so_far, self.grid.at(i, j));
            }
        }
        so_far
    }
}

pub struct Read<'a, T>(Walk<T>, PhantomData<&'a T>);
pub struct Write<'a, T>(Walk<T>, PhantomData<&'a mut T>);

impl<'a, T> Iterator for Read<'a, T> {
    type Item = &'a T;
    #[inline]
    fn next(&mut self) -> Option<&'a T> {
        self.0.next().map(|p| unsafe { &*p.as_ptr() })
    }
    #[inline]
    fn fold<B, F: FnMut(B, &'a T) -> B>(self, init: B, mut f: F) -> B {
        self.0.fold(init, |so_far, p| f(so_far, unsafe { &*p.as_ptr() }))
    }
}
impl<'a, T> Iterator for Write<'a, T> {
    type Item = &'a mut T;
    #[inline]
    fn next(&mut self) -> Option<&'a mut T> {
        self.0.next().map(|p| unsafe { &mut *p.as_ptr() })
    }
    #[inline]
    fn fold<B, F: FnMut(B, &'a mut T) -> B>(self, init: B, mut f: F) -> B {
        self.0.fold(init, |so_far, p| f(so_far, unsafe { &mut *p.as_ptr() }))
    }
}

impl<'a, T> IntoPlaces for MatRef<'a, T> {
    type Places = Read<'a, T>;
    fn places(self) -> Read<'a, T> {
        Read(Walk { grid: self.grid, i: 0, j: 0 }, PhantomData)
    }
}
impl<'a, T> IntoPlaces for ColRef<'a, T> {
    type Places = Read<'a, T>;
    fn places(self) -> Read<'a, T> {
        self.0.places()
    }
}
impl<'a, T> IntoPlaces for ColMut<'a, T> {
    type Places = Write<'a, T>;
    fn places(self) -> Write<'a, T> {
        Write(Walk { grid: self.0.grid, i: 0, j: 0 }, PhantomData)
    }
}

impl<A: Iterator> Zipped<(A,)> {
    pub fn for_each(self, mut f: impl FnMut((A::Item,))) {
        self.0.0.for_each(|a| f((a,)));
    }
}
impl<A: Iterator, B: Iterator> Zipped<(A, B)> {
    pub fn for_each(self, f: impl FnMut((A::Item, B::Item))) {
        self.0.0.zip(self.0.1).for_each(f);
    }
}
impl<A: Iterator, B: Iterator, C: Iterator> Zipped<(A, B, C)> {
    pub fn for_each(self, mut f: impl FnMut((A::Item, B::Item, C::Item))) {
        self.0.0.zip(self.0.1).zip(self.0.2).for_each(|((a, b), c)| f((a, b, c)));
    }
}
impl<A: Iterator, B: Iterator, C: Iterator, D: Iterator> Zipped<(A, B, C, D)> {
    pub fn for_each(self, mut f: impl FnMut((A::Item, B::Item, C::Item, D::Item))) {
        self.0.0.zip(self.0.1).zip(self.0.2).zip(self.0.3).for_each(|(((a, b), c), d)| f((a, b, c, d)));
    }
}
