//! Lines 2 to 11 of document 01's list, in its order: when a call is turned away. With a stride, line
//! 17 comes after 2; of a list of moves, line 12 before it. Line 1, on the program's text, is in sheet.rs.

use crate::stride;

/// `Err` with the number of the first line that applies.
pub type Passed = Result<(), usize>;

pub const MOST_ROWS: usize = 64;
pub const LONGEST_TAIL: usize = 64;
pub const MOST_PAIRS: usize = 64;

fn line(number: usize, applies: bool) -> Passed {
    if applies { Err(number) } else { Ok(()) }
}

/// Minus zero is zero, a NaN is not.
fn is_set(x: f64) -> bool {
    x != 0.0
}

fn size(n: usize, most: usize) -> Passed {
    line(2, n == 0 || n > most)
}

/// The lengths of a form, a factor and vectors, of a stride and n that pass.
fn square(ld: usize, n: usize, t: &[f64]) -> Passed {
    line(3, t.len() != ld * n)
}

fn factor(ld: usize, n: usize, u: &[f64]) -> Passed {
    line(4, !u.is_empty() && u.len() != ld * n)
}

fn whole(ld: usize, n: usize, v: &[f64]) -> Passed {
    line(4, v.len() != ld * n)
}

/// Lines 5 and 6, on a form of the right length.
pub fn form(n: usize, t: &[f64]) -> Passed {
    let at = |i: usize, j: usize| is_set(t[i + n * j]);
    line(5, (0..n).any(|j| (j + 2..n).any(|i| at(i, j))))?;
    line(6, (2..n).any(|i| at(i - 1, i - 2) && at(i, i - 1)))
}

/// What a move is turned away for; the program allows fewer rows.
pub fn reorder(most: usize, n: usize, t: &[f64], u: &[f64], from: usize, to: usize) -> Passed {
    size(n, most)?;
    square(n, n, t)?;
    factor(n, n, u)?;
    form(n, t)?;
    line(7, from >= n || to >= n)
}

/// What a list of moves is turned away for itself; its pairs are turned away one by one.
pub fn list(moves: &[usize], results: &[usize]) -> Passed {
    let pairs = moves.len() / 2;
    line(12, moves.len() % 2 != 0 || pairs > MOST_PAIRS || results.len() < 4 * pairs)
}

pub fn exchange(n: usize, t: &[f64], u: &[f64], j0: usize, n1: usize, n2: usize) -> Passed {
    size(n, MOST_ROWS)?;
    square(n, n, t)?;
    factor(n, n, u)?;
    form(n, t)?;
    line(7, j0 >= n)?;
    line(8, !matches!(n1, 1 | 2) || !matches!(n2, 1 | 2))?;
    line(9, j0 + n1 + n2 > n)?;
    let across = |edge: usize| edge > 0 && edge < n && is_set(t[edge + n * (edge - 1)]);
    line(10, across(j0) || across(j0 + n1) || across(j0 + n1 + n2))
}

/// Of values by either reading.
pub fn values(n: usize, t: &[f64], re: &[f64], im: &[f64]) -> Passed {
    size(n, MOST_ROWS)?;
    square(n, n, t)?;
    line(4, re.len() != n || im.len() != n)?;
    form(n, t)
}

pub fn vectors(n: usize, t: &[f64], v: &[f64]) -> Passed {
    size(n, MOST_ROWS)?;
    square(n, n, t)?;
    whole(n, n, v)?;
    form(n, t)
}

pub fn column(n: usize, v: &[f64], col: usize) -> Passed {
    size(n, MOST_ROWS)?;
    whole(n, n, v)?;
    line(7, col >= n)
}

pub fn reflection(tail: &[f64]) -> Passed {
    line(11, !matches!(tail.len(), 1..=LONGEST_TAIL))
}

/// Lines 2, 17, 3 and 4 on the buffers with a stride that a call is given; what comes after them
/// speaks of the corner.
pub fn strided(n: usize, ld: usize, form: Option<&[f64]>, u: Option<&[f64]>, vectors: Option<&[f64]>) -> Passed {
    size(n, MOST_ROWS)?;
    line(17, ld < n || ld > stride::MOST)?;
    form.map_or(Ok(()), |t| square(ld, n, t))?;
    u.map_or(Ok(()), |u| factor(ld, n, u))?;
    vectors.map_or(Ok(()), |v| whole(ld, n, v))
}
