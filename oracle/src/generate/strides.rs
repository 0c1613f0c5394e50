//! Puts a case into larger buffers: a stride, and numbers of every kind beyond the corners.

use super::floats::*;
use super::rng::Rng;
use crate::record::Record;
use crate::stride::{self, MOST};

/// What may stand beyond a corner.
const FILLS: usize = 10;

/// The base call's case with a drawn stride.
pub fn spread(rng: &mut Rng, base: &Record) -> Record {
    let ld = stride(rng, base.n("n"));
    spread_to(rng, base, ld)
}

/// The same with a given stride. Each buffer has numbers of one kind beyond its corner.
pub fn spread_to(rng: &mut Rng, base: &Record, ld: usize) -> Record {
    let n = base.n("n");
    let mut fill = 0;
    stride::spread(base, ld, |corner, i, j| {
        if (i, j) == (n, 0) {
            fill = rng.below(FILLS);
        }
        beyond(rng, fill, corner, (i, j), n)
    })
}

/// The least, the next, the greatest, or any.
fn stride(rng: &mut Rng, n: usize) -> usize {
    match rng.below(6) {
        0 => n,
        1 => n + 1,
        2 => MOST,
        _ => n + rng.below(MOST + 1 - n),
    }
}

/// A number in row n or beyond. Two kinds are zero but for what stands right below the corner: the
/// whole row n, or its last number, which would make the last row the first of a 2-block.
fn beyond(rng: &mut Rng, fill: usize, corner: &[f64], (i, j): (usize, usize), n: usize) -> f64 {
    match fill {
        0 => class(rng, 8),
        1 => signed(rng, f64::INFINITY),
        2 => signed(rng, 0.0),
        3 => {
            let x = subnormal(rng);
            signed(rng, x)
        }
        4 => ordinary(rng),
        5 => rng.pick(corner),
        6 if i == n => set(rng),
        7 if (i, j) == (n, n - 1) => set(rng),
        6 | 7 => 0.0,
        _ => any(rng),
    }
}

/// Not zero.
fn set(rng: &mut Rng) -> f64 {
    let x = any(rng);
    if x == 0.0 { f64::NAN } else { x }
}
