//! 2-blocks and forms of stored vectors of the standardised values: of every kind that standardising
//! tells apart. A block is its rows (a, b) and (c, d).

use crate::generate::forms::put;
use crate::picked;
use crate::picked_forms::{form, turns, twos};

type Block = [f64; 4];

const NAN: f64 = f64::NAN;
const INFINITY: f64 = f64::INFINITY;
const LEAST: f64 = 5e-324;
/// 2^-51, below 4 × eps: beside 1 it is taken in the branch of nearly equal values.
const WEAK: f64 = 2.0 * f64::EPSILON;
const ABOVE_ONE: f64 = 1.0 + f64::EPSILON;

/// Equal diagonal numbers and unlike signs: left as they are.
const STANDARD: [Block; 6] = [
    [0.0, 1.0, -1.0, 0.0],
    [0.0, -1.0, 1.0, 0.0],
    [1.0, 2.0, -3.0, 1.0],
    [-5.0, -LEAST, LEAST, -5.0],
    [1.0, f64::MAX, -f64::MAX, 1.0],
    [INFINITY, 1.0, -1.0, INFINITY],
];
/// Unlike signs and unequal diagonal numbers: rotated, and still a complex pair.
const ROTATED: [Block; 6] = [
    [0.0, 1.0, -1.0, 1.0],
    [1.0, -1.0, 1.0, 0.0],
    [1.0, 2.0, -3.0, 1.5],
    [1.0, 1.0, -1.0, ABOVE_ONE],
    [0.0, 1e300, -1e300, 1e300],
    [0.0, 1e-310, -1e-310, 1e-310],
];
/// Entries of one sign: a real pair.
const ONE_SIGN: [Block; 6] = [
    [0.0, 1.0, 1.0, 0.0],
    [0.0, -1.0, -1.0, 0.0],
    [1.0, 2.0, 3.0, 4.0],
    [4.0, -2.0, -3.0, 1.0],
    [-0.0, 1.0, 1.0, 0.0],
    [0.0, f64::MAX, f64::MAX, 0.0],
];
/// Unlike signs that the diagonal numbers outweigh: a real pair.
const OUTWEIGHED: [Block; 2] = [[3.0, -1.0, 1.0, 0.0], [0.0, 1.0, -1.0, 3.0]];
/// b zero: the diagonal numbers change places.
const ZERO_ABOVE: [Block; 7] = [
    [0.0, 0.0, 1.0, 0.0],
    [1.0, 0.0, 1.0, 0.0],
    [1.0, 0.0, 2.0, 1.0],
    [0.0, -0.0, -1.0, -0.0],
    [5.0, 0.0, 2.0, 7.0],
    [5.0, -0.0, -2.0, 7.0],
    [1.0, 0.0, NAN, -3.0],
];
/// Nearly equal values: rotated until the diagonal numbers are equal, then split into a real pair.
const SPLIT: [Block; 4] =
    [[1.0, 1.0, -1.0, 3.0], [3.0, -1.0, 1.0, 1.0], [0.0, 1.0, WEAK, 0.0], [0.0, -WEAK, -1.0, 0.0]];
/// A double value, rotated until c is zero.
const TWICE: [Block; 3] = [[2.0, 1.0, -1.0, 0.0], [0.0, 1.0, -1.0, 2.0], [-2.0, 1.0, -1.0, 0.0]];
/// A double value, rotated until b is zero and c is not.
const LEFT: [Block; 3] = [[2.0, -1.0, 1.0, 0.0], [-2.0, -1.0, 1.0, 0.0], [0.0, -1.0, 1.0, 2.0]];
/// Zeros of unlike sign on the diagonal, which are equal.
const UNLIKE_ZEROS: [Block; 4] =
    [[0.0, 1.0, -1.0, -0.0], [-0.0, 1.0, -1.0, 0.0], [0.0, -1.0, 1.0, -0.0], [-0.0, -1.0, 1.0, 0.0]];
/// A NaN for c that stays.
const NAN_BELOW: [Block; 2] = [[0.0, 1.0, NAN, 0.0], [-0.0, 1.0, NAN, 0.0]];
/// A NaN beside which c comes out zero.
const NAN_REAL: [Block; 4] =
    [[NAN, 1.0, -1.0, 0.0], [0.0, 1.0, -1.0, NAN], [0.0, NAN, -1.0, 0.0], [0.0, -1.0, NAN, 0.0]];
/// A NaN for b that stays.
const NAN_ABOVE: [Block; 1] = [[0.0, NAN, 1.0, 0.0]];

/// All of these, kind after kind.
pub fn each() -> Vec<Block> {
    [
        &STANDARD[..],
        &ROTATED,
        &ONE_SIGN,
        &OUTWEIGHED,
        &ZERO_ABOVE,
        &SPLIT,
        &TWICE,
        &LEFT,
        &UNLIKE_ZEROS,
        &NAN_BELOW,
        &NAN_REAL,
        &NAN_ABOVE,
    ]
    .concat()
}

/// A form of blocks of these sizes, the chosen ones in place of its 2-blocks, by turns.
fn filled(sizes: &[usize], blocks: &[Block]) -> Vec<f64> {
    let (n, mut t) = (sizes.iter().sum::<usize>(), form(sizes));
    let mut next = blocks.iter().cycle();
    let mut i = 0;
    for size in sizes {
        if *size == 2 {
            put(n, &mut t, i, *next.next().expect("a block"));
        }
        i += size;
    }
    t
}

/// Two blocks in each form.
pub fn in_twos(blocks: &[Block]) -> Vec<Vec<f64>> {
    blocks.chunks(2).map(|both| filled(&vec![2; both.len()], both)).collect()
}

/// 64 rows of these.
pub fn large() -> Vec<f64> {
    filled(&twos(64), &each())
}

/// Each alone; those of lahqr_schur22, two in a form; rows and blocks of 1 to 8 rows; zeros of both
/// signs; and as many rows as there may be.
pub fn forms() -> Vec<Vec<f64>> {
    let each = each();
    let mut forms: Vec<Vec<f64>> = each.iter().map(|block| filled(&[2], &[*block])).collect();
    forms.extend(in_twos(&picked::blocks()));
    for n in 1..=8 {
        let from = |k: usize| &each[5 * (n + k) % each.len()..];
        forms.extend([form(&vec![1; n]), filled(&turns(n), from(0)), filled(&twos(n), from(1))]);
    }
    forms.extend([1, 2].iter().flat_map(|n| [vec![0.0; n * n], vec![-0.0; n * n]]));
    forms.push(large());
    forms
}

#[cfg(test)]
mod tests {
    use super::*;
    use crate::taken::leaves::lahqr_schur22;

    /// Each kind comes out of standardising as it says.
    #[test]
    fn kinds_are_what_they_say() {
        let all = |blocks: &[Block], holds: &dyn Fn(Block, Block) -> bool| {
            for [a, b, c, d] in blocks {
                let (out, ..) = lahqr_schur22(*a, *b, *c, *d);
                assert!(holds([*a, *b, *c, *d], [out.0, out.1, out.2, out.3]), "{a} {b} {c} {d}: {out:?}");
            }
        };
        let same = |x: Block, y: Block| x.map(f64::to_bits) == y.map(f64::to_bits);
        let real = |out: Block| out[2] == 0.0;
        all(&STANDARD, &same);
        all(&ROTATED, &|x, y| x[0] != x[3] && !real(y) && y[0] == y[3] && (y[1] > 0.0) != (y[2] > 0.0));
        all(&ONE_SIGN, &|x, y| (x[1] > 0.0) == (x[2] > 0.0) && real(y) && y[0] != y[3]);
        all(&OUTWEIGHED, &|x, y| (x[1] > 0.0) != (x[2] > 0.0) && real(y) && (y[0] - y[3]).abs() > 1.0);
        all(&ZERO_ABOVE, &|x, y| x[1] == 0.0 && real(y) && same([y[3], 0.0, 0.0, y[0]], [x[0], 0.0, 0.0, x[3]]));
        all(&SPLIT, &|_, y| real(y) && y[0] != y[3] && (y[0] - y[3]).abs() < 1e-6);
        all(&TWICE, &|_, y| real(y) && y[0] == y[3]);
        all(&LEFT, &|_, y| y[1] == 0.0 && y[2] > 0.0);
        all(&UNLIKE_ZEROS, &|x, y| same(x, y) && x[0].to_bits() != x[3].to_bits());
        all(&NAN_BELOW, &|x, y| same(x, y) && y[2].is_nan());
        all(&NAN_REAL, &|_, y| real(y));
        all(&NAN_ABOVE, &|x, y| same(x, y) && y[1].is_nan());
    }
}
