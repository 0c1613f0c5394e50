//! Forms to move and exchange in: triangular and with 2-blocks of many kinds.

use super::floats::*;
use super::rng::Rng;
use super::small;
use crate::stopping;

/// How the numbers of one form are drawn.
struct Style {
    /// Numbers above the diagonal.
    upper: usize,
    /// Numbers on it.
    diagonal: usize,
    /// 2-blocks: of this kind, or of any if there is no such kind.
    block: usize,
    /// Of ten places, how many begin a 2-block.
    pairs: usize,
    /// Where nearly equal diagonal numbers lie.
    base: f64,
}

const ENTRIES: usize = 10;
const BLOCKS: usize = 10;
const UNBALANCED: usize = 8;

fn style(rng: &mut Rng) -> Style {
    if rng.one_in(8) {
        return Style { upper: 0, diagonal: 0, block: UNBALANCED, pairs: 9, base: 1.0 };
    }
    let upper = rng.below(ENTRIES);
    let diagonal = if rng.one_in(2) { upper } else { rng.below(ENTRIES + 3) };
    let block = rng.below(2 * BLOCKS);
    Style { upper, diagonal, block, pairs: rng.pick(&[0, 3, 6, 9]), base: ordinary(rng) }
}

/// A number above the diagonal.
fn entry(rng: &mut Rng, kind: usize) -> f64 {
    let x = match kind {
        0 | 1 => ordinary(rng),
        2 => rng.between(0, 5) as f64,
        3 => power(rng.between(-8, 8)),
        4 => scaled(rng, -30, 30),
        5 => scaled(rng, -300, 300),
        6 => scaled(rng, 960, 1023),
        7 => scaled(rng, -1022, -930),
        8 => any(rng),
        _ => {
            if rng.one_in(5) {
                ordinary(rng)
            } else {
                0.0
            }
        }
    };
    signed(rng, x)
}

/// A number on the diagonal: as above, or close to the others.
fn diagonal(rng: &mut Rng, style: &Style) -> f64 {
    match style.diagonal.checked_sub(ENTRIES) {
        None => entry(rng, style.diagonal),
        Some(0) => style.base,
        Some(1) => near(rng, style.base),
        Some(_) => style.base * (1.0 + power(rng.between(-52, -2))),
    }
}

/// Not zero, so that the block is one.
fn set(x: f64) -> f64 {
    if x == 0.0 { 1.0 } else { x }
}

/// A 2-block's rows (a, b) and (c, d), c not zero.
fn block(rng: &mut Rng, style: &Style) -> [f64; 4] {
    let (a, d) = (diagonal(rng, style), diagonal(rng, style));
    let (b, c) = (set(entry(rng, style.upper)), set(entry(rng, style.upper)));
    let unlike = -b.signum() * c.abs();
    let kind = if style.block < BLOCKS { style.block } else { rng.below(BLOCKS) };
    match kind {
        0 | 1 => [a, b, unlike, a],
        2 => [a, b, c, d],
        3 => [a, b, -unlike, d],
        4 => [a, b, set(-b * power(rng.between(-110, -1))), a],
        5 => [a + b, b, set(near(rng, -b)), a - b],
        6 => [a, b, special(rng), d],
        7 => [a, signed(rng, 0.0), c, d],
        UNBALANCED => unbalanced(rng, a),
        _ => [any(rng), any(rng), set(any(rng)), any(rng)],
    }
}

/// A standardised block with a large b and a small c: two of them seldom change places.
fn unbalanced(rng: &mut Rng, a: f64) -> [f64; 4] {
    let k = rng.between(8, 45);
    let b = ordinary(rng) * power(k);
    [a, b, -b.signum() * scaled(rng, -k - 4, 3 - k), a]
}

fn special(rng: &mut Rng) -> f64 {
    let x = rng.pick(&[f64::NAN, f64::INFINITY, f64::MIN_POSITIVE, 5e-324, f64::MAX]);
    signed(rng, x)
}

/// An accepted form of n rows.
pub fn form(rng: &mut Rng, n: usize) -> Vec<f64> {
    let style = style(rng);
    form_in(rng, n, &style)
}

/// An accepted form of n rows of middling numbers, with 2-blocks that have a complex pair: most stay
/// 2-blocks however often they are moved, and some decline each time.
pub fn lasting(rng: &mut Rng, n: usize) -> Vec<f64> {
    let (upper, diagonal) = (rng.below(5), rng.pick(&[0, 1, 2, 3, 4, 10, 11, 12]));
    let (block, pairs) = (rng.pick(&[0, 0, UNBALANCED]), rng.pick(&[3, 6, 9]));
    let style = Style { upper, diagonal, block, pairs, base: ordinary(rng) };
    form_in(rng, n, &style)
}

fn form_in(rng: &mut Rng, n: usize, style: &Style) -> Vec<f64> {
    let zero = rng.one_in(4);
    let mut t = vec![0.0; n * n];
    for j in 0..n {
        for i in 0..n {
            t[i + n * j] = if i < j {
                entry(rng, style.upper)
            } else if i > j && zero {
                signed(rng, 0.0)
            } else {
                0.0
            };
        }
    }
    let mut i = 0;
    while i < n {
        if i + 1 < n && rng.below(10) < style.pairs {
            put(n, &mut t, i, block(rng, style));
            i += 2;
        } else {
            t[i + n * i] = diagonal(rng, style);
            i += 1;
        }
    }
    t
}

/// The rows (a, b) and (c, d) from row i on.
pub fn put(n: usize, t: &mut [f64], i: usize, [a, b, c, d]: [f64; 4]) {
    (t[i + n * i], t[i + n * (i + 1)]) = (a, b);
    (t[i + 1 + n * i], t[i + 1 + n * (i + 1)]) = (c, d);
}

/// An accepted form of n rows; half of its 2-blocks, and of its neighbouring single rows, are blocks
/// drawn to be standardised.
pub fn to_standardise(rng: &mut Rng, n: usize) -> Vec<f64> {
    let mut t = form(rng, n);
    let mut i = 0;
    while i + 1 < n {
        let pair = begins_pair(n, &t, i);
        if (pair || !begins_pair(n, &t, i + 1)) && rng.one_in(2) {
            put(n, &mut t, i, unstandardised(rng));
            i += 2;
        } else {
            i += if pair { 2 } else { 1 };
        }
    }
    t
}

/// As lahqr_schur22 is given them; or what is seldom among these: zeros of unlike sign on the
/// diagonal, equal diagonal numbers with a NaN below, and whole numbers with a double value, of which
/// some come out with b zero and c not.
fn unstandardised(rng: &mut Rng) -> [f64; 4] {
    match rng.below(8) {
        0 => {
            let zero = signed(rng, 0.0);
            [zero, any(rng), set(any(rng)), -zero]
        }
        1 => {
            let a = any(rng);
            [a, any(rng), class(rng, 8), a]
        }
        2 => {
            let (middle, half, scale) = (rng.between(-12, 12), rng.between(-12, 12), power(rng.between(-40, 40)));
            let b = if rng.one_in(2) { half } else { -half };
            [middle + half, b, -b, middle - half].map(|x| x as f64 * scale)
        }
        _ => small::block(rng),
    }
}

/// An accepted form of n rows as `form` draws it, or one drawn so that a move meets a test that fails,
/// or a rotated block that ends with b zero.
pub fn to_stop(rng: &mut Rng, n: usize) -> Vec<f64> {
    match rng.below(9) {
        0..=2 => loud(rng, n),
        3 if n >= 5 => parting(rng, n),
        4 if n >= 4 => ending(rng, n),
        5 => nearly_equal(rng, n),
        6 => doubled(rng, n),
        _ => form(rng, n),
    }
}

/// The first rows of the 2-blocks of a form of n rows.
fn pairs(rng: &mut Rng, n: usize) -> Vec<usize> {
    let share = rng.pick(&[3, 6, 9]);
    let (mut rows, mut i) = (Vec::new(), 0);
    while i + 1 < n {
        let pair = rng.below(10) < share;
        if pair {
            rows.push(i);
        }
        i += if pair { 2 } else { 1 };
    }
    rows
}

/// Numbers near 2^1000, and among those beside the blocks some near overflow: the sums of a reflection
/// overflow there, so that windows of three rows fail, or come out with NaNs. Many of the large ones
/// stand where two blocks meet, which is where the first reflection begins; before a 2-block it takes a
/// large lower entry in that block too, since twice the larger number must not overflow. A few forms
/// have NaNs and infinities as well.
fn loud(rng: &mut Rng, n: usize) -> Vec<f64> {
    let pairs = pairs(rng, n);
    let (place, row, odd) = (rng.below(4), rng.below(n), rng.one_in(6));
    let number = |rng: &mut Rng, low: i64, high: i64| {
        let x = scaled(rng, low, high);
        if odd && rng.one_in(12) { any(rng) } else { signed(rng, x) }
    };
    let mut t = vec![0.0; n * n];
    for j in 0..n {
        for i in 0..=j {
            let large = match place {
                0 => i + 1 == j && rng.one_in(2),
                1 => i == row && i != j,
                2 => i + 1 == j && rng.one_in(6),
                _ => i != j && rng.one_in(8),
            };
            t[i + n * j] = if large { number(rng, 1022, 1023) } else { number(rng, 972, 1005) };
        }
    }
    for i in pairs {
        let (a, b) = (t[i + n * i], number(rng, 980, 1005));
        let (c, d) = (number(rng, 980, 1005), t[i + 1 + n * (i + 1)]);
        let block = match rng.below(3) {
            0 => [a, b, set(-b.signum() * c.abs()), a],
            1 => [a, b, set(b.signum() * c.abs()), d],
            _ => [a, b, set(c), d],
        };
        put(n, &mut t, i, block);
        if i > 0 && rng.one_in(2) {
            let (c, beside) = (close_to_overflow(rng), close_to_overflow(rng));
            t[i + 1 + n * i] = c.copysign(t[i + 1 + n * i]);
            t[i - 1 + n * i] = signed(rng, beside);
        }
        if i + 2 < n && rng.one_in(2) {
            let beside = scaled(rng, 1023, 1023);
            t[i + 1 + n * (i + 2)] = signed(rng, beside);
        }
    }
    t
}

/// Below 2^1023 by an eighth at most.
fn close_to_overflow(rng: &mut Rng) -> f64 {
    power(1023) - scaled(rng, 1000, 1019)
}

/// A 2-block with two real values at the upper or the lower end, next to it a row, and next to that
/// another 2-block. The first comes apart as it passes the row. The numbers where the two 2-blocks meet
/// are such that then the row that comes to the other block last has large ones there, and the row
/// before it has not: it is the second exchange of the step that may fail.
fn parting(rng: &mut Rng, n: usize) -> Vec<f64> {
    let number = |rng: &mut Rng| {
        let x = scaled(rng, 985, 1000);
        signed(rng, x)
    };
    let mut t = vec![0.0; n * n];
    let down = rng.one_in(2);
    // The three rows that are exchanged first, the moved block in them, and the other block. These rows
    // are not large: where a sum of squares overflows, standardising has no rotation.
    let (rows, moved, other) = if down { (0, 0, 3) } else { (n - 3, n - 2, n - 5) };
    for j in 0..n {
        let among = |i: usize| i >= rows && (rows..rows + 3).contains(&j);
        (0..=j).for_each(|i| t[i + n * j] = if among(i) { ordinary(rng) } else { number(rng) });
    }
    let (a, b, d) = (ordinary(rng), ordinary(rng), ordinary(rng));
    put(n, &mut t, moved, [a, b, ordinary(rng).copysign(b), d]);
    let (a, b, c) = (number(rng), close_to_overflow(rng), number(rng));
    put(n, &mut t, other, [a, b.copysign(-c), c, a]);
    let mut window: Vec<f64> = (0..9).map(|k| t[rows + k % 3 + n * (rows + k / 3)]).collect();
    let mut turn: Vec<f64> = (0..9).map(|k| if k % 4 == 0 { 1.0 } else { 0.0 }).collect();
    stopping::reorder(3, &mut window, &mut turn, moved - rows, if down { 2 } else { 0 });
    for place in [other, other + 1] {
        let large = scaled(rng, 1022, 1022);
        let large = signed(rng, large);
        for k in 0..3 {
            let (i, j) = if down { (rows + k, place) } else { (place, rows + k) };
            t[i + n * j] = large * turn[k + 3];
        }
    }
    t
}

/// A 2-block at the upper or the lower end, and at the other end a row with large numbers on the
/// diagonal and where it meets the block, which passes all that is between before it may fail.
fn ending(rng: &mut Rng, n: usize) -> Vec<f64> {
    let mut t = vec![0.0; n * n];
    for j in 0..n {
        (0..=j).for_each(|i| t[i + n * j] = ordinary(rng));
    }
    let down = rng.one_in(2);
    let (moved, last) = if down { (0, n - 1) } else { (n - 2, 0) };
    for i in pairs(rng, n - 3).into_iter().map(|i| i + if down { 2 } else { 1 }).chain([moved]) {
        let (a, b, c) = (ordinary(rng), ordinary(rng), ordinary(rng));
        put(n, &mut t, i, [a, b, c.copysign(-b), a]);
    }
    let diagonal = close_to_overflow(rng);
    t[last + n * last] = signed(rng, diagonal);
    for k in [moved, moved + 1] {
        let (i, j) = (k.min(last), k.max(last));
        let large = scaled(rng, 1021, 1022);
        t[i + n * j] = signed(rng, large);
    }
    t
}

/// 2-blocks that are one and the same up to some bits, with large numbers beside them: the small solve
/// is close to singular.
fn nearly_equal(rng: &mut Rng, n: usize) -> Vec<f64> {
    let (pairs, k) = (pairs(rng, n), rng.between(0, 40));
    let (a, b, c) = (ordinary(rng), ordinary(rng), ordinary(rng).abs());
    let mut t = vec![0.0; n * n];
    for j in 0..n {
        (0..j).for_each(|i| t[i + n * j] = ordinary(rng) * power(k));
        t[j + n * j] = near(rng, a);
    }
    for i in pairs {
        let off = 1.0 + power(rng.between(-52, -20));
        put(n, &mut t, i, [a * off, near(rng, b), near(rng, -b.signum() * c), a * off]);
    }
    t
}

/// 2-blocks of whole numbers with a double value, single rows with one of their diagonal numbers, and
/// mostly zeros beside them: exchanges are exact, and some rotated blocks end with b zero.
fn doubled(rng: &mut Rng, n: usize) -> Vec<f64> {
    let pairs = pairs(rng, n);
    let (middle, half, scale) = (rng.between(-6, 6), rng.between(1, 6), power(rng.between(-40, 40)));
    let full = rng.one_in(4);
    let number = |x: i64| x as f64 * scale;
    let mut t = vec![0.0; n * n];
    for j in 0..n {
        (0..j).for_each(|i| t[i + n * j] = if full && rng.one_in(3) { number(rng.between(-2, 2)) } else { 0.0 });
        t[j + n * j] = number(rng.pick(&[middle + half, middle - half, middle, 0]));
    }
    for i in pairs {
        let (half, b) = (signed(rng, half as f64) as i64, signed(rng, half as f64) as i64);
        put(n, &mut t, i, [middle + half, b, -b, middle - half].map(number));
    }
    t
}

/// A factor: none, the unit matrix, or any numbers.
pub fn factor(rng: &mut Rng, n: usize) -> Vec<f64> {
    match rng.below(4) {
        0 => Vec::new(),
        1 => (0..n * n).map(|k| if k % n == k / n { 1.0 } else { 0.0 }).collect(),
        2 => buffer(rng, n * n),
        _ => (0..n * n).map(|_| ordinary(rng)).collect(),
    }
}

/// A lent buffer of any content.
pub fn buffer(rng: &mut Rng, len: usize) -> Vec<f64> {
    (0..len).map(|_| any(rng)).collect()
}

/// True where a 2-block begins.
pub fn begins_pair(n: usize, t: &[f64], i: usize) -> bool {
    i + 1 < n && t[i + 1 + n * i] != 0.0
}

/// The first rows of all blocks.
pub fn starts(n: usize, t: &[f64]) -> Vec<usize> {
    let mut rows = Vec::new();
    let mut i = 0;
    while i < n {
        rows.push(i);
        i += if begins_pair(n, t, i) { 2 } else { 1 };
    }
    rows
}
