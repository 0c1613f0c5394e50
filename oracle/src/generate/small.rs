//! Cases of the calls that have no form: arithmetic, rotations, reflections, standardising, the
//! small solve.

use super::floats::*;
use super::rng::Rng;
use crate::record::Record;

/// Two numbers; over `CLASSES`² cases every class meets every class.
fn pair(rng: &mut Rng, index: u64) -> (f64, f64) {
    let k = index as usize % (CLASSES * CLASSES);
    match rng.below(8) {
        0 => {
            let p = any(rng);
            let q = near(rng, p);
            (p, signed(rng, q))
        }
        1 => far_apart(rng),
        _ => (class(rng, k / CLASSES), class(rng, k % CLASSES)),
    }
}

/// Two numbers so many powers of two apart that one nearly loses itself in the other.
fn far_apart(rng: &mut Rng) -> (f64, f64) {
    let p = ordinary(rng);
    let q = scaled(rng, -56, 56);
    if rng.one_in(2) { (p, q) } else { (q, -p) }
}

fn list(rng: &mut Rng, len: usize) -> Vec<f64> {
    let k = rng.below(3 * CLASSES);
    (0..len).map(|_| if k < CLASSES { class(rng, k) } else { any(rng) }).collect()
}

/// A case of one of these calls.
pub fn case(call: &'static str, rng: &mut Rng, index: u64) -> Record {
    let case = Record::new(call);
    match call {
        "abs" | "abs1" | "abs2" | "recip" => case.float("x", class(rng, index as usize % CLASSES)),
        "sqrt" => case.float("x", under_root(rng, index)),
        "mul_pow2" => {
            let (x, p) = pair(rng, index);
            case.float("x", x).float("p", p)
        }
        "fmax" | "fmin" | "hypot" | "rotg" => {
            let (p, q) = pair(rng, index);
            case.float("p", p).float("q", q)
        }
        "norm_l2" => {
            let len = rng.below(7);
            case.list("x", list(rng, len))
        }
        "inner_prod" => {
            let len = rng.below(9);
            case.list("x", list(rng, len)).list("y", list(rng, len))
        }
        "adjoint" => {
            let (c, s) = pair(rng, index);
            case.float("c", c).float("s", s)
        }
        "apply" => {
            let ((c, s), (x, y)) = (pair(rng, index), pair(rng, index / 7));
            case.float("c", c).float("s", s).float("x", x).float("y", y)
        }
        "make_householder_in_place" => {
            let (head, tail) = reflection(rng, index);
            case.float("head", head).list("tail", tail)
        }
        "lahqr_schur22" => {
            let [a, b, c, d] = block(rng);
            case.float("a", a).float("b", b).float("c", c).float("d", d)
        }
        _ => solve(rng, case),
    }
}

/// An argument of a root: any class, squares and squared midpoints, and their neighbours.
fn under_root(rng: &mut Rng, index: u64) -> f64 {
    let m = u128::from(rng.bits() >> 11 | 1 << 52);
    match rng.below(4) {
        0 => class(rng, index as usize % CLASSES),
        1 => subnormal(rng),
        k => {
            let exact = if k == 2 { m * m } else { m * m + m };
            let x = near(rng, exact as f64);
            // Times an even power of two it is still beside a square.
            x * power(2 * rng.between(-500, 400))
        }
    }
}

/// Heads and tails of any class, around 2^-1022, zero, or whole.
fn reflection(rng: &mut Rng, index: u64) -> (f64, Vec<f64>) {
    let len = if rng.one_in(8) { rng.below(6) } else { 1 + rng.below(3) };
    let edge = |rng: &mut Rng| {
        let x = near(rng, f64::MIN_POSITIVE);
        signed(rng, x)
    };
    let whole = |rng: &mut Rng| rng.between(-60, 60) as f64;
    match rng.below(8) {
        0 => (edge(rng), list(rng, len)),
        1 => (any(rng), (0..len).map(|_| edge(rng)).collect()),
        2 => (edge(rng), (0..len).map(|_| if rng.one_in(2) { edge(rng) } else { subnormal(rng) }).collect()),
        3 => (any(rng), (0..len).map(|_| signed(rng, 0.0)).collect()),
        4 => (whole(rng), (0..len).map(|_| whole(rng)).collect()),
        5 => (ordinary(rng), (0..len).map(|_| ordinary(rng)).collect()),
        _ => (class(rng, index as usize % CLASSES), list(rng, len)),
    }
}

/// A block (a, b, c, d) to standardise, from every branch of lahqr_schur22.
pub fn block(rng: &mut Rng) -> [f64; 4] {
    let [a, b, c, d] = [ordinary(rng), ordinary(rng), ordinary(rng), ordinary(rng)];
    match rng.below(14) {
        0 => [any(rng), any(rng), any(rng), any(rng)],
        1 => [any(rng), any(rng), signed(rng, 0.0), any(rng)],
        2 => [any(rng), signed(rng, 0.0), any(rng), any(rng)],
        3 => [a, b, -b.signum() * c.abs(), a],
        4 => [a, b, c * b.signum() * c.signum(), d],
        5 => complex(rng),
        6 => double(rng),
        7 => spread(rng, [a, b, c, d], -1030, 1000),
        8 => {
            let block = complex(rng);
            spread(rng, block, -1060, 1020)
        }
        9 => {
            let block = double(rng);
            spread(rng, block, -1060, 1020)
        }
        10 => [a, b, b.signum() * scaled(rng, -80, -40), a],
        11 => same_rows(rng, [a, b, c, d]),
        12 => [0; 4].map(|_| rng.between(-3, 3) as f64),
        _ => [0; 4].map(|_| scaled(rng, 1000, 1023)).map(|x| signed(rng, x)),
    }
}

/// A complex pair of values: b and c outweigh the difference of the diagonal.
fn complex(rng: &mut Rng) -> [f64; 4] {
    let (a, b, c) = (ordinary(rng), ordinary(rng), ordinary(rng));
    let gap = 2.0 * (b * c).abs().sqrt() * scaled(rng, -30, -1);
    [a, b, -b.signum() * c.abs(), a + gap]
}

/// Nearly one double value: b × c is about minus the square of half the difference.
fn double(rng: &mut Rng) -> [f64; 4] {
    let (a, b, half) = (ordinary(rng), ordinary(rng), ordinary(rng));
    let c = near(rng, -(half * half) / b);
    [a + half, b, c, a - half]
}

/// All four times one power of two.
fn spread(rng: &mut Rng, block: [f64; 4], low: i64, high: i64) -> [f64; 4] {
    let k = rng.between(low, high);
    block.map(|x| x * power(k / 2) * power(k - k / 2))
}

/// Equal diagonal numbers, NaN or infinite ones among the rest: the rescaling goes round to the end.
fn same_rows(rng: &mut Rng, [a, b, c, _]: [f64; 4]) -> [f64; 4] {
    let odd = rng.pick(&[f64::NAN, f64::INFINITY, f64::NEG_INFINITY, f64::MAX]);
    match rng.below(4) {
        0 => [a, odd, -c.abs(), a],
        1 => [a, b, odd, a],
        2 => [odd, b, c, a],
        _ => [a, b, c, odd],
    }
}

/// A case of lasy2: ties, singular and nearly singular ones, zero, whole, huge and tiny blocks.
fn solve(rng: &mut Rng, case: Record) -> Record {
    let four = |rng: &mut Rng, f: fn(&mut Rng) -> f64| (0..4).map(|_| f(rng)).collect::<Vec<f64>>();
    let unit = |rng: &mut Rng| signed(rng, 1.0);
    let whole = |rng: &mut Rng| rng.between(-2, 2) as f64;
    let huge = |rng: &mut Rng| scaled(rng, 990, 1023);
    let tiny = |rng: &mut Rng| scaled(rng, -1022, -960);
    let wide = |rng: &mut Rng| scaled(rng, -300, 300);
    let close = |rng: &mut Rng, x: &[f64]| x.iter().map(|x| near(rng, *x)).collect::<Vec<f64>>();
    let draws: [fn(&mut Rng) -> f64; 7] = [any, unit, whole, huge, tiny, wide, ordinary];
    let draw = rng.pick(&draws);
    let tl = four(rng, draw);
    let (tr, b) = match rng.below(7) {
        0 => (tl.clone(), four(rng, draw)),
        1 => (close(rng, &tl), four(rng, ordinary)),
        2 => (vec![0.0; 4], vec![0.0; 4]),
        3 => (four(rng, draw), four(rng, any)),
        4 => (four(rng, tiny), four(rng, huge)),
        5 => (four(rng, any), four(rng, draw)),
        _ => (four(rng, draw), four(rng, draw)),
    };
    case.list("tl", tl).list("tr", tr).list("b", b)
}
