//! Pairs of numbers whose modulus is hard to round: gaps where the smaller one is about to drop out,
//! middles and what lies beside them, powers of two, subnormals, the edge of overflow.

use super::floats::*;
use super::rng::Rng;
use crate::record::Record;

/// How many kinds `drawn` knows.
pub const KINDS: usize = 10;

/// 2^54 - 1, which times 2^970 is the middle between the largest f64 and 2^1024. It is the hypotenuse
/// of four triangles of whole numbers; both legs are f64s in this one alone.
pub const EDGE: u64 = (1 << 54) - 1;
pub const EDGE_LEGS: [u64; 2] = [6_081_690_782_099_583, 16_956_756_496_728_720];

/// The powers of two that legs of a middle may be multiplied by, and still be f64s with a finite
/// modulus, or one at the edge.
const LEAST: i64 = -1074;
const MOST: i64 = 970;

/// A pair of the given kind, in either order and of any signs.
pub fn drawn(rng: &mut Rng, kind: usize) -> (f64, f64) {
    let (p, q) = match kind {
        0 => apart(rng, 24, 30, extreme),
        1 => apart(rng, 20, 30, digits),
        2 => legs(rng),
        3 => {
            let (p, q) = legs(rng);
            if rng.one_in(2) { (near(rng, p), q) } else { (p, near(rng, q)) }
        }
        4 | 5 => {
            let middle = if kind == 4 { rng.bits() >> 11 | 1 << 53 | 1 } else { 1 << 54 };
            let k = rng.between(LEAST + 54, MOST);
            close_to(rng, middle, k)
        }
        6 => edge(rng),
        7 => (subnormal(rng), subnormal(rng)),
        8 => {
            let x = if rng.one_in(2) { near(rng, f64::MIN_POSITIVE) } else { scaled(rng, -1022, -990) };
            (x, subnormal(rng))
        }
        _ => {
            let k = rng.between(-1022, 1022);
            (scaled(rng, k, k), scaled(rng, k, k + 1))
        }
    };
    let (p, q) = if rng.one_in(2) { (p, q) } else { (q, p) };
    (signed(rng, p), signed(rng, q))
}

/// A case of a call that takes moduli.
pub fn case(call: &'static str, rng: &mut Rng, index: u64) -> Record {
    let (p, q) = drawn(rng, index as usize % KINDS);
    match call {
        "hypot" => Record::new(call).float("p", p).float("q", q),
        "norm_l2" => {
            let further = rng.below(3);
            let (r, s) = drawn(rng, index as usize / 5 % KINDS);
            Record::new(call).list("x", [&[p, q], &[r, s][..further]].concat())
        }
        _ => {
            let head = if rng.one_in(2) { signed(rng, 0.0) } else { any(rng) };
            let (head, tail) = if rng.one_in(2) { (p, vec![q]) } else { (head, vec![p, q]) };
            Record::new(call).float("head", head).list("tail", tail)
        }
    }
}

/// 53 digits, any or at an end.
fn digits(rng: &mut Rng) -> u64 {
    rng.bits() >> 12 | 1 << 52
}

fn extreme(rng: &mut Rng) -> u64 {
    let any = digits(rng);
    rng.pick(&[1 << 52, (1 << 52) + 1, (1 << 53) - 2, (1 << 53) - 1, any])
}

/// Exactly x times 2^k, which must be an f64.
pub fn times_power(x: u64, k: i64) -> f64 {
    let zeros = i64::from(x.trailing_zeros());
    (x >> zeros) as f64 * power(k + zeros)
}

/// Exponents from `least` to `most` apart, the digits as said.
fn apart(rng: &mut Rng, least: i64, most: i64, digits: fn(&mut Rng) -> u64) -> (f64, f64) {
    let gap = rng.between(least, most);
    let k = rng.between(LEAST + gap, MOST + 1);
    (times_power(digits(rng), k), times_power(digits(rng), k - gap))
}

/// The legs of a triangle of whole numbers, both f64s, and its hypotenuse, which is odd and has 54
/// digits: the middle of two f64s. Divided by 4 it leaves what the factor leaves, 1 if the even one of
/// the two is the lower, 3 if it is the upper.
pub fn triangle(rng: &mut Rng) -> [u64; 3] {
    loop {
        let factor = rng.bits() >> rng.between(42, 62) | 1;
        let most = ((1u64 << 54) as f64 / factor as f64).sqrt() as i64;
        let (m, n) = (rng.between(most / 2, most) as u64, rng.between(1, most) as u64);
        if m <= n || (m + n) % 2 == 0 {
            continue;
        }
        // The even leg is a multiple of 4, so that 55 digits would do.
        let [odd, even, longest] = [m * m - n * n, 2 * m * n, m * m + n * n].map(|x| x * factor);
        if odd >> 53 == 0 && longest >> 53 == 1 {
            return [odd, even, longest];
        }
    }
}

fn legs(rng: &mut Rng) -> (f64, f64) {
    let [p, q, _] = triangle(rng);
    let k = rng.between(LEAST, MOST);
    (times_power(p, k), times_power(q, k))
}

/// Two f64s with a modulus as close to the given number of 54 digits, times 2^k, as some steps of the
/// second bring it.
fn close_to(rng: &mut Rng, middle: u64, k: i64) -> (f64, f64) {
    let (even, odd) = (middle & !1, middle & 1);
    let p = match rng.pick(&[20, 45, 53, 54]) {
        54 => (even - 2 * rng.below(100) as u64) as f64,
        least => scaled(rng, least, 53),
    };
    let rest = (even as f64 - p) + odd as f64;
    let q = (rest * (even as f64 + p)).max(1.0).sqrt();
    (p * power(k), near(rng, q) * power(k))
}

/// At the edge of overflow.
fn edge(rng: &mut Rng) -> (f64, f64) {
    if rng.one_in(8) {
        let [p, q] = EDGE_LEGS.map(|leg| times_power(leg, MOST));
        return if rng.one_in(2) { (p, q) } else { (near(rng, p), q) };
    }
    close_to(rng, EDGE, MOST)
}
