//! The modulus as Note 3 of document 02 has it: the f64 nearest to the exact root of p×p + q×q, ties
//! to even. The processor's root guesses it; whole numbers then settle it, whatever the guess was.

/// The pattern of infinity, which stands for all that is too large.
const INFINITE: u64 = 0x7ff << 52;

/// Infinity if either is infinite, else NaN if either is one, else the nearest.
pub fn hypot(p: f64, q: f64) -> f64 {
    let [p, q] = [p, q].map(|x| x.to_bits() << 1 >> 1);
    if p < INFINITE && q < INFINITE {
        f64::from_bits(nearest(p.max(q), p.min(q)))
    } else if p == INFINITE || q == INFINITE {
        f64::INFINITY
    } else {
        f64::NAN
    }
}

/// Of finite patterns without their signs, h not above g.
fn nearest(g: u64, h: u64) -> u64 {
    let ((larger, power), (smaller, unit)) = (split(g), split(h));
    let gap = power - unit;
    // From a gap of 27 on h is below 2^26 of g's units and g not below 2^52 of them: the root is
    // above g by less than h×h / (2×g), which is below half a unit.
    if gap > 26 || h == 0 {
        return g;
    }
    let (x, y) = (larger as f64, smaller as f64 * f64::from_bits((1023 - gap) << 52));
    let guess = (x * x + y * y).sqrt() as i64 as u64;
    let sum = Sum::new(larger, smaller, gap);
    let digits = sum.settle(guess >> sum.wide);
    // Digits of 2^53 carry over into the power, which makes them right.
    (((power - 1 + sum.wide) << 52) + digits).min(INFINITE)
}

/// A finite pattern without its sign as a whole number, below 2^53, of units of 2^(power - 1075).
fn split(bits: u64) -> (u64, u64) {
    let (power, digits) = (bits >> 52, bits & ((1 << 52) - 1));
    if power == 0 { (digits, 1) } else { (digits | 1 << 52, power) }
}

fn square(x: u64) -> u128 {
    u128::from(x) * u128::from(x)
}

/// Four times the sum of two squares, in squares of the larger number's unit: at least 4.
struct Sum {
    whole: u128,
    /// There is more than that, by less than one square.
    more: bool,
    /// 1 where the root has 54 digits, so that the numbers there are two units apart; else 0.
    wide: u64,
}

impl Sum {
    /// The smaller number's unit is 2^gap times smaller. A gap is at most 26, and `& 63` says so.
    fn new(larger: u64, smaller: u64, gap: u64) -> Sum {
        let whole = square(2 * larger) + (square(2 * smaller) >> ((2 * gap) & 63));
        Sum { whole, more: u64::from(smaller.trailing_zeros()) + 1 < gap, wide: (whole >> 108) as u64 }
    }

    /// Twice the middle of k and k + 1, squared.
    fn middle(&self, k: u64) -> u128 {
        square((2 * k + 1) << self.wide)
    }

    /// The root lies above the middle of k and k + 1, or on it and k is odd.
    fn above(&self, k: u64) -> bool {
        self.middle(k) < self.whole + u128::from(self.more | (k % 2 == 1))
    }

    /// The root lies below the middle of k - 1 and k, or on it and k is odd.
    fn below(&self, k: u64) -> bool {
        self.whole < self.middle(k - 1) + u128::from(!self.more & (k % 2 == 1))
    }

    /// The whole number nearest to the root, of two the even one, from any guess. After the steps up
    /// it is not 0.
    fn settle(&self, mut k: u64) -> u64 {
        while self.above(k) {
            k += 1;
        }
        while self.below(k) {
            k -= 1;
        }
        k
    }
}

#[cfg(test)]
mod tests {
    use super::*;
    use crate::generate::moduli::{EDGE, EDGE_LEGS, KINDS, drawn, times_power, triangle};
    use crate::generate::rng::Rng;
    use std::cmp::Ordering;

    /// A whole number of any length, its digits to the base 2^32 from the lowest.
    #[derive(Clone)]
    struct Long(Vec<u32>);

    impl Long {
        /// x times 2^k.
        fn new(x: u64, k: u64) -> Long {
            let mut digits = vec![0; (k / 32) as usize];
            let shifted = u128::from(x) << (k % 32);
            digits.extend([0, 32, 64].map(|at| (shifted >> at) as u32));
            Long(digits)
        }

        fn digit(&self, i: usize) -> u64 {
            u64::from(self.0.get(i).copied().unwrap_or(0))
        }

        fn plus(&self, other: &Long) -> Long {
            let (mut digits, mut carry) = (Vec::new(), 0);
            for i in 0..=self.0.len().max(other.0.len()) {
                carry += self.digit(i) + other.digit(i);
                digits.push(carry as u32);
                carry >>= 32;
            }
            Long(digits)
        }

        fn squared(&self) -> Long {
            let len = self.0.len();
            let mut digits = vec![0; 2 * len];
            for i in (0..len).filter(|i| self.0[*i] != 0) {
                let mut carry = 0;
                for j in 0..len {
                    carry += u64::from(digits[i + j]) + self.digit(i) * self.digit(j);
                    digits[i + j] = carry as u32;
                    carry >>= 32;
                }
                digits[i + len] = carry as u32;
            }
            Long(digits)
        }

        fn compared(&self, other: &Long) -> Ordering {
            let digits = (0..self.0.len().max(other.0.len())).rev();
            digits.map(|i| self.digit(i).cmp(&other.digit(i))).find(|o| o.is_ne()).unwrap_or(Ordering::Equal)
        }
    }

    /// Whether r is the f64 nearest to the root of p×p + q×q, on a middle the even one: the root lies
    /// between the middles to the f64s beside r, all of it doubled and squared. Infinity has the place
    /// of 2^1024, below which the middle to the largest f64 lies as below any other.
    fn is_nearest(p: f64, q: f64, r: f64) -> bool {
        let patterns = [p, q, r].map(|x| x.to_bits() << 1 >> 1);
        let r = patterns[2];
        let beside = [r.saturating_sub(1), r + 1];
        let all = [patterns[0], patterns[1], r, beside[0], beside[1]];
        let lowest = all.iter().map(|x| split(*x).1).min().unwrap();
        let [p, q, r_long, before, after] = all.map(|x| Long::new(split(x).0, split(x).1 - lowest));
        let twice = |x: &Long| x.plus(x);
        let sum = twice(&p).squared().plus(&twice(&q).squared());
        let from_before = sum.compared(&before.plus(&r_long).squared());
        let to_after = sum.compared(&r_long.plus(&after).squared());
        let even = r % 2 == 0;
        let not_below = r == 0 || from_before.is_gt() || from_before.is_eq() && even;
        let not_above = r == INFINITE || to_after.is_lt() || to_after.is_eq() && even;
        r <= INFINITE && not_below && not_above
    }

    #[test]
    fn long_numbers() {
        let (x, y) = (0xfedc_ba98_7654_3210, 0x0123_4567_89ab_cdef);
        let whole = |x: u128| Long([0, 32, 64, 96].map(|at| (x >> at) as u32).to_vec());
        assert!(Long::new(x, 0).squared().compared(&whole(square(x))).is_eq());
        assert!(
            Long::new(x, 40)
                .plus(&Long::new(y, 7))
                .compared(&whole((u128::from(x) << 40) + (u128::from(y) << 7)))
                .is_eq()
        );
        assert!(Long::new(x, 64).compared(&Long::new(x, 65)).is_lt());
        assert!(is_nearest(3.0, 4.0, 5.0) && !is_nearest(3.0, 4.0, f64::from_bits(5f64.to_bits() + 1)));
        assert!(is_nearest(0.0, 5e-324, 5e-324) && !is_nearest(0.0, 5e-324, 0.0) && !is_nearest(0.0, 5e-324, 1e-323));
        assert!(is_nearest(f64::MAX, 0.0, f64::MAX) && !is_nearest(f64::MAX, 0.0, f64::INFINITY));
        assert!(is_nearest(f64::MAX, f64::MAX, f64::INFINITY) && !is_nearest(f64::MAX, f64::MAX, f64::MAX));
    }

    /// Pairs of any patterns, and of every kind that the generator draws for the modulus: more than a
    /// million.
    #[test]
    fn nearest_by_long_numbers() {
        let any = |rng: &mut Rng| f64::from_bits(rng.bits());
        for (kind, index) in (0..=KINDS).flat_map(|kind| (0..100_000).map(move |index| (kind, index))) {
            let rng = &mut Rng::new(kind as u64, "modulus", index);
            let (p, q) = if kind == KINDS { (any(rng), any(rng)) } else { drawn(rng, kind) };
            if p.is_finite() && q.is_finite() {
                let r = hypot(p, q);
                assert!(is_nearest(p, q, r), "{p:e} {q:e} gives {r:e}");
            }
        }
    }

    /// A hypotenuse of 54 digits, odd, is the middle of two f64s.
    #[test]
    fn ties_go_to_even() {
        let mut seen = [0; 2];
        for index in 0..10_000 {
            let rng = &mut Rng::new(1, "ties", index);
            let [p, q, middle] = triangle(rng);
            assert_eq!(square(p) + square(q), square(middle));
            let k = rng.between(-1074, 970);
            let even = if middle % 4 == 1 { middle - 1 } else { middle + 1 };
            seen[(middle % 4 / 2) as usize] += 1;
            assert_eq!(hypot(times_power(p, k), times_power(q, k)), times_power(even, k), "{p} {q} {k}");
        }
        assert!(seen.iter().all(|side| *side > 4000), "{seen:?}");
    }

    /// The root is at the middle between the largest f64 and 2^1024, or one step of a leg off.
    #[test]
    fn edge_of_overflow() {
        let [p, q] = EDGE_LEGS;
        assert_eq!(square(p) + square(q), square(EDGE));
        let [p, q] = [p, q].map(|leg| times_power(leg, 970));
        let step = |x: f64, by: i64| f64::from_bits(x.to_bits().wrapping_add(by as u64));
        assert_eq!(hypot(p, q), f64::INFINITY);
        assert_eq!([hypot(step(p, 1), q), hypot(p, step(q, 1))], [f64::INFINITY; 2]);
        assert_eq!([hypot(step(p, -1), q), hypot(p, step(q, -1))], [f64::MAX; 2]);
    }

    #[test]
    fn any_guess_is_settled() {
        for index in 0..2000 {
            let rng = &mut Rng::new(1, "guess", index);
            let ([larger, smaller], gap) = ([0; 2].map(|_| rng.bits() >> 12 | 1 << 52), rng.between(0, 26) as u64);
            let sum = Sum::new(larger.max(smaller), larger.min(smaller), gap);
            let right = sum.settle(((sum.whole as f64).sqrt() / 2.0) as u64 >> sum.wide);
            for guess in [right - 5000, right - 2, right - 1, right, right + 1, right + 2, right + 5000] {
                assert_eq!(sum.settle(guess), right);
            }
        }
        let least = Sum::new(1, 1, 0);
        assert_eq!([0, 1, 2, 100].map(|guess| least.settle(guess)), [1; 4]);
    }

    #[test]
    fn infinity_comes_before_nan() {
        let (infinity, nan) = (f64::INFINITY, f64::NAN);
        for x in [nan, -nan, 0.0, -0.0, 1.0, 5e-324, f64::MAX, -infinity] {
            assert_eq!([hypot(x, infinity), hypot(-infinity, x)], [infinity; 2]);
        }
        assert!([0.0, -1.0, nan, f64::MAX].iter().all(|x| hypot(*x, -nan).is_nan() && hypot(nan, *x).is_nan()));
        assert!([0.0, -0.0].iter().all(|x| hypot(*x, -0.0).to_bits() == 0 && hypot(0.0, *x).to_bits() == 0));
    }
}
