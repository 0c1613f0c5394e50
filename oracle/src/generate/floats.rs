//! Single numbers: the edge patterns, and a draw from each class of numbers.

use super::rng::Rng;

/// One or more representatives of every kind of f64.
pub const PATTERNS: &[u64] = &[
    0x0000_0000_0000_0000, // +0
    0x8000_0000_0000_0000, // -0
    0x0000_0000_0000_0001, // least subnormal
    0x8000_0000_0000_0001,
    0x000f_ffff_ffff_ffff, // greatest subnormal
    0x0010_0000_0000_0000, // 2^-1022
    0x8010_0000_0000_0000,
    0x01a5_6e1f_c2f8_f359, // 1e-300
    0x3fe0_0000_0000_0000, // 0.5
    0x3fef_ffff_ffff_ffff, // just below 1
    0x3ff0_0000_0000_0000, // 1
    0xbff0_0000_0000_0000,
    0x3ff0_0000_0000_0001, // just above 1
    0x4000_0000_0000_0000, // 2
    0x4008_0000_0000_0000, // 3
    0xc008_0000_0000_0000,
    0x4010_0000_0000_0000, // 4
    0x4048_8000_0000_0000, // 49
    0x7e37_e43c_8800_759c, // 1e300
    0xfe37_e43c_8800_759c,
    0x7fef_ffff_ffff_ffff, // greatest finite
    0xffef_ffff_ffff_ffff,
    0x7ff0_0000_0000_0000, // infinities
    0xfff0_0000_0000_0000,
    0x7ff8_0000_0000_0000, // NaN
];

/// One pattern of each class and sign: of those above, without near repeats.
pub const EDGES: &[u64] = &[
    0x0000_0000_0000_0000, // zeros
    0x8000_0000_0000_0000,
    0x0000_0000_0000_0001, // least subnormals
    0x8000_0000_0000_0001,
    0x000f_ffff_ffff_ffff, // greatest subnormal
    0x0010_0000_0000_0000, // 2^-1022
    0x8010_0000_0000_0000,
    0x3ff0_0000_0000_0000, // 1
    0xbff0_0000_0000_0000,
    0x4008_0000_0000_0000, // 3
    0xc008_0000_0000_0000,
    0x4048_8000_0000_0000, // 49
    0x7fef_ffff_ffff_ffff, // greatest finite
    0xffef_ffff_ffff_ffff,
    0x7ff0_0000_0000_0000, // infinities
    0xfff0_0000_0000_0000,
    0x7ff8_0000_0000_0000, // NaN
];

/// How many classes `class` knows.
pub const CLASSES: usize = 14;

/// A number of the given class, of either sign.
pub fn class(rng: &mut Rng, class: usize) -> f64 {
    let x = match class {
        0 => ordinary(rng),
        1 => rng.between(0, 9) as f64,
        2 => power(rng.between(-1074, 1023)),
        3 => power(rng.between(-8, 8)),
        4 => subnormal(rng),
        5 => scaled(rng, 960, 1023),
        6 => scaled(rng, -1022, -960),
        7 => f64::INFINITY,
        8 => f64::from_bits(0x7ff0_0000_0000_0001 | rng.bits()),
        9 => 0.0,
        10 => f64::from_bits(rng.bits()),
        11 => {
            let x = pattern(rng);
            near(rng, x)
        }
        12 => near(rng, f64::MIN_POSITIVE),
        _ => scaled(rng, -540, 540),
    };
    signed(rng, x)
}

/// A number of any class.
pub fn any(rng: &mut Rng) -> f64 {
    let k = rng.below(CLASSES);
    class(rng, k)
}

pub fn pattern(rng: &mut Rng) -> f64 {
    f64::from_bits(rng.pick(PATTERNS))
}

pub fn ordinary(rng: &mut Rng) -> f64 {
    let x = scaled(rng, -4, 3);
    signed(rng, x)
}

pub fn signed(rng: &mut Rng, x: f64) -> f64 {
    if rng.one_in(2) { -x } else { x }
}

/// A few steps away from `x`.
pub fn near(rng: &mut Rng, x: f64) -> f64 {
    f64::from_bits(x.to_bits().wrapping_add(rng.between(-3, 3) as u64))
}

/// The next number above a finite one.
pub fn next_up(x: f64) -> f64 {
    f64::from_bits(match x.to_bits() {
        _ if x == 0.0 => 1,
        bits if x > 0.0 => bits + 1,
        bits => bits - 1,
    })
}

/// The next number below a finite one that is not zero.
pub fn next_down(x: f64) -> f64 {
    -next_up(-x)
}

/// A subnormal of any number of digits.
pub fn subnormal(rng: &mut Rng) -> f64 {
    f64::from_bits(rng.bits() >> rng.between(12, 63))
}

/// 2^k for k from -1074 to 1023.
pub fn power(k: i64) -> f64 {
    f64::from_bits(if k >= -1022 { ((k + 1023) as u64) << 52 } else { 1 << (k + 1074) })
}

/// A positive normal number with its exponent from `low` to `high`.
pub fn scaled(rng: &mut Rng, low: i64, high: i64) -> f64 {
    let exponent = (rng.between(low, high) + 1023) as u64;
    f64::from_bits((exponent << 52) | (rng.bits() >> 12))
}
