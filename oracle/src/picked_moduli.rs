//! Pairs of stored vectors whose modulus is chosen for how it rounds, and lists and reflections of them.

use crate::generate::floats::{next_down, next_up};
use crate::generate::moduli::{EDGE_LEGS, times_power, triangle};
use crate::generate::rng::Rng;
use crate::record::Record;

/// The cases of a call; of most, none.
pub fn later(call: &'static str) -> Vec<Record> {
    let case = Record::new(call);
    match call {
        "hypot" => pairs().into_iter().map(|[p, q]| Record::new(call).float("p", p).float("q", q)).collect(),
        "norm_l2" => lists().into_iter().map(|list| case.clone().list("x", list)).collect(),
        "make_householder_in_place" => {
            reflections().into_iter().map(|(head, tail)| case.clone().float("head", head).list("tail", tail)).collect()
        }
        _ => Vec::new(),
    }
}

fn pairs() -> Vec<[f64; 2]> {
    [ties(), gaps(), subnormals(), powers_of_two(), edge(), once_off(), just_past()].concat()
}

/// Pairs whose exact root is the middle of two f64s, six with the even one below and six with it above,
/// from 2^-1021 up; after the first of each sort, a step of either leg down and up.
fn ties() -> Vec<[f64; 2]> {
    let drawn = |rest: u64| {
        let all = (0..).map(|index| triangle(&mut Rng::new(1, "stored", index)));
        let pairs = all.filter(move |triangle| triangle[2] % 4 == rest).zip([-1074, -1000, -53, 0, 500, 970]);
        pairs.map(|([p, q, _], k)| [times_power(p, k), times_power(q, k)])
    };
    let mut pairs: Vec<[f64; 2]> = drawn(1).chain(drawn(3)).collect();
    for [p, q] in [pairs[0], pairs[6]] {
        pairs.extend([[next_down(p), q], [next_up(p), q], [p, next_down(q)], [p, next_up(q)]]);
    }
    pairs
}

/// Around the gap from which on the smaller number drops out, both with the least and most digits.
fn gaps() -> Vec<[f64; 2]> {
    let ends = [1 << 52, (1 << 53) - 1];
    let both = ends.iter().flat_map(|p| ends.map(|q| (*p, q)));
    both.flat_map(|(p, q)| (24..=28).map(move |gap| [times_power(q, -gap), times_power(p, 0)])).collect()
}

/// In units of 2^-1074: both subnormal, with a modulus that is subnormal or not, and with one not.
fn subnormals() -> Vec<[f64; 2]> {
    let least = 1 << 52;
    let units = [
        [1, 1],
        [1, 2],
        [2, 3],
        [3, 4],
        [5, 5],
        [1 << 26, 1],
        [least - 1, 1],
        [least - 1, 1 << 26],
        [least - 1, 1 << 27],
        [least - 1, least - 1],
        [3 << 50, 2_978_851_154_656_372],
        [3 << 50, 2_978_851_154_656_373],
        [least, 1],
        [least, 1 << 26],
        [least, (1 << 26) + 1],
        [least, least - 1],
    ];
    units.iter().map(|pair| pair.map(|x| times_power(x, -1074))).collect()
}

/// A number with each of seven neighbours: moduli around 1, where the f64s below lie closer.
fn powers_of_two() -> Vec<[f64; 2]> {
    let q = (1.0 - 0.625f64 * 0.625).sqrt();
    let first = (0..3).fold(q, |q, _| next_down(q));
    std::iter::successors(Some(first), |q| Some(next_up(*q))).take(7).map(|q| [0.625, q]).collect()
}

/// Around the middle between the largest f64 and 2^1024, from which on it is infinity: exactly there,
/// a step of either leg down and up; with the largest f64; with two equal numbers.
fn edge() -> Vec<[f64; 2]> {
    let [p, q] = EDGE_LEGS.map(|leg| times_power(leg, 970));
    let mut pairs = vec![[p, q], [-q, p]];
    pairs.extend([[next_down(p), q], [next_up(p), q], [p, next_down(q)], [p, next_up(q)]]);
    // The root of 2^55 - 3 units of 2^970, between these two.
    let small = ((1u64 << 55) as f64 - 3.0).sqrt() * 2f64.powi(970);
    pairs.extend([next_down(small), small, next_up(small)].map(|q| [f64::MAX, q]));
    let equal = f64::MAX * 0.5f64.sqrt();
    pairs.extend([next_down(equal), equal, next_up(equal)].map(|x| [x, x]));
    pairs
}

/// Where g × sqrt(1 + (h/g)×(h/g)), document 01's, is off: the least whole numbers.
fn once_off() -> Vec<[f64; 2]> {
    let pairs = [[2, 3], [1, 5], [3, 3], [1, 6], [2, 5], [3, 5], [2, 7], [4, 6], [2, 9], [5, 6], [1, 12], [2, 11]];
    pairs.iter().map(|pair| pair.map(f64::from)).collect()
}

/// Pairs with p² + q² = (2t)² + 1, t odd with 54 digits and 1 more than a multiple of 4: beyond a middle
/// by one part in 2^110, the even one below.
fn just_past() -> Vec<[f64; 2]> {
    let pairs: [[u64; 2]; 4] = [
        [17_441_693_042_450_626, 5_055_596_807_887_905],
        [16_924_522_590_596_926, 7_124_434_336_908_993],
        [17_232_646_637_313_974, 5_853_686_025_377_521],
        [17_169_626_514_130_994, 5_912_609_604_388_673],
    ];
    pairs.iter().map(|pair| pair.map(|x| x as f64)).collect()
}

/// Three numbers of which the nearest of the three would be another, in all orders; a tie that a third
/// number does not lift, and one that is made in the second step.
fn lists() -> Vec<Vec<f64>> {
    let [p, q] = ties()[0];
    let [r, s] = ties()[6];
    let mut lists = vec![vec![1.0; 3], vec![1.0, 1.0, 2.0], vec![1.0, 2.0, 1.0], vec![2.0, 1.0, 1.0]];
    lists.extend([vec![p, q], vec![q, -p, 5e-324], vec![r, s], vec![5e-324, s, -r], vec![-0.0, p, q]]);
    lists.push(EDGE_LEGS.map(|leg| times_power(leg, 970)).to_vec());
    lists
}

/// The norm a tie, of head and tail or of the tail alone; at the edge; a norm that 01's formula missed.
fn reflections() -> Vec<(f64, Vec<f64>)> {
    let [p, q] = ties()[3];
    let [r, s] = ties()[9];
    let edge = EDGE_LEGS.map(|leg| times_power(leg, 970));
    vec![
        (p, vec![q]),
        (-s, vec![r]),
        (0.0, vec![p, q]),
        (3.0, vec![s, r]),
        (edge[0], vec![edge[1]]),
        (2.0, vec![3.0]),
        (0.0, vec![2.0, 3.0]),
        (1.0, vec![1.0, 1.0]),
    ]
}
