//! Reflections of stored vectors with tails of 4 numbers and more, and of as many as are turned away.

use crate::arith::norm_l2;
use crate::generate::floats::{next_down, next_up, power};
use crate::generate::tails::LONGEST;
use crate::picked::ODD;
use crate::record::Record;

/// The cases of a call; of most, none.
pub fn later(call: &'static str) -> Vec<Record> {
    if call != "make_householder_in_place" {
        return Vec::new();
    }
    let all = [lengths(), odd_places(), sides(), edges(), overflows()].concat();
    all.into_iter().map(|(head, tail)| Record::new(call).float("head", head).list("tail", tail)).collect()
}

type Case = (f64, Vec<f64>);

/// Whole numbers of every length that has no line yet, all different so that each place shows, then
/// tails of zeros of both signs.
fn lengths() -> Vec<Case> {
    let whole = |len: usize| (1..=len).map(|i| if i % 3 == 0 { -(i as f64) } else { i as f64 }).collect();
    let mut cases: Vec<Case> = (6..=LONGEST).map(|len| (49.0, whole(len))).collect();
    cases.extend([4, 64].map(|len| (-3.0, vec![0.0; len])));
    cases.extend([5, 64, 65].map(|len| (0.0, vec![-0.0; len])));
    cases
}

/// NaN and the infinities in every place of 5 and by turns in every place of 64, both in every two
/// places of 4.
fn odd_places() -> Vec<Case> {
    let with = |len: usize, odd: &[(usize, f64)]| {
        let mut tail = vec![1.5; len];
        odd.iter().for_each(|(i, x)| tail[*i] = *x);
        (-0.75, tail)
    };
    let mut cases: Vec<Case> = (0..5).flat_map(|i| ODD.map(|x| with(5, &[(i, x)]))).collect();
    cases.extend((0..64).map(|i| with(64, &[(i, ODD[i % 3])])));
    let pairs = (0..4).flat_map(|i| (0..4).map(move |j| (i, j))).filter(|(i, j)| i != j);
    cases.extend(pairs.map(|(i, j)| with(4, &[(i, f64::NAN), (j, f64::NEG_INFINITY)])));
    cases
}

/// Numbers that vanish one by one behind a large one and do not before it: the norm from the right would
/// be another.
fn sides() -> Vec<Case> {
    let mut cases = Vec::new();
    for len in [4, 5, 8, 16, 33, 63, 64] {
        let mut tail = vec![power(-26); len];
        tail[0] = 1.0;
        cases.push((2.0, tail.clone()));
        tail.reverse();
        cases.push((2.0, tail));
    }
    cases
}

/// Tails of like numbers whose norm is 2^-1022 as near as can be: the last number is moved by steps until
/// the norm is on the other side, and the two sides of the edge are taken.
fn edges() -> Vec<Case> {
    let norm = |tail: &[f64]| norm_l2(tail.iter().copied());
    let mut cases = Vec::new();
    for len in [4, 5, 6, 9, 16, 25, 49, 63, 64] {
        let mut tail = vec![f64::MIN_POSITIVE / (len as f64).sqrt(); len];
        let below = norm(&tail) < f64::MIN_POSITIVE;
        let before = loop {
            let before = tail.clone();
            tail[len - 1] = if below { next_up(tail[len - 1]) } else { next_down(tail[len - 1]) };
            if (norm(&tail) < f64::MIN_POSITIVE) != below {
                break before;
            }
        };
        cases.extend([(1.0, before), (-f64::MIN_POSITIVE, tail)]);
    }
    cases
}

/// Norms of the largest f64 and past it, and a tail that is not past it beside a head that is.
fn overflows() -> Vec<Case> {
    let share = |len: f64| f64::MAX / len.sqrt();
    vec![
        (0.0, vec![share(4.0); 4]),
        (1.0, vec![next_up(share(4.0)); 4]),
        (1.0, vec![share(16.0); 16]),
        (1.0, vec![share(64.0); 64]),
        (1.0, vec![next_down(share(64.0)); 64]),
        (1.0, vec![f64::MAX; 64]),
        (f64::MAX, vec![share(64.0) / 2.0; 64]),
        (f64::INFINITY, vec![1.0; 64]),
        (f64::NAN, vec![1.0; 64]),
        (f64::NAN, vec![0.0; 64]),
    ]
}
