//! Tails of reflections, and lists for a norm, of every length up to two more than a reflection takes: a
//! NaN or an infinity in every place, norms at the edge of 2^-1022 and of overflow, and numbers whose
//! norm tells from which side it is taken.

use super::floats::*;
use super::rng::Rng;
use crate::picked::ODD;
use crate::record::Record;
use crate::refuse::LONGEST_TAIL;

pub const LONGEST: usize = LONGEST_TAIL + 2;

/// How many kinds `drawn` knows; the kind with one odd number.
const KINDS: usize = 10;
const ONE_ODD: usize = 1;

/// What the index of a case settles, by turns: length, kind, odd number and its place.
struct Turns {
    len: usize,
    kind: usize,
    odd: f64,
    place: usize,
}

impl Turns {
    /// After so many cases everything has come with everything.
    #[cfg(test)]
    const ALL: u64 = ((LONGEST + 1) * KINDS * ODD.len() * LONGEST) as u64;

    fn of(mut index: u64) -> Turns {
        let mut turn = |of: usize| {
            let k = index % of as u64;
            index /= of as u64;
            k as usize
        };
        let (len, kind, odd) = (turn(LONGEST + 1), turn(KINDS), ODD[turn(ODD.len())]);
        Turns { len, kind, odd, place: turn(len.max(1)) }
    }
}

/// A case of a call on a list.
pub fn case(call: &'static str, rng: &mut Rng, index: u64) -> Record {
    let list = drawn(rng, &Turns::of(index));
    match call {
        "norm_l2" => Record::new(call).list("x", list),
        _ => Record::new(call).float("head", head(rng)).list("tail", list),
    }
}

fn head(rng: &mut Rng) -> f64 {
    let edge = near(rng, f64::MIN_POSITIVE);
    match rng.below(4) {
        0 => any(rng),
        1 => signed(rng, edge),
        2 => signed(rng, 0.0),
        _ => ordinary(rng),
    }
}

fn drawn(rng: &mut Rng, turns: &Turns) -> Vec<f64> {
    let Turns { len, kind, odd, place } = *turns;
    let each = |rng: &mut Rng, f: fn(&mut Rng) -> f64| (0..len).map(|_| f(rng)).collect::<Vec<f64>>();
    match kind {
        0 => each(rng, any),
        ONE_ODD => put(each(rng, ordinary), place, odd),
        2 => {
            let (other, elsewhere) = (rng.pick(&ODD), rng.below(len.max(1)));
            put(put(each(rng, ordinary), elsewhere, other), place, odd)
        }
        3 => with_norm(rng, len, f64::MIN_POSITIVE, 600),
        4 => with_norm(rng, len, f64::MAX, -600),
        5 => far_behind(rng, len),
        6 => far_behind(rng, len).into_iter().rev().collect(),
        7 => put(each(rng, |rng| signed(rng, 0.0)), place, subnormal(rng)),
        8 => each(rng, |rng| rng.between(-60, 60) as f64),
        _ => each(rng, subnormal),
    }
}

fn put(mut list: Vec<f64>, place: usize, x: f64) -> Vec<f64> {
    if let Some(number) = list.get_mut(place) {
        *number = x;
    }
    list
}

/// Numbers whose norm is a few steps from the given one, some on either side; on the way it is brought
/// by 2^k to where squares neither vanish nor overflow.
fn with_norm(rng: &mut Rng, len: usize, norm: f64, k: i64) -> Vec<f64> {
    let raw: Vec<f64> = (0..len).map(|_| ordinary(rng)).collect();
    let size = raw.iter().map(|x| x * x).sum::<f64>().sqrt();
    let scale = norm * power(k) / size;
    let mut list: Vec<f64> = raw.iter().map(|x| x * scale * power(-k)).collect();
    if let Some(last) = list.last_mut() {
        *last = near(rng, *last);
    }
    list
}

/// One number, and behind it others that vanish beside it one by one, but not if they are taken together.
fn far_behind(rng: &mut Rng, len: usize) -> Vec<f64> {
    let gap = rng.between(24, 29);
    let all = (0..len).map(|i| {
        let x = if i == 0 { ordinary(rng) } else { scaled(rng, -gap, 2 - gap) };
        signed(rng, x)
    });
    all.collect()
}

/// What is told apart in the counts of reflections that are done.
pub fn classes(case: &Record, answer: &Record) -> Vec<&'static str> {
    if answer.n("answer") != 0 {
        return Vec::new();
    }
    let tail = case.l("tail");
    let found = [
        (tail.len() > 3, "more than 3 numbers"),
        (tail.iter().any(|x| x.is_nan()), "NaN"),
        (tail.iter().any(|x| x.is_infinite()), "infinity"),
        (answer.f("tau") == f64::INFINITY, "tau infinite"),
    ];
    found.iter().filter(|class| class.0).map(|class| class.1).collect()
}

#[cfg(test)]
mod tests {
    use super::*;
    use crate::arith;
    use std::collections::BTreeSet;

    fn lists(kind: usize) -> impl Iterator<Item = (Turns, Vec<f64>)> {
        let all = (0..Turns::ALL).map(Turns::of).enumerate();
        all.filter(move |(_, turns)| turns.kind == kind).map(|(index, turns)| {
            let list = drawn(&mut Rng::new(5, "tails", index as u64), &turns);
            (turns, list)
        })
    }

    /// Of every length, with each odd number in every place and no other beside it.
    #[test]
    fn every_place_of_every_length() {
        let mut seen = BTreeSet::new();
        for (turns, list) in lists(ONE_ODD) {
            assert_eq!(list.len(), turns.len);
            let odd: Vec<usize> = (0..list.len()).filter(|i| !list[*i].is_finite()).collect();
            assert_eq!(odd, if turns.len == 0 { vec![] } else { vec![turns.place] });
            seen.insert((turns.len, turns.place, turns.odd.to_bits()));
        }
        assert_eq!(seen.len(), ODD.len() * (1 + LONGEST * (LONGEST + 1) / 2));
    }

    /// Of every length a reflection takes, norms a few steps on either side of both edges.
    #[test]
    fn both_sides_of_the_edges() {
        let mut seen = BTreeSet::new();
        for (kind, edge) in [(3, f64::MIN_POSITIVE), (4, f64::INFINITY)] {
            for (turns, list) in lists(kind) {
                let norm = arith::norm_l2(list.iter().copied());
                if (norm.to_bits() as i64 - edge.to_bits() as i64).abs() < 64 {
                    seen.insert((kind, turns.len, norm < edge));
                }
            }
        }
        let expected = (1..=LONGEST).flat_map(|len| [3, 4].map(|kind| [(kind, len, false), (kind, len, true)]));
        assert_eq!(seen, expected.flatten().collect());
    }

    /// Taken from the other side, norms of the lists for it come out otherwise.
    #[test]
    fn sides_differ() {
        let backwards = |list: &[f64]| arith::norm_l2(list.iter().rev().copied());
        for kind in [5, 6] {
            let (mut differ, mut all) = (0, 0);
            for (_, list) in lists(kind) {
                differ += usize::from(arith::norm_l2(list.iter().copied()) != backwards(&list));
                all += 1;
            }
            assert!(differ > all / 2, "{differ} of {all}");
        }
    }
}
