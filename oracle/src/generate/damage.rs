//! Spoils a case so that one line of the list, or several at once, turn it away.

use super::floats::*;
use super::outside;
use super::rng::Rng;
use crate::record::{Record, Value};
use crate::refuse::MOST_PAIRS;
use crate::stride::{self, MOST, SQUARES};

/// One to three damages; some may leave the case accepted.
pub fn damage(rng: &mut Rng, mut case: Record) -> Record {
    for _ in 0..1 + rng.below(3) {
        let field = rng.below(case.fields.len());
        let key = case.fields[field].0;
        spoil(rng, &mut case, key);
    }
    case
}

/// One damage that leaves the form, its rows and its stride.
pub fn beside_the_form(rng: &mut Rng, mut case: Record) -> Record {
    let keys: Vec<_> = case.fields.iter().map(|field| field.0).filter(|key| !["n", "ld", "t"].contains(key)).collect();
    let key = rng.pick(&keys);
    spoil(rng, &mut case, key);
    case
}

fn spoil(rng: &mut Rng, case: &mut Record, key: &'static str) {
    let n = case.n("n").min(99);
    match key {
        "ld" => restride(rng, case, n),
        "n" => change(rng, case, key, &[0, 1, 33, 64, 65, n + 1, n.saturating_sub(1), usize::MAX, 1 << 32]),
        "from" | "to" | "j0" | "col" => change(rng, case, key, &[n, n + 1, n.saturating_sub(1), usize::MAX, 0]),
        "n1" | "n2" => change(rng, case, key, &[0, 1, 2, 3, usize::MAX]),
        "moves" => spoil_moves(rng, case, n),
        "results" => {
            let needed = 4 * (case.ns("moves").len() / 2);
            let to = rng.pick(&[0, 1, needed, needed + 1, needed.saturating_sub(1), needed.saturating_sub(4)]);
            resize_nums(case, key, to);
        }
        "t" if rng.below(4) > 0 => spoil_form(rng, case, n),
        _ => resize(rng, case, key, n),
    }
}

/// A position that is not there, or a list of an odd length or with more than the most pairs, half of
/// these with results that would be long enough.
fn spoil_moves(rng: &mut Rng, case: &mut Record, n: usize) {
    let len = case.ns("moves").len();
    match rng.below(3) {
        0 => {
            let (at, to) = (rng.below(len.max(1)), outside(rng, n));
            if let Some(Value::Nums(moves)) = case.find_mut("moves") {
                moves.iter_mut().skip(at).take(1).for_each(|x| *x = to);
            }
        }
        1 => resize_nums(case, "moves", rng.pick(&[1, len + 1, len.saturating_sub(1), 2 * MOST_PAIRS + 1])),
        _ => {
            let to = rng.pick(&[2 * MOST_PAIRS, 2 * MOST_PAIRS + 1, 2 * MOST_PAIRS + 2, 4 * MOST_PAIRS]);
            resize_nums(case, "moves", to);
            if rng.one_in(2) {
                resize_nums(case, "results", 2 * to);
            }
        }
    }
}

fn resize_nums(case: &mut Record, key: &str, to: usize) {
    if let Some(Value::Nums(list)) = case.find_mut(key) {
        list.resize(to, 0);
    }
}

fn change(rng: &mut Rng, case: &mut Record, key: &str, to: &[usize]) {
    if let Some(Value::Num(x)) = case.find_mut(key) {
        *x = rng.pick(to);
    }
}

/// A stride below n or above the most, one whose product with n wraps around to the right length, or
/// another that passes; half of the short ones with buffers of their length.
fn restride(rng: &mut Rng, case: &mut Record, n: usize) {
    let ld = case.n("ld");
    let wrapping = [ld | 1 << 63, ld | 1 << 62, ld | 1 << 58];
    let further =
        [0, n.saturating_sub(1), n, n + 1, MOST, MOST + 1, 2 * MOST, 1 << 32, usize::MAX, rng.pick(&wrapping)];
    change(rng, case, "ld", &further);
    let ld = case.n("ld");
    if ld <= 2 * MOST && rng.one_in(2) {
        for (_, value) in case.fields.iter_mut().filter(|field| SQUARES.contains(&field.0)) {
            if let Value::List(list) = value {
                list.resize(ld * n, 1.0);
            }
        }
    }
}

/// A wrong length, or one that is right for another n or stride.
fn resize(rng: &mut Rng, case: &mut Record, key: &str, n: usize) {
    let ld = case.find("ld").map(|_| case.n("ld").min(2 * MOST));
    if let Some(Value::List(list)) = case.find_mut(key) {
        let len = list.len();
        let to = match ld {
            None => rng.pick(&[0, 1, len + 1, len.saturating_sub(1), 2 * n, (n + 1) * (n + 1)]),
            Some(ld) => rng.pick(&[0, 1, len + 1, len.saturating_sub(1), n * n, ld, ld * (n + 1), (ld + 1) * n]),
        };
        list.resize(to, 1.0);
    }
}

/// An entry below the subdiagonal, or on it, that is not zero or a zero with its sign set.
fn spoil_form(rng: &mut Rng, case: &mut Record, n: usize) {
    let ld = stride::of(case);
    let t = match case.find_mut("t") {
        Some(Value::List(t)) => t,
        _ => return,
    };
    if n < 2 || n > 64 || ld < n || ld > MOST || t.len() != ld * n {
        return;
    }
    let x = rng.pick(&[1.0, -0.0, f64::NAN, 5e-324, -5e-324, f64::INFINITY]);
    if n > 2 && rng.one_in(2) {
        let j = rng.below(n - 2);
        let i = j + 2 + rng.below(n - j - 2);
        t[i + ld * j] = x;
    } else {
        let j = rng.below(n - 1);
        t[j + 1 + ld * j] = x;
        if j + 2 < n {
            t[j + 2 + ld * (j + 1)] = any(rng);
        }
    }
}
