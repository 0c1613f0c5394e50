//! Cases of stored vectors of the move that stops: windows of three rows for each number that is tested,
//! moves that stop in every way, a b of zero exchanged, and every refusal.

use crate::calls;
use crate::generate::floats::{next_up, power};
use crate::note::Notes;
use crate::picked_forms::*;
use crate::record::Record;

pub const CALL: &str = "reorder_schur_stopping";

/// A window of three rows, a single row and a 2-block, and what its test meets: which of the three
/// numbers are above the threshold, which are at it, and how many are NaN. The block is its rows (a, b)
/// and (c, d); beside the diagonal stand two numbers, from left to right or from top to bottom.
#[cfg_attr(not(test), allow(dead_code))]
pub struct Window {
    n1: usize,
    block: [f64; 4],
    single: f64,
    beside: [f64; 2],
    above: &'static [usize],
    at: &'static [usize],
    nans: usize,
}

impl Window {
    /// The form, column after column.
    pub fn form(&self) -> [f64; 9] {
        let (x, [a, b, c, d], [p, q]) = (self.single, self.block, self.beside);
        if self.n1 == 1 { [x, 0.0, 0.0, p, a, c, q, b, d] } else { [a, c, 0.0, b, d, 0.0, p, q, x] }
    }
}

/// Each number alone above the threshold, infinite or not; all of them; beside NaNs; at the threshold,
/// and one step above it; NaNs alone, which pass. All come from sums that overflow: the largest number
/// is 2^1023, and the threshold 10 × 2^971.
pub fn windows() -> Vec<Window> {
    let (most, half, between, edge) = (power(1023), power(1022), 1.5 * power(1022), 10.0 * power(971));
    let past = next_up(edge);
    let of = |n1, [a, b, c, d, single, p, q]: [f64; 7], above, at, nans| Window {
        n1,
        block: [a, b, c, d],
        single,
        beside: [p, q],
        above,
        at,
        nans,
    };
    vec![
        of(1, [0.0, between, 1.0, 0.0, 0.0, 0.0, most], &[0], &[], 0),
        of(1, [0.0, 0.0, most, 0.0, 0.0, between, 0.0], &[1], &[], 0),
        of(1, [most, 0.0, most, 0.0, 1.0, half, 0.0], &[2], &[], 0),
        of(1, [1.0, 0.0, 1.0, half, 0.0, 0.0, most], &[0, 1, 2], &[], 0),
        of(1, [most, 1.0, most, 0.0, 1.0, half, 0.0], &[1, 2], &[], 0),
        of(1, [0.0, between, most, most, 0.0, between, 0.0], &[1], &[], 1),
        of(1, [0.0, most, most, most, most, 0.0, 0.0], &[0], &[], 2),
        of(1, [most, 0.0, edge, 0.0, 0.0, between, 0.0], &[], &[1], 0),
        of(1, [most, 0.0, past, 0.0, 0.0, between, 0.0], &[1], &[], 0),
        of(1, [0.0, 0.0, most, 0.0, edge, between, 0.0], &[], &[2], 0),
        of(1, [0.0, 0.0, most, 0.0, past, between, 0.0], &[2], &[], 0),
        of(1, [0.0, 0.0, 1.0, 0.0, 0.0, most, 0.0], &[], &[], 3),
        of(2, [0.0, 0.0, most, 0.0, 0.0, 0.0, between], &[0], &[], 0),
        of(2, [0.0, between, 1.0, 0.0, 0.0, most, 0.0], &[1], &[], 0),
        of(2, [0.0, 0.0, most, most, 1.0, 0.0, half], &[2], &[], 0),
        of(2, [0.0, 0.0, half, 0.0, most, most, 0.0], &[2], &[], 0),
        of(2, [most, most, 1.0, 0.0, 1.0, 0.0, 0.0], &[0, 1, 2], &[], 0),
        of(2, [0.0, most, 1.0, most, most, 0.0, 1.0], &[1], &[], 2),
        of(2, [0.0, 0.0, edge, most, 0.0, 0.0, between], &[], &[0], 0),
        of(2, [0.0, 0.0, past, most, 0.0, 0.0, between], &[0], &[], 0),
        of(2, [0.0, 0.0, most, 0.0, edge, 0.0, between], &[], &[2], 0),
        of(2, [0.0, 0.0, most, 0.0, past, 0.0, between], &[2], &[], 0),
        of(2, [0.0, most, edge, 0.0, most, most, 0.0], &[], &[1], 2),
        of(2, [0.0, 0.0, 1.0, 0.0, 0.0, 0.0, most], &[], &[], 1),
        of(2, [0.0, most, most, 1.0, 0.0, 0.0, 0.0], &[], &[], 3),
    ]
}

/// The move on the form of a case of the old one.
fn stopping(case: &Record) -> Record {
    Record { call: CALL, fields: case.fields.clone() }
}

pub fn a_stopping_move(t: Vec<f64>, u: Vec<f64>, from: usize, to: usize) -> Record {
    stopping(&a_move(t, u, from, to))
}

/// Each window down and up, with a factor and without.
pub fn at_windows() -> Vec<Record> {
    windows().iter().flat_map(|window| down_and_up(window.form())).collect()
}

fn down_and_up(t: [f64; 9]) -> [Record; 2] {
    [a_stopping_move(t.to_vec(), unit(3), 0, 2), a_stopping_move(t.to_vec(), Vec::new(), 2, 0)]
}

/// Windows so small that nothing is reflected: the entry that is to become zero stays, above 10 × eps ×
/// dnorm, and below the least threshold.
pub fn at_small_windows() -> Vec<Record> {
    let with = |place: usize, x: f64| {
        let mut t = [0.0; 9];
        t[place] = x;
        t
    };
    [1, 5].iter().flat_map(|place| [5e-324, -power(-1023)].map(|x| with(*place, x))).flat_map(down_and_up).collect()
}

/// Exchanges of two 2-blocks at the bound: those near it, and pairs of forms that differ in the last
/// bit of a number beside the blocks, of which one stops.
pub fn at_the_bound() -> Vec<Record> {
    let mut cases: Vec<Record> =
        near().iter().map(|c| a_stopping_move(c.l("t").to_vec(), c.l("u").to_vec(), 0, 3)).collect();
    for case in near().iter().filter(|case| calls::answer(case).0.n("declined") == 0) {
        for place in [8, 9, 12, 13] {
            let with = |x: u64| {
                let mut t = case.l("t").to_vec();
                t[place] = f64::from_bits(x);
                a_stopping_move(t, Vec::new(), 0, 3)
            };
            let stops = |x: u64| calls::answer(&with(x)).0.n("stopped") == 1;
            let (mut low, mut high) = (case.l("t")[place].to_bits(), (case.l("t")[place] * power(6)).to_bits());
            if !stops(high) {
                continue;
            }
            while high - low > 1 {
                let middle = low + (high - low) / 2;
                if stops(middle) { high = middle } else { low = middle }
            }
            cases.extend([with(low), with(high)]);
        }
    }
    cases
}

/// Drawn moves of n rows: down, then up.
fn both_ways(n: usize, count: usize, wanted: impl Fn(&Notes) -> bool) -> Vec<Record> {
    let way = |down: bool| drawn(CALL, n, count, |c, notes| wanted(notes) && (c.n("from") < c.n("to")) == down);
    [way(true), way(false)].concat()
}

/// Moves that stop at each size, at the first exchange and after others; at the second exchange of a
/// step of a parted block, the first of which stays made; and moves with a b of zero exchanged.
pub fn stops() -> Vec<Record> {
    let at = |notes: &Notes| notes.stop.map(|(n1, n2, _)| (n1, n2));
    let mut cases = Vec::new();
    for n in 3..=8 {
        for sizes in [(1, 2), (2, 1), (2, 2)].into_iter().filter(|sizes| sizes.0 + sizes.1 <= n) {
            cases.extend(both_ways(n, 1, |notes| at(notes) == Some(sizes)));
            if n > 5 {
                cases.extend(both_ways(n, 1, |notes| at(notes) == Some(sizes) && notes.swaps > 1));
            }
        }
        if n > 4 {
            cases.extend(both_ways(n, 2, |notes| notes.stop.map_or(false, |stop| stop.2 == 2)));
            cases.extend(both_ways(n, 1, |notes| notes.stop.is_some() && notes.splits > 0));
            cases.extend(both_ways(n, 1, |notes| notes.stop.is_none() && notes.splits > 0 && notes.swaps > 3));
        }
        cases.extend(both_ways(n, 1, |notes| notes.zero_b > 0));
    }
    cases.extend(both_ways(5, 1, |notes| notes.zero_b > 1));
    cases
}

/// What is turned away starts from this.
pub fn base() -> Record {
    a_stopping_move(form(&[2, 1, 1]), content(4, 16), 3, 0)
}

pub fn picked() -> Vec<Record> {
    let mut cases = at_windows();
    cases.extend(at_small_windows());
    cases.extend(at_the_bound());
    cases.extend(stops());
    cases.extend((1..=3).map(|n| a_stopping_move(form(&vec![1; n]), unit(n), n - 1, 0)));
    for (n1, n2) in PAIRS {
        let n = n1 + n2;
        for (from, to) in [(0, n - 1), (n - 1, 0), (n - 1, n - 1)] {
            cases.push(a_stopping_move(form(&[n1, n2]), content(n, n * n), from, to));
        }
    }
    for n in [5, 8] {
        for (from, to) in (0..n).flat_map(|from| [(from, 0), (from, n - 1)]) {
            cases.push(a_stopping_move(form(&turns(n)), Vec::new(), from, to));
            cases.push(a_stopping_move(form(&twos(n)), Vec::new(), from, to));
        }
    }
    for sizes in [&[2, 2][..], &[1, 2, 1]] {
        let odd = odd_forms(sizes).into_iter().map(|t| a_stopping_move(t, Vec::new(), 0, 3));
        cases.extend(odd.filter(accepted));
    }
    let base = base();
    cases.extend(refusals(&base, &[2, 3, 4, 5, 6, 7]));
    cases.extend(sizes(&base));
    cases.extend(lengths(&base, "t").into_iter().chain(lengths(&base, "u")).chain(entries(&base)));
    for position in [3, 4, 5, usize::MAX] {
        cases.push(base.clone().num_set("from", position));
        cases.push(base.clone().num_set("to", position));
    }
    cases.push(a_stopping_move(Vec::new(), Vec::new(), 0, 0));
    cases.push(a_stopping_move(form(&twos(33)), content(33, 33 * 33), 0, 32));
    cases.extend(drawn(CALL, 63, 1, |c, notes| c.l("u").is_empty() && notes.stop.is_some() && notes.swaps > 9));
    cases.push(a_stopping_move(form(&twos(64)), unit(64), 0, 63));
    cases.push(a_stopping_move(form(&turns(64)), Vec::new(), 63, 0));
    cases.push(a_stopping_move(overgrown(), Vec::new(), OUTSIDE, 0));
    cases
}

#[cfg(test)]
mod tests {
    use super::*;
    use crate::stopping;

    /// Each window's test meets what is said, and the move stops where a number is above.
    #[test]
    fn windows_are_what_they_say() {
        for (k, window) in windows().iter().enumerate() {
            let (numbers, threshold) = stopping::tested(window.n1, &window.form());
            let all = |holds: &dyn Fn(f64) -> bool| -> Vec<usize> { (0..3).filter(|k| holds(numbers[*k])).collect() };
            assert_eq!(threshold, 10.0 * power(971));
            assert_eq!(all(&|x| x > threshold), window.above, "{k}: {numbers:?}");
            assert_eq!(all(&|x| x == threshold), window.at, "{k}: {numbers:?}");
            assert_eq!(all(&|x| x.is_nan()).len(), window.nans, "{k}: {numbers:?}");
            for case in &at_windows()[2 * k..2 * k + 2] {
                let (answer, _) = calls::answer(case);
                let stopped = usize::from(!window.above.is_empty());
                assert_eq!([answer.n("stopped"), answer.n("swaps")], [stopped, 1], "{case}");
                if stopped == 1 {
                    let here = case.n("from").min(window.n1);
                    assert_eq!((answer.n("here"), answer.l("t")), (here, case.l("t")), "{case}");
                }
            }
        }
    }

    #[test]
    fn small_windows_pass() {
        for case in at_small_windows() {
            let window: [f64; 9] = case.l("t").try_into().expect("three rows");
            let ([p, q, _], threshold) = stopping::tested(if window[1] == 0.0 { 1 } else { 2 }, &window);
            assert!(p.max(q) > 0.0 && threshold == power(-970), "{case}");
            let (answer, _) = calls::answer(&case);
            assert_eq!([answer.n("stopped"), answer.n("swaps")], [0, 1], "{case}");
        }
    }

    /// Of the six near the bound three stop; of each pair of neighbours one.
    #[test]
    fn the_bound_lies_between() {
        let stopped: Vec<usize> = at_the_bound().iter().map(|case| calls::answer(case).0.n("stopped")).collect();
        assert_eq!(stopped[..6], [1, 1, 1, 0, 0, 0]);
        assert!(stopped.len() > 12);
        stopped[6..].chunks(2).for_each(|pair| assert_eq!(pair, [0, 1]));
    }
}
