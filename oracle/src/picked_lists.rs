//! Cases of stored vectors of a list of moves at once: lists whose pairs move, stay, split, decline and
//! are turned away by turns, lists and results of every length, and every refusal.

use crate::lists::CALL;
use crate::note::Notes;
use crate::picked::ODD;
use crate::picked_forms::*;
use crate::record::Record;
use crate::refuse::MOST_PAIRS;

/// What the results hold before a call, by turns: what a call may write, and what none does.
const LENT: [usize; 7] = [usize::MAX, 0, 0x4c0f_fee4_c0ff_ee77, 7, 1, 1 << 63, 12];

fn lent(len: usize) -> Vec<usize> {
    LENT.iter().copied().cycle().take(len).collect()
}

/// A list on a form, with one place more than the pairs need.
pub fn a_list(t: Vec<f64>, u: Vec<f64>, pairs: &[(usize, usize)]) -> Record {
    let n = rows(&t);
    let moves = pairs.iter().flat_map(|pair| [pair.0, pair.1]).collect();
    let results = lent(4 * pairs.len() + 1);
    Record::new(CALL).num("n", n).nums("moves", moves).list("t", t).list("u", u).nums("results", results)
}

fn with_results(case: Record, len: usize) -> Record {
    case.nums_set("results", lent(len))
}

/// What is turned away starts from this.
pub fn base() -> Record {
    a_list(form(&[2, 1, 1]), content(4, 16), &[(3, 0), (1, 1), (0, 3)])
}

/// Drawn lists of 3 to 8 rows: of up to six pairs of which one splits, one declines, and one is turned
/// away before one that moves.
pub fn met() -> Vec<Record> {
    let short = |case: &Record| case.ns("moves").len() <= 12;
    let of = |n: usize, wanted: &dyn Fn(&Record, &Notes) -> bool| {
        drawn(CALL, n, 1, |case, notes| short(case) && notes.swaps > 2 && wanted(case, notes))
    };
    let turned_away = |case: &Record| {
        let (n, moves) = (case.n("n"), case.ns("moves"));
        moves.len() > 4 && moves[2..4].iter().any(|x| *x >= n) && moves[4..6].iter().all(|x| *x < n)
    };
    let mut cases = Vec::new();
    for n in 3..=8 {
        cases.extend(of(n, &|_, notes| notes.split_pairs > 0));
        if n > 3 {
            cases.extend(of(n, &|_, notes| notes.declined > 0));
        }
        cases.extend(of(n, &|case, _| turned_away(case)));
    }
    cases
}

/// Lists of every kind of length on two rows, and results around the length that the pairs need.
pub fn of_other_lengths() -> Vec<Record> {
    let of = |len: usize, results: usize| {
        let moves = (0..len).map(|k| (k + k / 2) % 2).collect();
        with_results(a_list(form(&[1, 1]), unit(2), &[]).nums_set("moves", moves), results)
    };
    let few = [(0, 0), (0, 3), (1, 0), (1, 4), (2, 0), (2, 1), (2, 3), (2, 4), (2, 5), (3, 8), (4, 4), (4, 7), (4, 8)];
    let many = 2 * MOST_PAIRS;
    let most = [(many, 2 * many), (many, 2 * many - 1), (many + 1, 2 * many + 4), (many + 2, 2 * many + 4)];
    few.into_iter().chain(most).chain([(6, 19), (5, 12)]).map(|(len, results)| of(len, results)).collect()
}

/// The longest list, on n rows: each block from its row to the other end, by turns down and up.
pub fn longest(n: usize) -> Record {
    let pairs: Vec<_> = (0..MOST_PAIRS).map(|k| (7 * k % n, if k % 2 == 0 { n - 1 } else { 0 })).collect();
    with_results(a_list(form(&turns(n)), Vec::new(), &pairs), 4 * MOST_PAIRS)
}

/// A drawn list of the most pairs, some of them turned away.
fn drawn_longest() -> Vec<Record> {
    let most = |case: &Record| case.ns("moves").len() == 2 * MOST_PAIRS;
    let some_out = |case: &Record| case.ns("moves").iter().any(|x| *x >= 8);
    drawn(CALL, 8, 1, |case, notes| most(case) && some_out(case) && notes.split_pairs > 0 && notes.declined > 3)
}

/// The case with no pairs; with and without results.
fn empty(case: &Record) -> [Record; 2] {
    let none = case.clone().nums_set("moves", Vec::new());
    [0, 5].map(|len| with_results(none.clone(), len))
}

/// Of three pairs one is turned away, in each place and by each kind of position.
fn turned_away_between() -> Vec<Record> {
    let n = 4;
    let out = [(n, 0), (0, n), (n + 1, usize::MAX), (usize::MAX, 1), (1 << 32, 2), (3, 1 << 63)];
    let of = |k: usize| {
        let mut pairs = vec![(3, 0), (0, 2), (1, 3)];
        pairs[k % 3] = out[k];
        a_list(form(&[2, 1, 1]), unit(n), &pairs)
    };
    (0..out.len()).map(of).collect()
}

pub fn picked() -> Vec<Record> {
    let mut cases = of_other_lengths();
    cases.extend(turned_away_between());
    cases.extend(met());
    for (n1, n2) in PAIRS {
        let n = n1 + n2;
        for u in [Vec::new(), content(n, n * n)] {
            cases.push(a_list(form(&[n1, n2]), u, &[(0, n - 1), (n - 1, 0), (n - 1, n - 1), (0, n - 1)]));
        }
    }
    for n in [5, 8] {
        let to_front: Vec<_> = (0..n).map(|from| (from, 0)).collect();
        let to_end: Vec<_> = (0..n).map(|from| (from, n - 1)).collect();
        for sizes in [vec![1; n], turns(n), twos(n)] {
            cases.push(a_list(form(&sizes), Vec::new(), &to_front));
            cases.push(a_list(form(&sizes), unit(n), &to_end));
        }
    }
    cases.extend(near().iter().map(|c| a_list(c.l("t").to_vec(), c.l("u").to_vec(), &[(0, 3), (0, 3), (3, 0)])));
    let odd = odd_forms(&[1, 2, 1]).into_iter().step_by(2).map(|t| a_list(t, Vec::new(), &[(0, 3), (4, 0), (3, 0)]));
    cases.extend(odd.filter(accepted));
    for x in ODD {
        let factor = (0..16).map(|k| if k == 6 { x } else { k as f64 }).collect();
        cases.push(a_list(form(&[2, 2]), factor, &[(0, 3), (3, 1)]));
    }
    let base = base();
    cases.extend(refusals(&base, &[12, 2, 3, 4, 5, 6, 7]));
    cases.extend(sizes(&base));
    cases.extend(lengths(&base, "t").into_iter().chain(lengths(&base, "u")).chain(entries(&base)));
    for line in [2, 3, 4, 5, 6] {
        cases.extend(empty(&spoilt(base.clone(), line)));
    }
    cases.push(a_list(Vec::new(), Vec::new(), &[(0, 0)]));
    cases.extend(drawn_longest());
    cases.push(longest(8));
    cases
}
