//! Cases for every call, each settled by the call, the seed and its index alone.

mod damage;
pub mod floats;
pub mod forms;
pub mod moduli;
pub mod rng;
mod small;
mod strides;
pub mod tails;
mod text;

use crate::record::{Record, Value};
use crate::refuse::MOST_PAIRS;
use crate::stride;
use forms::{begins_pair, buffer, factor, form, lasting, starts, to_standardise, to_stop};
use rng::Rng;

/// The numbers of rows to draw from, both included.
#[derive(Clone, Copy)]
pub struct Sizes {
    pub least: usize,
    pub most: usize,
}

pub const USUAL: Sizes = Sizes { least: 1, most: 12 };

/// The case of a call with the given index. Every second one of hypot is drawn for how it rounds; of
/// calls on a list of numbers, whose norm is made of moduli, every third, and every third for its
/// length and its places.
pub fn case(call: &'static str, seed: u64, index: u64, sizes: Sizes) -> Record {
    let rng = &mut Rng::new(seed, call, index);
    match call {
        "hypot" if index % 2 == 1 => moduli::case(call, rng, index / 2),
        "hypot" => draw(rng, call, index / 2, sizes),
        "norm_l2" | "make_householder_in_place" => match index % 3 {
            1 => moduli::case(call, rng, index / 3),
            2 => tails::case(call, rng, index / 3),
            _ => draw(rng, call, index / 3, sizes),
        },
        _ => draw(rng, call, index, sizes),
    }
}

/// The same for the stored vectors, which pass over one case in 64 of a call with several results, and
/// have none that is drawn for moduli or long lists: the file was first drawn so, and stays as it is.
pub fn stored(call: &'static str, seed: u64, index: u64, sizes: Sizes) -> Option<Record> {
    let rng = &mut Rng::new(seed, call, index);
    let case = draw(rng, call, index, sizes);
    if passed_over(rng, call) { None } else { Some(case) }
}

fn passed_over(rng: &mut Rng, call: &str) -> bool {
    let results = match call {
        "adjoint" | "apply" | "schur_swap" => 2,
        "rotg" | "reorder_schur" => 3,
        "make_householder_in_place" => 4,
        "lasy2" => 5,
        "lahqr_schur22" => 10,
        _ => return false,
    };
    if call == "lasy2" && rng.one_in(64) && [rng.below(3), rng.below(7)][1] != 4 {
        return true;
    }
    rng.one_in(64) && rng.below(results + 3) != results
}

fn draw(rng: &mut Rng, call: &'static str, index: u64, sizes: Sizes) -> Record {
    if call == "sheet" {
        return sheet(rng, sizes);
    }
    let case = match on_form(rng, stride::base_of(call), sizes) {
        Some(case) if stride::taken_by(call) => strides::spread(rng, &case),
        Some(case) => case,
        None => return small::case(call, rng, index),
    };
    let odds = if case.find("moves").is_some() { 4 } else { 12 };
    if rng.one_in(odds) { damage::damage(rng, case) } else { case }
}

/// A case of a call with a form or vectors that is not spoilt; of another call, none.
fn on_form(rng: &mut Rng, call: &'static str, sizes: Sizes) -> Option<Record> {
    Some(match call {
        "schur_swap" => exchange(rng, sizes),
        "reorder_schur" => reorder(rng, sizes),
        "reorder_schur_stopping" => reorder_stopping(rng, sizes),
        "reorder_schur_list" => reorder_list(rng, sizes),
        "block_values" => values(rng, call, sizes, form),
        "standardised_values" => values(rng, call, sizes, to_standardise),
        "evd_from_real_schur" => {
            let n = rows(rng, sizes);
            Record::new(call).num("n", n).list("t", form(rng, n)).list("v", buffer(rng, n * n))
        }
        "column" => {
            let n = rows(rng, sizes);
            Record::new(call).num("n", n).list("v", buffer(rng, n * n)).num("col", rng.below(n))
        }
        _ => return None,
    })
}

fn values(rng: &mut Rng, call: &'static str, sizes: Sizes, form: fn(&mut Rng, usize) -> Vec<f64>) -> Record {
    let n = rows(rng, sizes);
    Record::new(call).num("n", n).list("t", form(rng, n)).list("re", buffer(rng, n)).list("im", buffer(rng, n))
}

/// Small numbers of rows are drawn more often.
fn rows(rng: &mut Rng, sizes: Sizes) -> usize {
    let span = sizes.most + 1 - sizes.least;
    let first = rng.below(span);
    let second = rng.below(span);
    sizes.least + if rng.one_in(2) { first.min(second) } else { first }
}

/// An accepted form to begin a chain of calls with, as a case has it, mostly with a stride.
pub fn chain(rng: &mut Rng, sizes: Sizes) -> Record {
    let n = rows(rng, sizes).max(rows(rng, sizes));
    let t = match rng.below(6) {
        0 => form(rng, n),
        1 => to_standardise(rng, n),
        2 => to_stop(rng, n),
        _ => lasting(rng, n),
    };
    let case = Record::new("reorder_schur").num("n", n).list("t", t);
    if rng.one_in(3) { case } else { strides::spread(rng, &case) }
}

/// The same to begin a chain of sheets with: a case without a stride, and with a factor or none.
pub fn sheets(rng: &mut Rng, sizes: Sizes) -> Record {
    let first = chain(rng, sizes);
    let n = first.n("n");
    Record::new("reorder_schur").num("n", n).list("t", stride::form(&first)).list("u", factor(rng, n))
}

/// A move, a move that stops, an exchange or, half as often since it makes several, a list of moves on
/// the form of a case, with its stride if it has one. One in eight is spoilt, but not in its form, rows
/// or stride.
pub fn further(rng: &mut Rng, last: &Record) -> Record {
    let (n, t) = (last.n("n"), stride::form(last));
    let base = match rng.below(7) {
        0 | 1 => reorder_of(rng, n, t),
        2 | 3 => reorder_stopping_of(rng, n, t),
        4 => reorder_list_of(rng, n, t),
        _ => exchange_of(rng, n, t),
    };
    let case = if stride::taken_by(last.call) {
        let whole = strides::spread_to(rng, &base.list_set("t", Vec::new()), last.n("ld"));
        whole.list_set("t", last.l("t").to_vec())
    } else {
        base
    };
    if rng.one_in(8) { damage::beside_the_form(rng, case) } else { case }
}

fn reorder(rng: &mut Rng, sizes: Sizes) -> Record {
    let n = rows(rng, sizes);
    let t = form(rng, n);
    reorder_of(rng, n, t)
}

fn reorder_of(rng: &mut Rng, n: usize, t: Vec<f64>) -> Record {
    let u = factor(rng, n);
    Record::new("reorder_schur").num("n", n).list("t", t).list("u", u).num("from", rng.below(n)).num("to", rng.below(n))
}

/// More rows than otherwise.
fn reorder_stopping(rng: &mut Rng, sizes: Sizes) -> Record {
    let n = rows(rng, sizes).max(rows(rng, sizes));
    let t = to_stop(rng, n);
    reorder_stopping_of(rng, n, t)
}

/// Often from end to end.
fn reorder_stopping_of(rng: &mut Rng, n: usize, t: Vec<f64>) -> Record {
    let u = factor(rng, n);
    let (from, to) = match rng.below(4) {
        0 => (0, n - 1),
        1 => (n - 1, 0),
        _ => (rng.below(n), rng.below(n)),
    };
    Record::new("reorder_schur_stopping").num("n", n).list("t", t).list("u", u).num("from", from).num("to", to)
}

/// Half of the forms have 2-blocks that mostly last, so that later pairs still meet some.
fn reorder_list(rng: &mut Rng, sizes: Sizes) -> Record {
    let n = rows(rng, sizes);
    let t = if rng.one_in(2) { form(rng, n) } else { lasting(rng, n) };
    reorder_list_of(rng, n, t)
}

/// Mostly a few pairs, now and then none or the most; in one list of three every fourth position is
/// out of range. The results hold any numbers, and half of them are longer than they need be.
fn reorder_list_of(rng: &mut Rng, n: usize, t: Vec<f64>) -> Record {
    let u = factor(rng, n);
    let pairs = match rng.below(24) {
        0 => 0,
        1 => MOST_PAIRS,
        2 => rng.below(MOST_PAIRS + 1),
        _ => 1 + rng.below(6),
    };
    let some_out = rng.one_in(3);
    let moves = (0..2 * pairs).map(|_| if some_out && rng.one_in(4) { outside(rng, n) } else { rng.below(n) });
    let moves = moves.collect();
    let longer = if rng.one_in(2) { 1 + rng.below(9) } else { 0 };
    let results = (0..4 * pairs + longer).map(|_| place(rng)).collect();
    Record::new("reorder_schur_list")
        .num("n", n)
        .nums("moves", moves)
        .list("t", t)
        .list("u", u)
        .nums("results", results)
}

/// A position that is not in a form of n rows.
pub fn outside(rng: &mut Rng, n: usize) -> usize {
    let any = rng.bits() as usize;
    rng.pick(&[n, n, n + 1, 64, 1 << 32, 1 << 63, usize::MAX, any]).max(n)
}

/// What a place of lent results may hold.
fn place(rng: &mut Rng) -> usize {
    let any = rng.bits() as usize;
    rng.pick(&[any, any, any % 65, 0, 1, 7, usize::MAX])
}

fn exchange(rng: &mut Rng, sizes: Sizes) -> Record {
    let n = rows(rng, sizes).max(2.min(sizes.most));
    let t = form(rng, n);
    exchange_of(rng, n, t)
}

/// Mostly two neighbouring blocks, or two rows taken for one block; else any sizes anywhere.
fn exchange_of(rng: &mut Rng, n: usize, t: Vec<f64>) -> Record {
    let u = factor(rng, n);
    let (j0, n1, n2) = if rng.one_in(16) {
        (rng.below(n), rng.below(4), rng.below(4))
    } else {
        let tries: Vec<_> = (0..8).map(|_| neighbours(rng, n, &t)).collect();
        tries.iter().copied().find(|(j0, n1, n2)| j0 + n1 + n2 <= n).unwrap_or(tries[0])
    };
    Record::new("schur_swap").num("n", n).list("t", t).list("u", u).num("j0", j0).num("n1", n1).num("n2", n2)
}

/// A block's first row, its size and the size of what follows.
fn neighbours(rng: &mut Rng, n: usize, t: &[f64]) -> (usize, usize, usize) {
    let j0 = rng.pick(&starts(n, t));
    let size = |rng: &mut Rng, i: usize| {
        let two_rows = i + 1 < n && !begins_pair(n, t, i + 1) && rng.one_in(3);
        if begins_pair(n, t, i) || two_rows { 2 } else { 1 }
    };
    let n1 = size(rng, j0);
    (j0, n1, size(rng, j0 + n1))
}

fn sheet(rng: &mut Rng, sizes: Sizes) -> Record {
    let move_case = reorder(rng, Sizes { most: sizes.most.min(33), ..sizes });
    let move_case = if rng.one_in(6) { damage::damage(rng, move_case) } else { move_case };
    let text = text::of_move(&move_case);
    let text = if rng.one_in(3) { text::broken(rng, text) } else { text };
    Record::new("sheet").with("text", Value::Bytes(text))
}

#[cfg(test)]
mod tests {
    use super::*;
    use crate::calls;
    use crate::record::CALLS;
    use crate::refuse;
    use crate::tally::Tally;

    #[test]
    fn cases_read_back() {
        for call in CALLS {
            for index in 0..200 {
                let line = case(call.name, 5, index, USUAL).to_string();
                assert_eq!(Record::parse(&line).unwrap().to_string(), line);
            }
        }
    }

    #[test]
    fn splits_declines_and_every_line_occur() {
        let lines = |call: &'static str| {
            let mut tally = Tally::default();
            for index in 0..4000 {
                let case = case(call, 5, index, USUAL);
                let (answer, notes) = calls::answer(&case);
                tally.add(&case, &answer, &notes);
            }
            assert!(call.starts_with("evd_from_real_schur") || tally.split > 100 && tally.declined > 100);
            tally.answers.into_keys().collect::<Vec<usize>>()
        };
        assert_eq!(lines("schur_swap"), [0, 2, 3, 4, 5, 6, 7, 8, 9, 10]);
        assert_eq!(lines("reorder_schur"), [0, 2, 3, 4, 5, 6, 7]);
        assert_eq!(lines("reorder_schur_stopping"), [0, 2, 3, 4, 5, 6, 7]);
        assert_eq!(lines("evd_from_real_schur"), [0, 2, 3, 4, 5, 6]);
        assert_eq!(lines("schur_swap_ld"), [0, 2, 3, 4, 5, 6, 7, 8, 9, 10, 17]);
        assert_eq!(lines("reorder_schur_ld"), [0, 2, 3, 4, 5, 6, 7, 17]);
        assert_eq!(lines("reorder_schur_stopping_ld"), [0, 2, 3, 4, 5, 6, 7, 17]);
        assert_eq!(lines("evd_from_real_schur_ld"), [0, 2, 3, 4, 5, 6, 17]);
    }

    /// Lists of every number of pairs, with every line told of the list and of its pairs, and two lines at
    /// once. The results come as long as they must be, and longer; lists of one pair and of 64 are worked.
    #[test]
    fn every_list_occurs() {
        use std::collections::BTreeSet;
        for (call, further) in [("reorder_schur_list", &[][..]), ("reorder_schur_list_ld", &[17])] {
            let (mut tally, mut lengths) = (Tally::default(), BTreeSet::new());
            let (mut both, mut exact, mut longer) = ([0; 3], 0, 0);
            for index in 0..8000 {
                let case = case(call, 5, index, USUAL);
                let (answer, notes) = calls::answer(&case);
                tally.add(&case, &answer, &notes);
                let (n, moves, results) = (case.n("n"), case.ns("moves"), case.ns("results"));
                let lent = |key| Some(case.l(key));
                let whole = refuse::strided(n, stride::of(&case), lent("t"), lent("u"), None);
                let deep = whole.is_ok() && refuse::form(n, &stride::form(&case)) == Err(5);
                let line12 = refuse::list(moves, results).is_err();
                both[0] += usize::from(line12 && (n == 0 || n > 64));
                both[1] += usize::from(line12 && deep);
                both[2] += usize::from(!line12 && deep && moves.iter().any(|x| *x >= n));
                if !line12 {
                    lengths.insert(moves.len() / 2);
                    exact += usize::from(results.len() == 2 * moves.len());
                    longer += usize::from(results.len() > 2 * moves.len());
                }
            }
            assert_eq!(tally.answers.into_keys().collect::<Vec<_>>(), [0, 12]);
            let numbers: Vec<usize> = [0, 2, 3, 4, 5, 6, 7].iter().chain(further).copied().collect();
            assert_eq!(tally.numbers.into_keys().collect::<Vec<_>>(), numbers);
            assert_eq!(lengths.into_iter().collect::<Vec<_>>(), (0..=64).collect::<Vec<_>>());
            assert!(both.iter().all(|count| *count > 10), "{both:?}");
            assert!(exact > 1000 && longer > 1000);
            for what in ["refused", "moved", "nothing to move", "declined", "split"] {
                assert!(tally.pairs[what] > 100, "{what}");
            }
        }
    }

    /// Every line is told of standardised values, and every way to read a 2-block occurs.
    #[test]
    fn pairs_of_every_kind_occur() {
        let without = [0, 2, 3, 4, 5, 6];
        let with = [0, 2, 3, 4, 5, 6, 17];
        for (call, lines) in [("standardised_values", &without[..]), ("standardised_values_ld", &with)] {
            let mut tally = Tally::default();
            for index in 0..4000 {
                let case = case(call, 5, index, USUAL);
                let (answer, notes) = calls::answer(&case);
                tally.add(&case, &answer, &notes);
            }
            assert_eq!(tally.answers.keys().copied().collect::<Vec<_>>(), lines);
            for class in ["a real pair", "a complex pair", "a pair with NaN c"] {
                assert!(tally.classes[class] > 100, "{tally}");
            }
        }
    }

    /// One row comes in every stride, and every class of strides and of numbers beyond is drawn.
    #[test]
    fn every_stride_occurs() {
        let mut tally = Tally::default();
        let mut strides = std::collections::BTreeSet::new();
        for index in 0..4000 {
            let case = case("block_values_ld", 5, index, Sizes { least: 1, most: 1 });
            let (answer, notes) = calls::answer(&case);
            tally.add(&case, &answer, &notes);
            if answer.n("answer") == 0 {
                strides.insert(case.n("ld"));
            }
        }
        assert_eq!(strides.into_iter().collect::<Vec<_>>(), (1..=stride::MOST).collect::<Vec<_>>());
        assert_eq!(tally.classes.len(), 10, "{tally}");
    }

    /// What is proved of the definition holds of the Rust: an accepted exchange counts one to four
    /// swaps, four exactly when both sizes are 2, each with a zero inside. All of them occur, two and
    /// three with either pair parted.
    #[test]
    fn exchanges_count_one_to_four() {
        let mut seen = std::collections::BTreeSet::new();
        for index in 0..40_000 {
            let case = case("schur_swap", 5, index, USUAL);
            let (answer, _) = calls::answer(&case);
            if answer.n("answer") != 0 {
                continue;
            }
            let (n, j0, n1, n2) = (case.n("n"), case.n("j0"), case.n("n1"), case.n("n2"));
            let parted = |size: usize, j: usize| size == 2 && case.l("t")[j + 1 + n * j] == 0.0;
            let (first, second) = (parted(n1, j0), parted(n2, j0 + n1));
            let swaps = answer.n("swaps");
            assert!((1..=4).contains(&swaps), "{case}");
            assert_eq!(swaps == 4, first && second, "{case}");
            seen.insert((swaps, first, second));
        }
        let (no, yes) = (false, true);
        let kinds = [(1, no, no), (2, no, yes), (2, yes, no), (3, no, yes), (3, yes, no), (4, yes, yes)];
        assert_eq!(seen.into_iter().collect::<Vec<_>>(), kinds);
    }
}
