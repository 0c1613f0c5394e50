//! Cases of stored vectors on forms: chosen one by one, or drawn until one has what is asked for.

use crate::calls;
use crate::generate::floats::next_up;
use crate::generate::{self, Sizes};
use crate::lists;
use crate::note::Notes;
use crate::picked::ODD;
use crate::picked_blocks;
use crate::picked_lists;
use crate::picked_stops;
use crate::picked_strides;
use crate::record::{Record, Value};
use crate::stride;

const SEED: u64 = 2;
pub const PAIRS: [(usize, usize); 4] = [(1, 1), (1, 2), (2, 1), (2, 2)];
/// Small numbers of rows, each of them looked at from both ends.
const ROWS: [usize; 6] = [1, 2, 3, 4, 5, 8];
/// A number of rows above the most.
pub const TOO_MANY: usize = 65;
/// How many cases are drawn in search of what is asked for.
const TRIES: u64 = 20_000;
/// Exchanges of two 2-blocks in four rows: three that decline above the bound by less than a tenth,
/// three that do not, below it by less than a tenth.
const NEAR: [u64; 6] = [0x41b2, 0x42b2, 0x42e4, 0x3ae, 0x219e, 0x2ff2];
/// A position outside every form.
pub const OUTSIDE: usize = 70;

/// The cases of a call; of most, none.
pub fn picked(call: &'static str) -> Vec<Record> {
    match call {
        "reorder_schur" => moves(),
        "reorder_schur_stopping" => picked_stops::picked(),
        "reorder_schur_list" => picked_lists::picked(),
        "schur_swap" => exchanges(),
        "block_values" => values(call, kinds()),
        "standardised_values" => values(call, picked_blocks::forms()),
        "evd_from_real_schur" => vectors(),
        "column" => columns(),
        _ => picked_strides::picked(call),
    }
}

/// Cases that follow the random ones, so that the lines before them keep their indices.
pub fn later(call: &'static str) -> Vec<Record> {
    if call == "schur_swap" { counted().into_iter().map(|(case, _)| case).collect() } else { Vec::new() }
}

// ---- forms

/// A form whose blocks have the sizes: each 2-block a complex pair, no two diagonal numbers of
/// neighbours equal, all numbers above the diagonal there.
pub fn form(sizes: &[usize]) -> Vec<f64> {
    let n: usize = sizes.iter().sum();
    let mut t = vec![0.0; n * n];
    for (i, j) in (0..n).flat_map(|j| (0..j).map(move |i| (i, j))) {
        t[i + n * j] = ((3 * i + 5 * j) % 7) as f64 - 2.5;
    }
    let mut i = 0;
    for (k, size) in sizes.iter().enumerate() {
        let x = k as f64;
        t[i + n * i] = 1.0 + x;
        if *size == 2 {
            (t[i + 1 + n * i], t[i + n * (i + 1)]) = (-0.5 - x, 2.0 + x);
            t[i + 1 + n * (i + 1)] = 1.0 + x;
        }
        i += size;
    }
    t
}

/// The rows of a square, of its numbers.
pub fn rows(t: &[f64]) -> usize {
    (t.len() as f64).sqrt() as usize
}

/// Blocks of size 2, and one of size 1 at the end if the rows are odd.
pub fn twos(n: usize) -> Vec<usize> {
    let mut sizes = vec![2; n / 2];
    sizes.resize((n + 1) / 2, 1);
    sizes
}

/// Blocks of sizes 1 and 2 by turns.
pub fn turns(n: usize) -> Vec<usize> {
    let mut sizes: Vec<usize> = (0..).map(|k| 1 + k % 2).take(2 * n / 3).collect();
    sizes.resize(sizes.len() + n - sizes.iter().sum::<usize>(), 1);
    sizes
}

/// A form of one row too many, to which lines 5 and 6 apply as well.
pub fn overgrown() -> Vec<f64> {
    let mut t = form(&turns(TOO_MANY));
    (t[1], t[2 + TOO_MANY], t[TOO_MANY - 1]) = (1.0, 1.0, 1.0);
    t
}

/// The form with NaN and the infinities in each place down to the subdiagonal; some of these are
/// turned away.
pub fn odd_forms(sizes: &[usize]) -> Vec<Vec<f64>> {
    let base = form(sizes);
    let n: usize = sizes.iter().sum();
    let places = (0..n).flat_map(|j| (0..(j + 2).min(n)).map(move |i| i + n * j));
    let with = |p: usize, x: f64| {
        let mut t = base.clone();
        t[p] = x;
        t
    };
    places.flat_map(|p| ODD.map(|x| with(p, x))).collect()
}

pub fn unit(n: usize) -> Vec<f64> {
    (0..n * n).map(|k| if k % n == k / n { 1.0 } else { 0.0 }).collect()
}

// ---- drawn cases

/// The number of a case's answer; of a list of moves that gives 0, of its first pair.
pub fn number(case: &Record) -> Option<usize> {
    let (answer, _) = calls::answer(case);
    answer.find("answer")?;
    let first = case.find("moves").and_then(|_| lists::fours(case, &answer).next());
    Some(first.map_or(answer.n("answer"), |four| four[0]))
}

pub fn accepted(case: &Record) -> bool {
    number(case) == Some(0)
}

/// The first cases of n rows that are not turned away and are wanted.
pub fn drawn(call: &'static str, n: usize, count: usize, wanted: impl Fn(&Record, &Notes) -> bool) -> Vec<Record> {
    let cases = (0..TRIES).filter_map(|index| generate::stored(call, SEED, index, Sizes { least: n, most: n }));
    let fits = |case: &Record| {
        let (answer, notes) = calls::answer(case);
        let done = answer.find("answer").is_none() || answer.n("answer") == 0;
        case.n("n") == n && done && wanted(case, &notes)
    };
    let found: Vec<Record> = cases.filter(fits).take(count).collect();
    assert_eq!(found.len(), count, "{call} of {n} rows");
    found
}

pub fn near() -> Vec<Record> {
    let rows = Sizes { least: 4, most: 4 };
    NEAR.iter().map(|index| generate::case("schur_swap", SEED, *index, rows)).collect()
}

/// So many numbers of every class, as drawn for n rows.
pub fn content(n: usize, count: usize) -> Vec<f64> {
    let lists = drawn("column", n, ((count + n * n - 1) / (n * n)).max(1), |c, _| c.l("v").len() == n * n);
    lists.iter().flat_map(|case| case.l("v").to_vec()).take(count).collect()
}

pub fn list_set(mut case: Record, key: &str, change: impl Fn(&mut Vec<f64>)) -> Record {
    if let Some(Value::List(list)) = case.find_mut(key) {
        change(list);
    }
    case
}

pub fn nums_set(mut case: Record, key: &str, change: impl Fn(&mut Vec<usize>)) -> Record {
    if let Some(Value::Nums(list)) = case.find_mut(key) {
        change(list);
    }
    case
}

// ---- refusals, of forms with four rows

/// The case turned away by the line, and by no earlier one.
pub fn spoilt(case: Record, line: usize) -> Record {
    let ld = stride::of(&case);
    match (line, stride::base_of(case.call)) {
        (17, _) => case.num_set("ld", stride::MOST + 1),
        (12, _) => nums_set(case, "moves", |moves| moves.push(0)),
        (2, _) => case.num_set("n", TOO_MANY),
        (3, _) => list_set(case, "t", |t| t.push(7.0)),
        (4, "block_values" | "standardised_values") => list_set(case, "im", |im| im.push(7.0)),
        (4, "evd_from_real_schur" | "column") => list_set(case, "v", |v| v.push(7.0)),
        (4, _) => list_set(case, "u", |u| u.truncate(3)),
        (5, _) => list_set(case, "t", |t| t[3] = -1.0),
        (6, _) => list_set(case, "t", |t| (t[1], t[2 + ld]) = (-0.5, 3.0)),
        (7, "reorder_schur" | "reorder_schur_stopping") => case.num_set("to", OUTSIDE),
        (7, "reorder_schur_list") => nums_set(case, "moves", |moves| moves[1] = OUTSIDE),
        (7, "column") => case.num_set("col", OUTSIDE),
        (7, _) => case.num_set("j0", OUTSIDE),
        (8, _) => case.num_set("n1", 3),
        (9, _) => case.num_set("j0", 1).num_set("n2", 2),
        _ => case.num_set("j0", 1),
    }
}

/// Each line alone and each pair of them; the lines in the order in which they are tested.
pub fn refusals(base: &Record, lines: &[usize]) -> Vec<Record> {
    let alone = lines.iter().map(|line| spoilt(base.clone(), *line));
    let pairs = (0..lines.len()).flat_map(|k| lines[k + 1..].iter().map(move |b| (lines[k], *b)));
    alone.chain(pairs.map(|(a, b)| spoilt(spoilt(base.clone(), b), a))).collect()
}

/// A list with lengths around the right one.
pub fn lengths(base: &Record, key: &str) -> Vec<Record> {
    let right = base.l(key).len();
    let others = [1, right - 1, right + 1, 2 * right];
    others.iter().map(|len| list_set(base.clone(), key, |list| list.resize(*len, 7.0))).collect()
}

/// Lines 5 and 6 at each place and by numbers of several kinds; a minus zero is let through.
pub fn entries(base: &Record) -> Vec<Record> {
    let (n, ld) = (base.n("n"), stride::of(base));
    let at = |p: usize, x: f64| list_set(base.clone(), "t", |t| t[p] = x);
    let below = (0..n).flat_map(|j| (j + 2..n).map(move |i| i + ld * j));
    let mut cases: Vec<Record> =
        below.flat_map(|p| [1.0, -5e-324, f64::NAN, f64::NEG_INFINITY, -0.0].map(|x| at(p, x))).collect();
    for i in 2..n {
        for (x, y) in [(1.0, 1.0), (f64::NAN, 5e-324), (-0.0, 1.0), (1.0, -0.0)] {
            cases.push(list_set(base.clone(), "t", |t| (t[i - 1 + ld * (i - 2)], t[i + ld * (i - 1)]) = (x, y)));
        }
    }
    cases
}

/// No rows, too many by one or by far, with buffers of the right lengths where that is possible.
pub fn sizes(base: &Record) -> Vec<Record> {
    [0, 3, 5, TOO_MANY, 1 << 32, usize::MAX].iter().map(|n| base.clone().num_set("n", *n)).collect()
}

// ---- moves

pub fn a_move(t: Vec<f64>, u: Vec<f64>, from: usize, to: usize) -> Record {
    let n = rows(&t);
    Record::new("reorder_schur").num("n", n).list("t", t).list("u", u).num("from", from).num("to", to)
}

fn moves() -> Vec<Record> {
    let call = "reorder_schur";
    let mut cases = Vec::new();
    for n in ROWS {
        for none in [true, false] {
            let ends = [(0, n - 1), (n - 1, 0), (n - 1, n - 1)];
            let forms = drawn(call, n, ends.len(), |c, _| c.l("u").is_empty() == none);
            cases.extend(forms.into_iter().zip(ends).map(|(c, (from, to))| c.num_set("from", from).num_set("to", to)));
        }
    }
    for (n1, n2) in PAIRS {
        let n = n1 + n2;
        for (from, to) in [(0, n - 1), (n - 1, 0)] {
            cases.push(a_move(form(&[n1, n2]), Vec::new(), from, to));
            cases.push(a_move(form(&[n1, n2]), content(n, n * n), from, to));
        }
    }
    for n in [5, 8] {
        for (from, to) in (0..n).flat_map(|from| [(from, 0), (from, n / 2), (from, n - 1)]) {
            cases.push(a_move(form(&turns(n)), Vec::new(), from, to));
            cases.push(a_move(form(&twos(n)), Vec::new(), from, to));
        }
    }
    for n in [3, 4, 5, 6, 7, 8] {
        for down in [true, false] {
            let way = |c: &Record| (c.n("from") < c.n("to")) == down;
            cases.extend(drawn(call, n, 2, |c, notes| notes.splits > 0 && way(c)));
            if n > 3 {
                cases.extend(drawn(call, n, 2, |c, notes| notes.declined > 0 && way(c)));
            }
        }
    }
    cases.extend(drawn(call, 8, 2, |_, notes| notes.declined > 0 && notes.splits > 0));
    cases.extend(near().iter().map(|c| a_move(c.l("t").to_vec(), c.l("u").to_vec(), 0, 3)));
    for sizes in [&[2, 2][..], &[1, 2, 1]] {
        cases.extend(odd_forms(sizes).into_iter().map(|t| a_move(t, Vec::new(), 0, 3)).filter(accepted));
    }
    for x in ODD {
        let factor = |p: usize| (0..16).map(|k| if k == p { x } else { k as f64 }).collect();
        cases.extend([0, 6, 15].map(|p| a_move(form(&[2, 2]), factor(p), 0, 3)));
    }
    let base = a_move(form(&[2, 1, 1]), content(4, 16), 3, 0);
    cases.extend(refusals(&base, &[2, 3, 4, 5, 6, 7]));
    cases.extend(sizes(&base));
    cases.extend(lengths(&base, "t").into_iter().chain(lengths(&base, "u")).chain(entries(&base)));
    for position in [3, 4, 5, usize::MAX] {
        cases.push(base.clone().num_set("from", position));
        cases.push(base.clone().num_set("to", position));
    }
    cases.push(a_move(Vec::new(), Vec::new(), 0, 0));
    cases.push(a_move(form(&twos(33)), content(33, 33 * 33), 0, 32));
    cases.extend(drawn(call, 33, 1, |c, notes| c.l("u").is_empty() && notes.splits > 0 && notes.swaps > 16));
    cases.extend(drawn(call, 63, 1, |c, notes| c.l("u").is_empty() && notes.declined > 0 && notes.swaps > 31));
    cases.push(a_move(form(&twos(64)), unit(64), 0, 63));
    cases.push(a_move(form(&turns(64)), Vec::new(), 63, 0));
    cases.push(a_move(overgrown(), Vec::new(), OUTSIDE, 0));
    cases
}

// ---- exchanges

pub fn an_exchange(t: Vec<f64>, u: Vec<f64>, j0: usize, n1: usize, n2: usize) -> Record {
    let n = rows(&t);
    Record::new("schur_swap").num("n", n).list("t", t).list("u", u).num("j0", j0).num("n1", n1).num("n2", n2)
}

pub fn at(case: Record, j0: usize, n1: usize, n2: usize) -> Record {
    case.num_set("j0", j0).num_set("n1", n1).num_set("n2", n2)
}

fn exchanges() -> Vec<Record> {
    let call = "schur_swap";
    let mut cases = Vec::new();
    for (n1, n2) in PAIRS {
        for n in ROWS.into_iter().filter(|n| n1 + n2 <= *n) {
            for (none, j0) in [(true, 0), (false, 0), (true, n - n1 - n2), (false, n - n1 - n2)] {
                let there = |c: &Record| accepted(&at(c.clone(), j0, n1, n2)) && c.l("u").is_empty() == none;
                let found = drawn(call, n, 1, |c, _| there(c));
                cases.extend(found.into_iter().map(|c| at(c, j0, n1, n2)));
            }
        }
        for n in 4..=8 {
            let sizes = |c: &Record| (c.n("n1"), c.n("n2")) == (n1, n2);
            if (n1, n2) != (1, 1) {
                cases.extend(drawn(call, n, 1, |c, notes| sizes(c) && notes.splits > 0));
            }
            cases.extend(drawn(call, n, 1, |c, notes| sizes(c) && notes.splits == 0));
            if (n1, n2) == (2, 2) {
                cases.extend(drawn(call, n, 3, |c, notes| sizes(c) && notes.declined > 0));
            }
        }
        let odd = odd_forms(&[n1, n2]).into_iter().map(|t| an_exchange(t, Vec::new(), 0, n1, n2));
        cases.extend(odd.filter(accepted));
    }
    cases.extend(near());
    for x in ODD {
        let factor = |p: usize| (0..16).map(|k| if k == p { x } else { k as f64 }).collect();
        cases.extend([0, 6, 15].map(|p| an_exchange(form(&[2, 2]), factor(p), 0, 2, 2)));
    }
    let base = an_exchange(form(&[2, 1, 1]), content(4, 16), 0, 2, 1);
    cases.extend(refusals(&base, &[2, 3, 4, 5, 6, 7, 8, 9, 10]));
    cases.extend(sizes(&base));
    cases.extend(lengths(&base, "t").into_iter().chain(lengths(&base, "u")).chain(entries(&base)));
    cases.extend([2, 3, 4, 5, usize::MAX].map(|j0| at(base.clone(), j0, 1, 1)));
    for (n1, n2) in (0..4).flat_map(|n1| (0..4).map(move |n2| (n1, n2))) {
        cases.extend([0, 1, 2, 3].map(|j0| at(base.clone(), j0, n1, n2)));
    }
    cases.extend(
        [(usize::MAX, 1), (1, usize::MAX), (usize::MAX, usize::MAX)].map(|(n1, n2)| at(base.clone(), 1, n1, n2)),
    );
    for lower in [1.0, f64::NAN, 5e-324] {
        let across = list_set(an_exchange(form(&[1, 2, 1]), Vec::new(), 0, 1, 1), "t", |t| t[6] = lower);
        cases.extend(
            [(0, 1, 1), (0, 2, 1), (1, 1, 1), (2, 1, 1), (1, 2, 1), (0, 1, 2)]
                .map(|(j0, n1, n2)| at(across.clone(), j0, n1, n2)),
        );
    }
    for (j0, n1, n2) in [(0, 1, 1), (1, 1, 1), (0, 0, 1)] {
        cases.push(an_exchange(form(&[1]), Vec::new(), j0, n1, n2));
    }
    cases.push(an_exchange(Vec::new(), Vec::new(), 0, 1, 1));
    cases.push(an_exchange(form(&twos(33)), content(33, 33 * 33), 30, 2, 1));
    cases.extend(drawn(call, 63, 1, |c, notes| c.l("u").is_empty() && notes.swaps > 1));
    cases.push(an_exchange(form(&twos(64)), unit(64), 60, 2, 2));
    cases.push(an_exchange(overgrown(), Vec::new(), OUTSIDE, 3, 1));
    cases
}

/// Exchanges of two rows with two below them, with the swaps that they count: both pairs hold; the
/// first is parted, then the second; one of them parted and the other splits on the way; both
/// parted. A pair that splits has the rows (1, 2) and (3, 4), and so two real values.
pub fn counted() -> Vec<(Record, usize)> {
    let splitting = |sizes: &[usize], i: usize| {
        let mut t = form(sizes);
        for (p, x) in [0, 1, 4, 5].iter().zip([1.0, 3.0, 2.0, 4.0]) {
            t[5 * i + p] = x;
        }
        t
    };
    let forms = [
        (form(&[2, 2]), 1),
        (form(&[1, 1, 2]), 2),
        (form(&[2, 1, 1]), 2),
        (splitting(&[1, 1, 2], 2), 3),
        (splitting(&[2, 1, 1], 0), 3),
        (form(&[1, 1, 1, 1]), 4),
    ];
    forms.map(|(t, swaps)| (an_exchange(t, unit(4), 0, 2, 2), swaps)).into_iter().collect()
}

// ---- vectors and values

pub fn of_form(call: &'static str, t: Vec<f64>) -> Record {
    let n = rows(&t);
    let case = Record::new(call).num("n", n).list("t", t);
    if call == "evd_from_real_schur" {
        return case.list("v", content(n.max(1), n * n));
    }
    let both = content(n.max(2), 2 * n);
    case.list("re", both[..n].to_vec()).list("im", both[n..].to_vec())
}

/// Forms of one kind of block or both, equal diagonals, zeros, and numbers that are none.
fn kinds() -> Vec<Vec<f64>> {
    let mut forms = Vec::new();
    for n in 1..=8 {
        forms.extend([form(&vec![1; n]), form(&turns(n)), form(&twos(n)), vec![0.0; n * n], vec![-0.0; n * n]]);
        for x in [1.0, 0.0, -3.0] {
            let mut equal = form(&vec![1; n]);
            (0..n).for_each(|i| equal[i + n * i] = x);
            forms.push(equal.clone());
            equal[n * n - 1] = next_up(x);
            forms.push(equal);
        }
    }
    for n in [4, 5, 6, 7] {
        for (a, b, c) in [(1.0, 2.0, -2.0), (0.0, 1.0, -1.0), (1.0, 1e-200, -1e-200), (1.0, 1.0, 1.0)] {
            let mut same = form(&twos(n));
            for i in (0..n - 1).step_by(2) {
                (same[i + n * i], same[i + 1 + n * (i + 1)]) = (a, a);
                (same[i + n * (i + 1)], same[i + 1 + n * i]) = (b, c);
            }
            same[n * n - 1] = a;
            forms.push(same);
        }
    }
    forms.extend(odd_forms(&[2, 2]));
    forms.extend(odd_forms(&[1, 2, 1]));
    forms
}

/// The forms, the refusals, and no rows at all.
fn on_forms(call: &'static str, forms: Vec<Vec<f64>>, further: &[&str]) -> Vec<Record> {
    let mut cases: Vec<Record> = forms.into_iter().map(|t| of_form(call, t)).filter(accepted).collect();
    let base = of_form(call, form(&[2, 1, 1]));
    cases.extend(refusals(&base, &[2, 3, 4, 5, 6]));
    cases.extend(sizes(&base));
    cases.extend(lengths(&base, "t").into_iter().chain(further.iter().flat_map(|key| lengths(&base, key))));
    cases.extend(entries(&base));
    cases.push(of_form(call, Vec::new()));
    cases
}

fn vectors() -> Vec<Record> {
    let call = "evd_from_real_schur";
    let mut cases = on_forms(call, kinds(), &["v"]);
    cases.extend((1..=20).flat_map(|n| drawn(call, n, 1, |_, _| true)));
    cases.push(of_form(call, form(&turns(33))));
    cases.extend(drawn(call, 63, 1, |c, _| (1..63).any(|i| c.l("t")[i + 63 * (i - 1)] != 0.0)));
    cases.push(of_form(call, form(&twos(64))));
    cases.push(list_set(of_form(call, overgrown()), "v", |v| v.truncate(64)));
    cases
}

fn values(call: &'static str, forms: Vec<Vec<f64>>) -> Vec<Record> {
    let mut cases = on_forms(call, forms, &["re", "im"]);
    cases.extend((1..=32).flat_map(|n| drawn(call, n, 1, |_, _| true)));
    cases.extend(drawn(call, 63, 1, |c, _| (1..63).any(|i| c.l("t")[i + 63 * (i - 1)] != 0.0)));
    cases.push(of_form(call, form(&twos(64))));
    cases.push(of_form(call, form(&turns(64))));
    cases.push(of_form(call, form(&turns(TOO_MANY))));
    cases
}

// ---- columns

pub fn a_column(n: usize, col: usize) -> Record {
    Record::new("column").num("n", n).list("v", content(n.max(1), n * n)).num("col", col)
}

fn columns() -> Vec<Record> {
    let mut cases: Vec<Record> = (1..=9).flat_map(|n| (0..=n).map(move |col| a_column(n, col))).collect();
    let base = a_column(4, 2);
    cases.extend(refusals(&base, &[2, 4, 7]));
    cases.extend(sizes(&base).into_iter().chain(lengths(&base, "v")));
    cases.extend([3, 4, 5, usize::MAX].map(|col| base.clone().num_set("col", col)));
    cases.extend(
        [(0, 0), (33, 32), (33, 33), (63, 31), (64, 63), (64, 64), (TOO_MANY, 0)].map(|(n, col)| a_column(n, col)),
    );
    cases
}

#[cfg(test)]
mod tests {
    use super::*;

    /// A pair of lines is told by the first, a line alone by itself; with a stride as well.
    #[test]
    fn refusals_are_in_order() {
        let bases = [
            (a_move(form(&[2, 1, 1]), unit(4), 3, 0), vec![2, 3, 4, 5, 6, 7]),
            (picked_stops::base(), vec![2, 3, 4, 5, 6, 7]),
            (picked_lists::base(), vec![12, 2, 3, 4, 5, 6, 7]),
            (an_exchange(form(&[2, 1, 1]), unit(4), 0, 2, 1), vec![2, 3, 4, 5, 6, 7, 8, 9, 10]),
            (of_form("block_values", form(&[2, 1, 1])), vec![2, 3, 4, 5, 6]),
            (of_form("standardised_values", form(&[2, 1, 1])), vec![2, 3, 4, 5, 6]),
            (of_form("evd_from_real_schur", form(&[2, 1, 1])), vec![2, 3, 4, 5, 6]),
        ];
        for (base, mut lines) in bases {
            told_in_order(&base, &lines);
            let size = lines.iter().position(|line| *line == 2).expect("a number of rows");
            lines.insert(size + 1, 17);
            told_in_order(&stride::spread(&base, 6, |_, _, _| f64::NAN), &lines);
        }
    }

    fn told_in_order(base: &Record, lines: &[usize]) {
        assert_eq!(number(base), Some(0));
        let firsts = lines.iter().enumerate().flat_map(|(k, line)| vec![*line; lines.len() - 1 - k]);
        let expected: Vec<Option<usize>> = lines.iter().copied().chain(firsts).map(Some).collect();
        let told: Vec<Option<usize>> = refusals(base, lines).iter().map(number).collect();
        assert_eq!(told, expected, "{}", base.call);
    }

    #[test]
    fn declines_are_near_the_bound() {
        let declined: Vec<usize> = near().iter().map(|case| calls::answer(case).0.n("declined")).collect();
        assert_eq!(declined, [1, 1, 1, 0, 0, 0]);
    }

    #[test]
    fn exchanges_count_as_chosen() {
        for (case, swaps) in counted() {
            let (answer, _) = calls::answer(&case);
            assert_eq!((answer.n("answer"), answer.n("swaps")), (0, swaps), "{case}");
        }
    }

    #[test]
    fn blocks_fill_the_rows() {
        for n in 1..=66 {
            assert_eq!(twos(n).iter().sum::<usize>(), n);
            assert_eq!(turns(n).iter().sum::<usize>(), n);
        }
    }
}
