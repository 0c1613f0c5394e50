//! Each call of document 01: turned away by refuse.rs, or run by the Rust in taken.rs; the move that
//! stops by stopping.rs, a list of moves by lists.rs. With a stride, the same on the corners of the
//! buffers.

use crate::arith;
use crate::lists;
use crate::note::{self, Notes};
use crate::record::{Record, Value};
use crate::refuse::{self, MOST_ROWS, Passed};
use crate::sheet;
use crate::shim::*;
use crate::stopping;
use crate::stride;
use crate::taken::jacobi::JacobiRotation;
use crate::taken::{eigen, evd, householder, leaves, schur_swap};

/// The results of each call that gives several numbers, in its order.
pub const ROTG: &[&str] = &["c", "s", "r"];
pub const ADJOINT: &[&str] = &["c", "s"];
pub const APPLY: &[&str] = &["x", "y"];
pub const REFLECTION: &[&str] = &["head", "tau", "head_with_beta_inv", "norm"];
pub const STANDARDISED: &[&str] = &["a", "b", "c", "d", "s1re", "s1im", "s2re", "s2im", "cs", "sn"];
pub const SOLUTION: &[&str] = &["x00", "x10", "x01", "x11", "scale"];
pub const EXCHANGED: &[&str] = &["swaps", "declined"];
pub const MOVED: &[&str] = &["landed", "swaps", "declined"];
pub const STOPPED: &[&str] = &["stopped", "here", "swaps", "declined"];

/// The plain branch of the solvers is taken below this many rows: always.
const PARAMS: EvdFromSchurParams = EvdFromSchurParams { recursion_threshold: 65 };

/// The answer to a case, with every NaN the same, and what was noted on the way.
pub fn answer(case: &Record) -> (Record, Notes) {
    let (answer, notes) = unsettled(case);
    (answer.settled(), notes)
}

/// The same with NaNs as they came.
pub fn unsettled(case: &Record) -> (Record, Notes) {
    note::take();
    let answer = run(case);
    (answer, note::take())
}

fn run(case: &Record) -> Record {
    match case.call {
        "abs" => value(case, arith::abs(case.f("x"))),
        "abs1" => value(case, arith::abs1(case.f("x"))),
        "abs2" => value(case, arith::abs2(case.f("x"))),
        "recip" => value(case, arith::recip(case.f("x"))),
        "mul_pow2" => value(case, arith::mul_pow2(case.f("x"), case.f("p"))),
        "fmax" => value(case, arith::fmax(case.f("p"), case.f("q"))),
        "fmin" => value(case, arith::fmin(case.f("p"), case.f("q"))),
        "sqrt" => value(case, arith::sqrt(case.f("x"))),
        "hypot" => value(case, arith::hypot(case.f("p"), case.f("q"))),
        "norm_l2" => value(case, arith::norm_l2(case.l("x").iter().copied())),
        "inner_prod" => value(case, arith::inner_prod(case.l("x").iter().copied().zip(case.l("y").iter().copied()))),
        "rotg" => {
            let (rot, r) = JacobiRotation::rotg(case.f("p"), case.f("q"));
            floats(Record::new(case.call), ROTG, &[rot.c, rot.s, r])
        }
        "adjoint" => {
            let rot = JacobiRotation { c: case.f("c"), s: case.f("s") }.adjoint();
            floats(Record::new(case.call), ADJOINT, &[rot.c, rot.s])
        }
        "apply" => {
            let (x, y) = arith::apply(case.f("c"), case.f("s"), case.f("x"), case.f("y"));
            floats(Record::new(case.call), APPLY, &[x, y])
        }
        "lahqr_schur22" => standardise(case),
        "make_householder_in_place" => reflect(case),
        "lasy2" => solve(case),
        "schur_swap" => exchange(case),
        "reorder_schur" => reorder(case),
        "reorder_schur_stopping" => reorder_stopping(case),
        "reorder_schur_list" | "reorder_schur_list_ld" => lists::reorder(case),
        "block_values" => values(case, as_they_stand),
        "standardised_values" => values(case, standardised),
        "evd_from_real_schur" => vectors(case),
        "column" => column(case),
        "sheet" => Record::new(case.call).with("text", Value::Bytes(sheet::run(case.bytes("text")))),
        call if stride::taken_by(call) => strided(case),
        other => unreachable!("no call {other}"),
    }
}

fn value(case: &Record, r: f64) -> Record {
    Record::new(case.call).float("r", r)
}

/// An answer that begins with its number.
fn numbered(case: &Record, passed: Passed) -> Record {
    Record::new(case.call).num("answer", passed.err().unwrap_or(0))
}

pub fn floats(answer: Record, keys: &[&'static str], numbers: &[f64]) -> Record {
    keys.iter().zip(numbers).fold(answer, |answer, (key, x)| answer.float(key, *x))
}

pub fn counts(answer: Record, keys: &[&'static str], numbers: &[usize]) -> Record {
    keys.iter().zip(numbers).fold(answer, |answer, (key, x)| answer.num(key, *x))
}

fn standardise(case: &Record) -> Record {
    let ((a, b, c, d), s1, s2, (cs, sn)) = leaves::lahqr_schur22(case.f("a"), case.f("b"), case.f("c"), case.f("d"));
    floats(numbered(case, Ok(())), STANDARDISED, &[a, b, c, d, s1.0, s1.1, s2.0, s2.1, cs, sn])
}

fn reflect(case: &Record) -> Record {
    let mut tail = case.l("tail").to_vec();
    let passed = refuse::reflection(&tail);
    let mut results = [0.0; 4];
    if passed.is_ok() {
        let mut head = case.f("head");
        let rows = tail.len();
        let info = householder::make_householder_in_place(&mut head, MatMut::from_slice(&mut tail, rows, 1).col_mut(0));
        results = [head, info.tau, info.head_with_beta_inv, info.norm];
    }
    floats(numbered(case, passed), REFLECTION, &results).list("tail", tail)
}

fn solve(case: &Record) -> Record {
    let window = |key| MatRef::from_slice(case.l(key), 2, 2);
    let mut x = [0.0; 4];
    let scale = leaves::lasy2(window("tl"), window("tr"), window("b"), MatMut::from_slice(&mut x, 2, 2));
    floats(Record::new(case.call), SOLUTION, &[x[0], x[1], x[2], x[3], scale])
}

/// A lent factor; of length 0, none.
fn factor(u: &mut [f64], n: usize) -> Option<MatMut<'_, f64>> {
    if u.is_empty() { None } else { Some(MatMut::from_slice(u, n, n)) }
}

fn exchange(case: &Record) -> Record {
    let (n, j0, n1, n2) = (case.n("n"), case.n("j0"), case.n("n1"), case.n("n2"));
    let (mut t, mut u) = (case.l("t").to_vec(), case.l("u").to_vec());
    let passed = refuse::exchange(n, &t, &u, j0, n1, n2);
    let mut results = [0; 2];
    if passed.is_ok() {
        schur_swap(MatMut::from_slice(&mut t, n, n), factor(&mut u, n), j0, n1, n2);
        let notes = note::seen();
        results = [notes.swaps, notes.declined];
    }
    counts(numbered(case, passed), EXCHANGED, &results).list("t", t).list("u", u)
}

/// An accepted move, run by the Rust; the notes hold its counts and the row.
pub fn run_move(n: usize, t: &mut [f64], u: &mut [f64], from: usize, to: usize) -> Notes {
    eigen::reorder_schur(MatMut::from_slice(t, n, n), factor(u, n), from, to);
    note::seen()
}

fn reorder(case: &Record) -> Record {
    let (n, from, to) = (case.n("n"), case.n("from"), case.n("to"));
    let (mut t, mut u) = (case.l("t").to_vec(), case.l("u").to_vec());
    let passed = refuse::reorder(MOST_ROWS, n, &t, &u, from, to);
    let mut results = [0; 3];
    if passed.is_ok() {
        let notes = run_move(n, &mut t, &mut u, from, to);
        results = [notes.here, notes.swaps, notes.declined];
    }
    counts(numbered(case, passed), MOVED, &results).list("t", t).list("u", u)
}

fn reorder_stopping(case: &Record) -> Record {
    let (n, from, to) = (case.n("n"), case.n("from"), case.n("to"));
    let (mut t, mut u) = (case.l("t").to_vec(), case.l("u").to_vec());
    let passed = refuse::reorder(MOST_ROWS, n, &t, &u, from, to);
    let mut results = [0; 4];
    if passed.is_ok() {
        let m = stopping::reorder(n, &mut t, &mut u, from, to);
        results = [usize::from(m.stopped), m.here, m.swaps, m.declined];
    }
    counts(numbered(case, passed), STOPPED, &results).list("t", t).list("u", u)
}

/// The values of a form's blocks, by a reading of n rows.
fn values(case: &Record, read: fn(usize, &[f64]) -> Vec<(f64, f64)>) -> Record {
    let (n, t) = (case.n("n"), case.l("t"));
    let (mut re, mut im) = (case.l("re").to_vec(), case.l("im").to_vec());
    let passed = refuse::values(n, t, &re, &im);
    if passed.is_ok() {
        (re, im) = read(n, t).into_iter().unzip();
    }
    numbered(case, passed).list("re", re).list("im", im)
}

/// Blocks as they stand: the Rust's own reading.
fn as_they_stand(n: usize, t: &[f64]) -> Vec<(f64, f64)> {
    let form = MatRef::from_slice(t, n, n);
    let mut values = vec![Complex::new(0.0, 0.0); n];
    let mut unused = vec![Complex::new(0.0, 0.0); n * n];
    eigen::block_values(form, form, &mut values, MatMut::from_slice(&mut unused, n, n));
    values.iter().map(|z| (z.re, z.im)).collect()
}

/// Note 5 of document 02: a 1-block reads as before. A copy of a 2-block is standardised, and gives
/// its two diagonal numbers: with +0 beside each if c came out zero, else with the size and then its
/// negative.
fn standardised(n: usize, t: &[f64]) -> Vec<(f64, f64)> {
    let at = |i: usize, j: usize| t[i + n * j];
    let mut values = Vec::new();
    while values.len() < n {
        let i = values.len();
        if i + 1 == n || at(i + 1, i) == 0.0 {
            values.push((at(i, i), 0.0));
            continue;
        }
        let ((a, _, c, d), (_, size), ..) =
            leaves::lahqr_schur22(at(i, i), at(i, i + 1), at(i + 1, i), at(i + 1, i + 1));
        note::pair(c);
        values.extend(if c == 0.0 { [(a, 0.0), (d, 0.0)] } else { [(a, size), (d, -size)] });
    }
    values
}

fn vectors(case: &Record) -> Record {
    let (n, t) = (case.n("n"), case.l("t"));
    let mut v = case.l("v").to_vec();
    let passed = refuse::vectors(n, t, &v);
    if passed.is_ok() {
        evd::evd_from_real_schur_imp(MatRef::from_slice(t, n, n), MatMut::from_slice(&mut v, n, n), Par::Seq, PARAMS);
    }
    numbered(case, passed).list("v", v)
}

fn column(case: &Record) -> Record {
    let (n, v, col) = (case.n("n"), case.l("v"), case.n("col"));
    let part = match refuse::column(n, v, col) {
        Ok(()) => &v[n * col..n * col + n],
        Err(_) => &[],
    };
    Record::new(case.call).list("part", part.to_vec())
}

/// The corners copied out, worked as the base call does, and copied back into the rows below n.
fn strided(case: &Record) -> Record {
    match refuse::strided(case.n("n"), case.n("ld"), case.lent("t"), case.lent("u"), case.lent("v")) {
        Ok(()) => stride::put_back(case, run(&stride::corner(case))),
        Err(number) => stride::refused(case, number, run),
    }
}

#[cfg(test)]
mod tests {
    use super::*;
    use crate::generate::{self, USUAL};

    fn with_stride<'a>(list: &'a mut [f64], case: &Record) -> MatMut<'a, f64> {
        MatMut::with_stride(list, case.n("n"), case.n("n"), case.n("ld"))
    }

    /// The Rust on views of the whole buffers, of an accepted case.
    fn on_views(case: &Record) -> Vec<Vec<f64>> {
        let list = |key| case.lent(key).unwrap_or(&[]).to_vec();
        let [mut t, mut u, mut v] = ["t", "u", "v"].map(list);
        if case.call == "evd_from_real_schur_ld" {
            evd::evd_from_real_schur_imp(with_stride(&mut t, case).rb(), with_stride(&mut v, case), Par::Seq, PARAMS);
            return vec![v];
        }
        let factor = if u.is_empty() { None } else { Some(with_stride(&mut u, case)) };
        let form = with_stride(&mut t, case);
        match case.call {
            "schur_swap_ld" => drop(schur_swap(form, factor, case.n("j0"), case.n("n1"), case.n("n2"))),
            _ => eigen::reorder_schur(form, factor, case.n("from"), case.n("to")),
        }
        vec![t, u]
    }

    /// The Rust's views take a stride: so lent the whole buffers, it gives what it gives on the
    /// corners copied out, and leaves every bit beyond them.
    #[test]
    fn views_give_what_corners_give() {
        for call in ["schur_swap_ld", "reorder_schur_ld", "evd_from_real_schur_ld"] {
            let cases = (0..3000).map(|index| generate::case(call, 5, index, USUAL));
            for case in cases.filter(|case| answer(case).0.n("answer") == 0) {
                let keys = if call == "evd_from_real_schur_ld" { &["v"][..] } else { &["t", "u"] };
                let worked = keys.iter().zip(on_views(&case));
                let views = worked.fold(Record::new(call).num("answer", 0), |views, (key, list)| views.list(key, list));
                let views = stride::checked(&case, views).settled();
                let (corners, _) = answer(&case);
                keys.iter().for_each(|key| assert_eq!(bits(views.l(key)), bits(corners.l(key)), "{case}"));
                assert!(views.find("beyond").is_none(), "{case}");
            }
        }
    }

    fn bits(list: &[f64]) -> Vec<u64> {
        list.iter().map(|x| x.to_bits()).collect()
    }

    /// With the stride n all is as without one, refusals too.
    #[test]
    fn stride_n_changes_nothing() {
        for (_, call) in stride::CALLS {
            for index in 0..3000 {
                let case = generate::case(call, 5, index, USUAL);
                let (answer, strided) = (answer(&case).0, answer(&stride::of_n(&case)).0);
                assert_eq!(answer.difference(&strided), None, "{case}");
            }
        }
    }
}
