//! Times moves, the move that stops, a list of moves in one call, vectors, values, standardised values and
//! reflections, and prints them as ratios.

use crate::archive::OURS;
use crate::arithmetic::arithmetic;
use crate::forms::Form;
use crate::reflections::ReflectionRow;
use crate::report::{Asked, NAMES, Report, middle_time, shown};
use crate::rows::{FormRow, MoveRow, Plan, progress};
use crate::sides::{List, Side, Values};
use crate::table::Table;
use crate::timing::Spread;

/// The sides in the order of the table's columns.
pub struct Sides {
    pub all: [Side; 4],
}

pub fn run(plan: &Plan, sides: &Sides) {
    let report = &mut Report::new();
    let tables = [
        ("Moves", moves(plan, sides, report)),
        ("The move that stops, beside our own that goes on and dtrexc, which stops too", stopping(plan, sides, report)),
        (
            "A list of moves in one call, beside our own single calls, the Rust's and dtrexc's",
            lists(plan, sides, report),
        ),
        ("Vectors", vectors(plan, sides, report)),
        ("Values (LAPACK has no routine that only reads the values off a form)", values(plan, sides, report)),
        ("Values of a copy standardised first; LAPACK: dlanv2 for each 2-block", standardised(plan, sides, report)),
        ("Reflections", reflections(plan, sides, report)),
        ("Root and modulus", arithmetic(plan, report)),
    ];
    progress("");
    report.print(plan.markdown);
    tables.iter().for_each(|(title, table)| table.print(title));
}

/// What is asked of moves of more than one exchange and of vectors at the stride n, and nothing at
/// another: docs/BENCHMARKS.md.
fn target(form: &Form) -> Option<Asked> {
    (form.ld == form.n).then(|| Asked::AtMost(if form.n >= 16 { 1.0 } else { 1.5 }))
}

fn moves(plan: &Plan, sides: &Sides, report: &mut Report) -> Table {
    let heads =
        ["", "blocks", "factor", "n", "swaps", "ours, ns", "ours/Rust", "ours/LAPACK", "ours/OpenBLAS", "to reach"];
    let mut table = Table::new(plan.markdown, &heads);
    for row in MoveRow::all(plan) {
        let n = row.form.n;
        let swaps = swaps_of(&check_moves(sides, &row));
        let times = row.times(plan, &sides.all);
        let ratios: Vec<Spread> = (1..4).map(|k| times.ratio(0, k, plan.least)).collect();
        report.same_call(format!("move {}", row.call()), &ratios);
        let said = report.add(&row.name, n, target(&row.form).filter(|_| swaps > 1), &ratios, &times);
        table.add(vec![
            row.what.to_string(),
            row.kind.name().to_string(),
            row.factor().to_string(),
            n.to_string(),
            swaps.to_string(),
            middle_time(&times, 0),
            shown(ratios[0]),
            shown(ratios[1]),
            shown(ratios[2]),
            said,
        ]);
    }
    table
}

/// What a move gives: its number, the row, the swaps and how many declined.
type Results = [usize; 4];

fn swaps_of(results: &[Results]) -> usize {
    results.iter().map(|[_, _, swaps, _]| swaps).sum()
}

/// Every side carries the moves out, ours as the Rust in every bit, none declines. Hands back our results.
fn check_moves(sides: &Sides, row: &MoveRow) -> Vec<Results> {
    let Form { n, ld, .. } = row.form;
    check_ours(sides, row, |t, u| {
        let one = |&(from, to): &(usize, usize)| {
            let (number, [landed, swaps, declined]) = OURS[0].reorder(n, ld, t, u, from, to);
            [number, landed, swaps, declined]
        };
        row.moves.iter().map(one).collect()
    })
}

/// The same of one of our calls, which makes all the moves.
fn check_ours(sides: &Sides, row: &MoveRow, ours: impl FnOnce(&mut [f64], &mut [f64]) -> Vec<Results>) -> Vec<Results> {
    let MoveRow { form, with_factor, moves, .. } = row;
    let (n, ld) = (form.n, form.ld);
    let (mut t, mut u) = (form.t.clone(), form.factor(*with_factor));
    let results = ours(&mut t, &mut u);
    assert!(results.len() == moves.len(), "our results are those of {} moves", results.len());
    for ((from, to), [number, landed, _, declined]) in moves.iter().zip(&results) {
        let carried_out = *number == 0 && landed == to && *declined == 0;
        assert!(carried_out, "our move {from} to {to}: {number}, landed {landed}, declined {declined}");
    }
    for (side, name) in sides.all.iter().zip(NAMES).skip(1) {
        let (mut t2, mut u2) = (form.t.clone(), form.factor(*with_factor));
        for &(from, to) in moves {
            assert!(side.reorder(n, ld, &mut t2, &mut u2, from, to) == 0, "{name} declines {from} to {to}");
        }
        match side {
            Side::Rust => assert!(bits(&t) == bits(&t2) && bits(&u) == bits(&u2), "the Rust differs"),
            _ => (0..n).for_each(|i| assert!((t[i + ld * i] - t2[i + ld * i]).abs() < 1e-6, "{name} differs, row {i}")),
        }
    }
    results
}

fn stopping(plan: &Plan, sides: &Sides, report: &mut Report) -> Table {
    let heads =
        ["", "blocks", "factor", "n", "swaps", "ours, ns", "ours/reorder_schur", "ours/LAPACK", "ours/OpenBLAS"];
    let mut table = Table::new(plan.markdown, &heads);
    let [ours, _, lapack, openblas] = sides.all;
    for row in MoveRow::stopping(plan) {
        let swaps = swaps_of(&check_stopping(sides, &row));
        let times = row.times(plan, &[Side::Stopping(&OURS, 0), ours, lapack, openblas]);
        let ratios: Vec<Spread> = (1..4).map(|k| times.ratio(0, k, plan.least)).collect();
        report.same_call(format!("stopping {}", row.call()), &ratios);
        report.note(&ratios, &times);
        let cells = [row.what, row.kind.name(), row.factor()].map(str::to_string);
        let numbers = [row.form.n.to_string(), swaps.to_string(), middle_time(&times, 0)];
        table.add(cells.into_iter().chain(numbers).chain(ratios.into_iter().map(shown)).collect());
    }
    table
}

/// The same of the move that stops, of which none does. No test fails on these forms, and no block is
/// parted: so it is as the Rust's move in every bit, and has the row and the swaps of our own that goes on.
fn check_stopping(sides: &Sides, row: &MoveRow) -> Vec<Results> {
    let Form { n, ld, .. } = row.form;
    let results = check_ours(sides, row, |t, u| {
        let one = |&(from, to): &(usize, usize)| {
            let (number, stopped, [here, swaps, declined]) = OURS[0].reorder_stopping(n, ld, t, u, from, to);
            assert!(!stopped, "our move {from} to {to} stops in row {here}: {number}");
            [number, here, swaps, declined]
        };
        row.moves.iter().map(one).collect()
    });
    assert!(results == check_moves(sides, row), "our two moves differ in their results");
    results
}

/// What is asked of a list at the stride n, and in which ratio: where each move is one exchange at most a
/// third of the single calls' time at n = 64, of a reversal less than LAPACK's from n = 32 on.
fn list_target(row: &MoveRow, swaps: usize) -> Option<(Asked, usize)> {
    let Form { n, ld, .. } = row.form;
    match swaps == row.moves.len() {
        true if ld == n && n == 64 => Some((Asked::AtMost(0.333), 0)),
        false if ld == n && n >= 32 => Some((Asked::Below(1.0), 2)),
        _ => None,
    }
}

fn lists(plan: &Plan, sides: &Sides, report: &mut Report) -> Table {
    let names = ["single calls", "Rust", "LAPACK", "OpenBLAS"];
    let ratio_heads = names.map(|name| format!("ours/{name}"));
    let heads = ["", "blocks", "factor", "n", "moves", "swaps", "ours, ns"].into_iter();
    let heads: Vec<&str> = heads.chain(ratio_heads.iter().map(String::as_str)).chain(["to reach"]).collect();
    let mut table = Table::new(plan.markdown, &heads);
    let [single, rust, lapack, openblas] = sides.all;
    for row in MoveRow::lists(plan) {
        let swaps = swaps_of(&check_list(sides, &row));
        let times = row.times(plan, &[Side::List(&OURS, 0), single, rust, lapack, openblas]);
        let ratios: Vec<Spread> = (1..5).map(|k| times.ratio(0, k, plan.least)).collect();
        report.note(&ratios, &times);
        let said = match list_target(&row, swaps) {
            Some((asked, at)) => report.judged(Some(asked), &names[at..=at], &ratios[at..=at]),
            None => report.judged(None, &[], &[]),
        };
        let cells = [row.what, row.kind.name(), row.factor()].map(str::to_string);
        let numbers = [row.form.n, row.moves.len(), swaps].map(|x| x.to_string());
        let times = [middle_time(&times, 0)].into_iter().chain(ratios.into_iter().map(shown));
        table.add(cells.into_iter().chain(numbers).chain(times).chain([said]).collect());
    }
    table
}

/// The list in one call is as the Rust's moves in every bit, and has the results of our single calls.
fn check_list(sides: &Sides, row: &MoveRow) -> Vec<Results> {
    let Form { n, ld, .. } = row.form;
    let results = check_ours(sides, row, |t, u| {
        let mut list = List::of(&row.moves);
        let number = OURS[0].reorder_list(n, ld, t, u, &list.moves, &mut list.results);
        assert!(number == 0, "our list of {} moves: {number}", row.moves.len());
        list.results.chunks(4).map(|four| [four[0], four[1], four[2], four[3]]).collect()
    });
    assert!(results == check_moves(sides, row), "our list and our single calls differ in their results");
    results
}

fn bits(x: &[f64]) -> Vec<u64> {
    x.iter().map(|x| x.to_bits()).collect()
}

fn vectors(plan: &Plan, sides: &Sides, report: &mut Report) -> Table {
    let heads = ["", "blocks", "n", "ours, ns", "ours/Rust", "ours/LAPACK", "ours/OpenBLAS", "to reach"];
    let mut table = Table::new(plan.markdown, &heads);
    for row in FormRow::all(plan, "vectors") {
        let (n, ld) = (row.form.n, row.form.ld);
        let mut v: Vec<Vec<f64>> = vec![vec![0.0; row.form.t.len()]; 4];
        for (side, v) in sides.all.iter().zip(&mut v) {
            assert!(side.vectors(n, ld, &row.form.t, v) == 0);
        }
        assert!(v[0].iter().zip(&v[1]).all(|(x, y)| x.to_bits() == y.to_bits()), "the Rust differs");
        let times = row.vectors_times(plan, &sides.all, &mut v);
        let ratios: Vec<Spread> = (1..4).map(|k| times.ratio(0, k, plan.least)).collect();
        let said = report.add(&row.name, n, target(&row.form), &ratios, &times);
        table.add(vec![
            row.what,
            row.kind.name().to_string(),
            n.to_string(),
            middle_time(&times, 0),
            shown(ratios[0]),
            shown(ratios[1]),
            shown(ratios[2]),
            said,
        ]);
    }
    table
}

fn values(plan: &Plan, sides: &Sides, report: &mut Report) -> Table {
    let (mut table, both) = (Table::new(plan.markdown, &["", "blocks", "n", "ours, ns", "ours/Rust"]), &sides.all[..2]);
    for row in FormRow::all(plan, "values") {
        let (n, ld) = (row.form.n, row.form.ld);
        let mut out = Values::new(n);
        assert!(both.iter().all(|side| side.values(n, ld, &row.form.t, &mut out) == 0));
        assert!(out.agree(), "the Rust differs");
        let times = row.values_times(plan, both, &mut out);
        let ratio = times.ratio(0, 1, plan.least);
        report.note(&[ratio], &times);
        let cells = [row.kind.name().to_string(), n.to_string(), middle_time(&times, 0), shown(ratio)];
        table.add([row.what].into_iter().chain(cells).collect());
    }
    table
}

fn standardised(plan: &Plan, sides: &Sides, report: &mut Report) -> Table {
    let heads = ["", "blocks", "n", "ours, ns", "ours/Rust", "ours/LAPACK", "ours/OpenBLAS"];
    let mut table = Table::new(plan.markdown, &heads);
    for row in FormRow::standardised(plan) {
        let mut out = check_standardised(sides, &row);
        let times = row.standardised_times(plan, &sides.all, &mut out);
        let ratios: Vec<Spread> = (1..4).map(|k| times.ratio(0, k, plan.least)).collect();
        report.note(&ratios, &times);
        let cells = [row.what, row.kind.name().to_string(), row.form.n.to_string(), middle_time(&times, 0)];
        table.add(cells.into_iter().chain(ratios.into_iter().map(shown)).collect());
    }
    table
}

/// Ours are as the Rust's in every bit, LAPACK's near them.
fn check_standardised(sides: &Sides, row: &FormRow) -> Values {
    let Form { n, ld, t, .. } = &row.form;
    let mut out = Values::new(*n);
    assert!(sides.all[..2].iter().all(|side| side.standardised(*n, *ld, t, &mut out) == 0));
    assert!(out.agree(), "the Rust differs");
    for (side, name) in sides.all.iter().zip(NAMES).skip(2) {
        let mut out2 = Values::new(*n);
        side.standardised(*n, *ld, t, &mut out2);
        assert!(out.near(&out2), "{name} differs");
    }
    out
}

fn reflections(plan: &Plan, sides: &Sides, report: &mut Report) -> Table {
    let heads = ["", "ours, ns", "ours/Rust", "ours/LAPACK", "ours/OpenBLAS"];
    let mut table = Table::new(plan.markdown, &heads);
    for row in ReflectionRow::all(plan) {
        if !check_reflections(sides, &row) {
            report.refuse(row.name);
            continue;
        }
        let times = row.times(plan, &sides.all);
        let ratios: Vec<Spread> = (1..4).map(|k| times.ratio(0, k, plan.least)).collect();
        report.note(&ratios, &times);
        let cells = [row.name, middle_time(&times, 0)];
        table.add(cells.into_iter().chain(ratios.into_iter().map(shown)).collect());
    }
    table
}

/// Ours are as the Rust's in every bit, LAPACK's heads and tails near them. False where ours refuses them.
fn check_reflections(sides: &Sides, row: &ReflectionRow) -> bool {
    let (columns, further) = match row.done_by(&sides.all[0]) {
        Some(done) => done,
        None => return false,
    };
    for (side, name) in sides.all.iter().zip(NAMES).skip(1) {
        let (columns2, further2) = row.done_by(side).expect("only archives refuse");
        match side {
            Side::Rust => {
                assert!(bits(&columns) == bits(&columns2) && bits(&further) == bits(&further2), "the Rust differs")
            }
            _ => assert!(columns.iter().zip(&columns2).all(|(x, y)| (x - y).abs() < 1e-10), "{name} differs"),
        }
    }
    true
}
