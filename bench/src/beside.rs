//! Times ours beside another archive with the same calls, such as that of the commit before: every row of
//! the bench on these two alone, in one process, but for standardised values, the move that stops and lists
//! of moves, calls that the other may lack. A figure is the mean of the middle times at the eight places of
//! bench/places; the last column has the least and largest ratio at one of them.

use crate::archive::{OTHER, OURS};
use crate::arithmetic::archives_times;
use crate::forms::Form;
use crate::reflections::ReflectionRow;
use crate::report::nanoseconds;
use crate::rows::{FormRow, MoveRow, Plan, progress};
use crate::sides::{Side, Values};
use crate::table::Table;
use crate::timing::Times;

/// What a change may cost.
const LIMIT: f64 = 1.03;

/// A table of rows, the largest ratio, how many lie above the limit, and how many were not timed, as one
/// of the two refuses them.
struct Compared<'a> {
    plan: &'a Plan,
    table: Table,
    rows: usize,
    above: usize,
    largest: f64,
    refused: usize,
}

impl Compared<'_> {
    fn add(&mut self, what: &str, blocks: &str, factor: &str, n: String, times: Option<Times>) {
        let times = match times {
            Some(times) => times,
            None => return self.refused += 1,
        };
        let [ours, other] = [0, 1].map(|side| times.at_places(side, self.plan.least));
        let ratios: Vec<f64> = ours.iter().zip(&other).map(|(ours, other)| ours / other).collect();
        let [ours, other] = [ours, other].map(|times| times.iter().sum::<f64>() / times.len() as f64);
        self.rows += 1;
        self.above += usize::from(ours / other > LIMIT);
        self.largest = self.largest.max(ours / other);
        let cells = [what.to_string(), blocks.to_string(), factor.to_string(), n];
        let (low, high) = ratios.iter().fold((f64::MAX, 0.0), |(low, high), x| (x.min(low), x.max(high)));
        let numbers = [
            nanoseconds(other, &times),
            nanoseconds(ours, &times),
            format!("{:.3}", ours / other),
            format!("{low:.2}–{high:.2}"),
        ];
        self.table.add(cells.into_iter().chain(numbers).collect());
    }
}

pub fn run(plan: &Plan) {
    let sides = [Side::Archive(&OURS, 0), Side::Archive(&OTHER, 0)];
    let heads = ["", "blocks", "factor", "n", "other, ns", "ours, ns", "ours/other", "by place"];
    let table = Table::new(plan.markdown, &heads);
    let mut compared = Compared { plan, table, rows: 0, above: 0, largest: 0.0, refused: 0 };
    for row in MoveRow::all(plan) {
        let taken = sides.iter().all(|side| row.done_by(side));
        let times = taken.then(|| row.times(plan, &sides));
        compared.add(row.what, row.kind.name(), row.factor(), row.form.n.to_string(), times);
    }
    for row in FormRow::all(plan, "vectors") {
        let Form { n, ld, t, .. } = &row.form;
        let mut v = vec![vec![0.0; t.len()]; sides.len()];
        let taken = sides.iter().all(|side| side.vectors(*n, *ld, t, &mut v[0]) == 0);
        let times = taken.then(|| row.vectors_times(plan, &sides, &mut v));
        compared.add(&row.what, row.kind.name(), "", n.to_string(), times);
    }
    for row in FormRow::all(plan, "values") {
        let Form { n, ld, t, .. } = &row.form;
        let mut out = Values::new(*n);
        let taken = sides.iter().all(|side| side.values(*n, *ld, t, &mut out) == 0);
        let times = taken.then(|| row.values_times(plan, &sides, &mut out));
        compared.add(&row.what, row.kind.name(), "", n.to_string(), times);
    }
    for row in ReflectionRow::all(plan) {
        let taken = sides.iter().all(|side| row.done_by(side).is_some());
        let times = taken.then(|| row.times(plan, &sides));
        compared.add(&row.name, "", "", String::new(), times);
    }
    for (name, times) in archives_times(plan, &[&OURS, &OTHER]) {
        compared.add(&name, "", "", String::new(), Some(times));
    }
    progress("");
    compared.table.print("Ours beside another archive");
    let Compared { rows, above, largest, refused, .. } = compared;
    println!("{rows} rows; above {LIMIT}: {above}; the largest {largest:.3}; refused by one of them: {refused}.");
}
