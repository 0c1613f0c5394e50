//! The errors of our moves and vectors beside LAPACK's, on the forms of forms.rs, in units of
//! eps × n. Worked out in twice the digits, so that what is measured is the results' own error.

use crate::exact::{Square, Wide, norm};
use crate::forms::{Form, Kind, unit};
use crate::rows::SIZES;
use crate::sides::Side;
use crate::speed::Sides;
use crate::table::Table;

const NAMES: [&str; 3] = ["ours", "LAPACK", "OpenBLAS"];

pub fn run(sides: &Sides, forms: u64, markdown: bool) {
    let judged = [sides.all[0], sides.all[2], sides.all[3]];
    moves(&judged, forms, markdown);
    vectors(&judged, forms, markdown);
}

fn heads(groups: &[&str]) -> Vec<String> {
    let cells = groups.iter().flat_map(|group| NAMES.iter().map(move |name| format!("{group} {name}")));
    ["blocks", "n"].into_iter().map(str::to_string).chain(cells).collect()
}

fn table(markdown: bool, groups: &[&str], last: &str) -> Table {
    let mut all = heads(groups);
    all.push(last.to_string());
    Table::new(markdown, &all.iter().map(String::as_str).collect::<Vec<_>>())
}

fn unit_of(n: usize) -> f64 {
    f64::EPSILON * n as f64
}

fn raise(most: &mut f64, x: f64) {
    // A NaN must show.
    if !(x <= *most) {
        *most = x;
    }
}

/// Two or three digits, whatever the size.
fn figure(x: f64) -> String {
    if x == 0.0 || x >= 0.01 { format!("{x:.2}") } else { format!("{x:.1e}") }
}

fn cells(kind: Kind, n: usize, numbers: &[f64]) -> Vec<String> {
    let names = [kind.name().to_string(), n.to_string()];
    names.into_iter().chain(numbers.iter().map(|x| figure(*x))).collect()
}

/// Whole reversals: T' against QᵀTQ, Q against an orthogonal one, and the values against LAPACK's.
fn moves(sides: &[Side; 3], forms: u64, markdown: bool) {
    let mut table = table(markdown, &["form:", "factor:"], "values apart");
    for kind in Kind::ALL {
        for n in SIZES {
            let mut most = [0.0; 7];
            for seed in 0..forms {
                let form = Form::new(kind, n, seed);
                let size = norm(form.t.iter().copied());
                let mut diagonals = Vec::new();
                for (k, side) in sides.iter().enumerate() {
                    let (mut t, mut q) = (form.t.clone(), unit(n));
                    for (from, to) in form.reversal() {
                        assert!(side.reorder(n, n, &mut t, &mut q, from, to) == 0, "{} declines", NAMES[k]);
                    }
                    // QᵀTQ is the turned form of (TQ)ᵀQ.
                    let product = Square::of(n, &form.t).times(&q).turned().times(&q).turned();
                    raise(&mut most[k], product.apart(&t) / size / unit_of(n));
                    let square = Square::of(n, &q).turned().times(&q);
                    raise(&mut most[3 + k], square.apart(&unit(n)) / unit_of(n));
                    diagonals.push((0..n).map(|i| t[i + n * i]).collect::<Vec<f64>>());
                }
                let apart = diagonals[0].iter().zip(&diagonals[1]).map(|(x, y)| (x - y).abs());
                raise(&mut most[6], apart.fold(0.0, f64::max) / size / unit_of(n));
            }
            table.add(cells(kind, n, &most));
        }
    }
    table.print(&format!(
        "Whole reversals by moves, with factor Q: form ‖T' − QᵀTQ‖/‖T‖, factor ‖QᵀQ − I‖, and how far our diagonal \
         is from LAPACK's, /‖T‖; the largest of {forms} forms, in eps·n, Frobenius norms"
    ));
}

/// One vector: its value and the parts of the vector, both imaginary parts zero for a 1-block.
struct Pair<'a> {
    re: f64,
    im: f64,
    x: &'a [f64],
    y: &'a [f64],
}

impl Pair<'_> {
    /// ‖T z − λ z‖ / ‖z‖ with z = x + iy, λ = re + i im.
    fn residual(&self, n: usize, t: &[f64]) -> f64 {
        let row = |i: usize, z: &[f64]| (0..n).fold(Wide::default(), |s, k| s.plus(Wide::of(t[i + n * k]).times(z[k])));
        let (x, y) = (self.x, self.y);
        let both = (0..n).flat_map(|i| {
            let left = row(i, x).minus(Wide::of(x[i]).times(self.re)).plus(Wide::of(y[i]).times(self.im));
            let right = row(i, y).minus(Wide::of(y[i]).times(self.re)).minus(Wide::of(x[i]).times(self.im));
            [left.near(), right.near()]
        });
        norm(both) / norm(x.iter().chain(y).copied())
    }

    /// The vector divided by its entry `at`, both parts in one list.
    fn scaled(&self, at: usize) -> Vec<f64> {
        let (a, b) = (self.x[at], self.y[at]);
        let d = a * a + b * b;
        let whole = self.x.iter().zip(self.y);
        whole.flat_map(|(x, y)| [(x * a + y * b) / d, (y * a - x * b) / d]).collect()
    }

    fn largest(&self) -> usize {
        let size = |i: usize| self.x[i] * self.x[i] + self.y[i] * self.y[i];
        (0..self.x.len()).max_by(|i, j| size(*i).total_cmp(&size(*j))).unwrap()
    }
}

/// All vectors: T x against λ x, and ours against LAPACK's when both are scaled alike.
fn vectors(sides: &[Side; 3], forms: u64, markdown: bool) {
    let mut table = table(markdown, &["vectors:"], "vectors apart");
    for kind in Kind::ALL {
        for n in SIZES {
            let mut most = [0.0; 4];
            for seed in 0..forms {
                let form = Form::new(kind, n, seed);
                let size = norm(form.t.iter().copied());
                let none = vec![0.0; n];
                let all: Vec<Vec<f64>> = sides
                    .iter()
                    .map(|side| {
                        let mut v = vec![0.0; n * n];
                        assert!(side.vectors(n, n, &form.t, &mut v) == 0);
                        v
                    })
                    .collect();
                let mut row = 0;
                for block in &form.sizes {
                    let t = |i: usize, j: usize| form.t[i + n * j];
                    let im =
                        if *block == 2 { t(row + 1, row).abs().sqrt() * t(row, row + 1).abs().sqrt() } else { 0.0 };
                    let column = |k: usize, j: usize| &all[k][n * j..n * j + n];
                    let pair = |k: usize| Pair {
                        re: t(row, row),
                        im,
                        x: column(k, row),
                        y: if *block == 2 { column(k, row + 1) } else { &none },
                    };
                    (0..3).for_each(|k| raise(&mut most[k], pair(k).residual(n, &form.t) / size / unit_of(n)));
                    let at = pair(1).largest();
                    let (ours, theirs) = (pair(0).scaled(at), pair(1).scaled(at));
                    let apart = norm(ours.iter().zip(&theirs).map(|(x, y)| x - y)) / norm(theirs.iter().copied());
                    raise(&mut most[3], apart / unit_of(n));
                    row += block;
                }
            }
            table.add(cells(kind, n, &most));
        }
    }
    table.print(&format!(
        "All vectors: ‖T x − λ x‖/(‖T‖ ‖x‖), and how far our vector is from LAPACK's (both divided by the same \
         entry), /‖x‖; the largest of {forms} forms, in eps·n"
    ));
}
