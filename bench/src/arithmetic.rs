//! Times the root beside the processor's instruction, and the modulus beside the Rust's and libm's.

use crate::archive::{Archive, OURS, PLACES};
use crate::forms::between;
use crate::opaque::black_box;
use crate::report::{Asked, Report, middle_time, shown};
use crate::rng::Rng;
use crate::rows::{Plan, SEED};
use crate::sides::{called_sqrt, hardware_sqrt, rust_hypot};
use crate::table::Table;
use crate::timing::Times;
use std::time::{Duration, Instant};

const COUNT: usize = 512;

/// Many calls on numbers of many sizes, each by itself.
fn each(numbers: &[(f64, f64)], out: &mut [f64], f: impl Fn(f64, f64) -> f64) -> Duration {
    let start = Instant::now();
    for ((p, q), out) in black_box(numbers).iter().zip(out.iter_mut()) {
        *out = f(*p, *q);
    }
    let taken = start.elapsed();
    black_box(out);
    taken
}

/// The same, but each call waits for the result before it.
fn in_turn(numbers: &[(f64, f64)], f: impl Fn(f64, f64) -> f64) -> Duration {
    let start = Instant::now();
    let mut last = 0.0;
    for (p, q) in black_box(numbers) {
        last = f(p + last * 1e-300, *q);
    }
    black_box(last);
    start.elapsed()
}

/// Pairs of numbers of many sizes, pairs alike in size, as in a rotation, and pairs of subnormals.
fn pairs() -> [Vec<(f64, f64)>; 3] {
    let rng = &mut Rng::new(SEED, "numbers", 0);
    let mut wide = || between(rng, 1.0, 2.0) * 2f64.powi(rng.between(-40, 40) as i32);
    let numbers = (0..COUNT).map(|_| (wide(), wide())).collect();
    let rng = &mut Rng::new(SEED, "pairs", 0);
    let alike = (0..COUNT).map(|_| (between(rng, -2.0, 2.0), between(rng, -2.0, 2.0))).collect();
    let rng = &mut Rng::new(SEED, "subnormals", 0);
    let mut subnormal = || f64::from_bits(rng.bits() >> 12);
    [numbers, alike, (0..COUNT).map(|_| (subnormal(), subnormal())).collect()]
}

pub fn arithmetic(plan: &Plan, report: &mut Report) -> Table {
    let [numbers, alike, subnormal] = pairs();
    let mut out = vec![0.0; COUNT];

    let mut table = Table::new(plan.markdown, &["", "beside", "ours, ns", "theirs, ns", "ours/theirs", "to reach"]);
    let mut row = |name: &str, beside: &str, asked: Option<Asked>, run: &mut dyn FnMut(usize, usize) -> Duration| {
        if !plan.wants(&format!("{name} {beside}"), None) {
            return;
        }
        let times = Times::take(2, COUNT, plan.budget, run);
        let ratio = times.ratio(0, 1, plan.least);
        report.note(&[ratio], &times);
        table.add(vec![
            name.to_string(),
            beside.to_string(),
            middle_time(&times, 0),
            middle_time(&times, 1),
            shown(ratio),
            report.judged(asked, &[beside], &[ratio]),
        ]);
    };
    let ours = |place: usize| move |x: f64, _: f64| OURS[place].sqrt(x);
    let modulus = |place: usize| move |p: f64, q: f64| OURS[place].hypot(p, q);
    row("sqrt, each by itself", "the instruction behind a call", Some(Asked::AtMost(6.0)), &mut |k, place| match k {
        0 => each(&numbers, &mut out, ours(place)),
        _ => each(&numbers, &mut out, |x, _| black_box(called_sqrt as extern "C" fn(f64) -> f64)(x)),
    });
    row("sqrt, each by itself", "the bare instruction", Some(Asked::AtMost(6.0)), &mut |k, place| match k {
        0 => each(&numbers, &mut out, ours(place)),
        _ => each(&numbers, &mut out, |x, _| hardware_sqrt(x)),
    });
    row("sqrt, each after the last", "the bare instruction", Some(Asked::AtMost(6.0)), &mut |k, place| match k {
        0 => in_turn(&numbers, ours(place)),
        _ => in_turn(&numbers, |x, _| hardware_sqrt(x)),
    });
    for (numbers, sort) in [(&numbers, "any sizes"), (&alike, "like sizes"), (&subnormal, "subnormal")] {
        let name = format!("hypot, each by itself, {sort}");
        row(&name, "the Rust helper", None, &mut |k, place| match k {
            0 => each(numbers, &mut out, modulus(place)),
            _ => each(numbers, &mut out, |p, q| rust_hypot(p, q)),
        });
        row(&name, "libm", None, &mut |k, place| match k {
            0 => each(numbers, &mut out, modulus(place)),
            _ => each(numbers, &mut out, f64::hypot),
        });
    }
    for (numbers, sort) in [(&numbers, "any sizes"), (&alike, "like sizes")] {
        let name = format!("hypot, each after the last, {sort}");
        row(&name, "the Rust helper", None, &mut |k, place| match k {
            0 => in_turn(numbers, modulus(place)),
            _ => in_turn(numbers, |p, q| rust_hypot(p, q)),
        });
    }
    table
}

/// The root and the modulus of several archives: the rows that are wanted and their times.
pub fn archives_times(plan: &Plan, archives: &[&'static [Archive; PLACES]]) -> Vec<(String, Times)> {
    let [numbers, alike, subnormal] = pairs();
    let (mut out, mut rows) = (vec![0.0; COUNT], Vec::new());
    let mut row = |name: &str, run: &mut dyn FnMut(&'static Archive) -> Duration| {
        if plan.wants(name, None) {
            let times = Times::take(archives.len(), COUNT, plan.budget, |k, place| run(&archives[k][place]));
            rows.push((name.to_string(), times));
        }
    };
    row("sqrt, each by itself", &mut |archive| each(&numbers, &mut out, |x, _| archive.sqrt(x)));
    row("sqrt, each after the last", &mut |archive| in_turn(&numbers, |x, _| archive.sqrt(x)));
    row("hypot, each by itself, any sizes", &mut |archive| each(&numbers, &mut out, |p, q| archive.hypot(p, q)));
    row("hypot, each by itself, like sizes", &mut |archive| each(&alike, &mut out, |p, q| archive.hypot(p, q)));
    row("hypot, each by itself, subnormal", &mut |archive| each(&subnormal, &mut out, |p, q| archive.hypot(p, q)));
    row("hypot, each after the last, any sizes", &mut |archive| in_turn(&numbers, |p, q| archive.hypot(p, q)));
    row("hypot, each after the last, like sizes", &mut |archive| in_turn(&alike, |p, q| archive.hypot(p, q)));
    rows
}
