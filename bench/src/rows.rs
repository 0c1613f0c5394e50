//! The rows that are timed: the moves, forms and strides, and how one of them is timed on any sides.

use crate::forms::{Form, Kind};
use crate::opaque::black_box;
use crate::progress::on_terminal;
use crate::sides::{List, Side, Values};
use crate::timing::Times;
use std::time::{Duration, Instant};

pub const SIZES: [usize; 5] = [4, 8, 16, 32, 64];
pub const SEED: u64 = 2026;
/// The stride of the rows on the corner of a larger sheet, the greatest; in the others it is n.
const STRIDE: usize = 128;
/// Copies lent in one timed batch take no more than this, so that they stay in the second cache.
const BATCH_BYTES: usize = 128 << 10;
const MOST_COPIES: usize = 256;
const BATCH_TIME: Duration = Duration::from_micros(60);

pub struct Plan {
    /// A number keeps the rows of that size, any other word those whose name contains it.
    pub words: Vec<String>,
    pub budget: Duration,
    pub markdown: bool,
    /// Compare each side's least times in place of the middle ratio: for a busy machine.
    pub least: bool,
}

impl Plan {
    pub fn wants(&self, name: &str, n: Option<usize>) -> bool {
        self.words.iter().all(|word| match word.parse::<usize>() {
            Ok(size) => n == Some(size),
            Err(_) => name.contains(word.as_str()),
        })
    }
}

/// Shown on a terminal only, on one line that is wiped at the end.
pub fn progress(text: &str) {
    if on_terminal() {
        eprint!("\r\x1b[K{text}");
    }
}

type Moves = fn(&Form) -> Vec<(usize, usize)>;
/// A row's name, its moves, its stride where that is not n, and on which kinds and sizes of forms.
type KindOfMove = (&'static str, Moves, Option<usize>, &'static [Kind], &'static [usize]);
const KINDS_OF_MOVE: [KindOfMove; 5] = [
    ("one adjacent move", Form::adjacent, None, &Kind::ALL, &SIZES),
    ("move last to first", Form::last_to_first, None, &Kind::ALL, &SIZES),
    ("reversal by moves", Form::reversal, None, &Kind::ALL, &SIZES),
    ("one adjacent move, stride 128", Form::adjacent, Some(STRIDE), &Kind::ALL, &SIZES),
    ("move last to first, stride 128", Form::last_to_first, Some(STRIDE), &Kind::ALL, &SIZES),
];
/// The same moves by the move that stops.
const KINDS_OF_STOPPING: [KindOfMove; 2] = [
    ("stopping, last to first", Form::last_to_first, None, &Kind::ALL, &SIZES),
    ("stopping, reversal", Form::reversal, None, &Kind::ALL, &SIZES),
];
/// Moves by the call that takes a list.
const KINDS_OF_LIST: [KindOfMove; 3] = [
    ("list, 64 adjacent", Form::adjacent_list, None, &[Kind::Rows], &[16, 32, 64]),
    ("list, reversal", Form::reversal, None, &Kind::ALL, &[8, 16, 32, 64]),
    ("list, 64 adjacent, stride 128", Form::adjacent_list, Some(STRIDE), &[Kind::Rows], &[64]),
];

/// A list of moves on a form.
pub struct MoveRow {
    pub what: &'static str,
    pub name: String,
    pub kind: Kind,
    pub form: Form,
    pub with_factor: bool,
    pub moves: Vec<(usize, usize)>,
}

impl MoveRow {
    /// The rows that are wanted.
    pub fn all(plan: &Plan) -> impl Iterator<Item = MoveRow> + '_ {
        MoveRow::wanted(plan, &KINDS_OF_MOVE)
    }

    /// The rows of the move that stops that are wanted.
    pub fn stopping(plan: &Plan) -> impl Iterator<Item = MoveRow> + '_ {
        MoveRow::wanted(plan, &KINDS_OF_STOPPING)
    }

    /// The rows of a list in one call that are wanted.
    pub fn lists(plan: &Plan) -> impl Iterator<Item = MoveRow> + '_ {
        MoveRow::wanted(plan, &KINDS_OF_LIST)
    }

    fn wanted<'a>(plan: &'a Plan, rows: &'static [KindOfMove]) -> impl Iterator<Item = MoveRow> + 'a {
        rows.iter().flat_map(move |&(what, moves, stride, kinds, sizes)| {
            let factors = kinds.iter().flat_map(|kind| [false, true].map(|with_factor| (*kind, with_factor)));
            let all = factors.flat_map(move |row| sizes.iter().map(move |n| (row, *n)));
            all.filter_map(move |((kind, with_factor), n)| {
                let name = format!("{what} {} {}", kind.name(), if with_factor { "with factor" } else { "no factor" });
                plan.wants(&name, Some(n)).then(|| {
                    progress(&format!("{name}, n = {n}"));
                    let form = Form::new(kind, n, SEED).spread(stride.unwrap_or(n));
                    MoveRow { what, name, kind, with_factor, moves: moves(&form), form }
                })
            })
        })
    }

    /// A side does all the moves.
    pub fn done_by(&self, side: &Side) -> bool {
        let Form { n, ld, t, .. } = &self.form;
        let (mut t, mut u) = (t.clone(), self.form.factor(self.with_factor));
        self.moves.iter().all(|(from, to)| side.reorder(*n, *ld, &mut t, &mut u, *from, *to) == 0)
    }

    pub fn factor(&self) -> &'static str {
        if self.with_factor { "yes" } else { "no" }
    }

    /// What is called on what: rows may differ in their names alone.
    pub fn call(&self) -> String {
        let Form { n, ld, .. } = &self.form;
        format!("{} {} n = {n} {ld} {:?}", self.kind.name(), self.factor(), self.moves)
    }

    pub fn times(&self, plan: &Plan, sides: &[Side]) -> Times {
        let MoveRow { form, moves, .. } = self;
        let (n, ld, places) = (form.n, form.ld, form.t.len());
        let (factor, mut list) = (form.factor(self.with_factor), List::of(moves));
        let fitting = BATCH_BYTES / (8 * (places + factor.len()));
        let copies = fitting.min(runs_that_fit(sides[0], form, &factor, moves)).clamp(1, MOST_COPIES);
        let (mut t, mut u) = (Lines::new(copies * places), Lines::new(copies * factor.len()));
        let (t, u) = (t.numbers(), u.numbers());
        Times::take(sides.len(), copies, plan.budget, |k, place| {
            let side = sides[k].at(place);
            for copy in 0..copies {
                t[copy * places..][..places].copy_from_slice(&form.t);
                u[copy * factor.len()..][..factor.len()].copy_from_slice(&factor);
            }
            let start = Instant::now();
            for copy in 0..copies {
                let t = &mut t[copy * places..][..places];
                let u = &mut u[copy * factor.len()..][..factor.len()];
                side.reorder_all(n, ld, t, u, moves, &mut list);
            }
            let taken = start.elapsed();
            black_box((&mut *t, &mut *u, &mut list));
            taken
        })
    }
}

/// Numbers from the beginning of a cache line on, so that every row finds them alike.
pub struct Lines {
    all: Vec<f64>,
    len: usize,
}

impl Lines {
    pub fn new(len: usize) -> Lines {
        Lines { all: vec![0.0; len + 8], len }
    }

    pub fn numbers(&mut self) -> &mut [f64] {
        let skipped = (64 - self.all.as_ptr() as usize % 64) / 8 % 8;
        &mut self.all[skipped..skipped + self.len]
    }
}

/// How many runs of ours fit in a batch that is over before another process gets the core: a power of
/// two, by the least of some runs, so that rows of the same call have as many.
fn runs_that_fit(side: Side, form: &Form, factor: &[f64], moves: &[(usize, usize)]) -> usize {
    let time = |_| {
        let (mut t, mut u, mut list) = (form.t.clone(), factor.to_vec(), List::of(moves));
        let start = Instant::now();
        side.reorder_all(form.n, form.ld, &mut t, &mut u, moves, &mut list);
        start.elapsed().as_nanos().max(1)
    };
    let runs = (BATCH_TIME.as_nanos() / (0..20).map(time).min().unwrap()) as usize;
    (runs + 1).next_power_of_two() / 2
}

/// A call on a form alone: its vectors or its values, as they stand or standardised.
pub struct FormRow {
    pub what: String,
    pub name: String,
    pub kind: Kind,
    pub form: Form,
}

impl FormRow {
    /// The rows of a call that are wanted. All kinds and sizes with the stride n, then all with the
    /// greatest.
    pub fn all<'a>(plan: &'a Plan, call: &'a str) -> impl Iterator<Item = FormRow> + 'a {
        let strides = [(call.to_string(), None), (format!("{call}, stride {STRIDE}"), Some(STRIDE))];
        let kinds = strides.into_iter().flat_map(|row| Kind::ALL.map(|kind| (row.clone(), kind)));
        let all = kinds.flat_map(|(row, kind)| SIZES.map(|n| (row.clone(), kind, n)));
        all.filter_map(move |((what, stride), kind, n)| {
            FormRow::wanted(plan, what, kind, n, |form| form.spread(stride.unwrap_or(n)))
        })
    }

    /// The rows of standardised values that are wanted, all with the stride n: on the same forms, whose
    /// 2-blocks are standardised already, then on those with 2-blocks made raw.
    pub fn standardised(plan: &Plan) -> impl Iterator<Item = FormRow> + '_ {
        let call = "standardised values";
        let kept = Kind::ALL.map(|kind| (call.to_string(), kind, false));
        let raw = [Kind::Pairs, Kind::Mixed].map(|kind| (format!("{call}, raw"), kind, true));
        let all = kept.into_iter().chain(raw).flat_map(|row| SIZES.map(|n| (row.clone(), n)));
        all.filter_map(move |((what, kind, raw), n)| {
            FormRow::wanted(plan, what, kind, n, |form| if raw { form.raw() } else { form })
        })
    }

    /// A row if it is wanted, on what is made of the bench's form.
    fn wanted(plan: &Plan, what: String, kind: Kind, n: usize, made: impl FnOnce(Form) -> Form) -> Option<FormRow> {
        let name = format!("{what} {}", kind.name());
        plan.wants(&name, Some(n)).then(|| {
            progress(&format!("{name}, n = {n}"));
            FormRow { what, name, kind, form: made(Form::new(kind, n, SEED)) }
        })
    }

    /// The vectors, one list for each side.
    pub fn vectors_times(&self, plan: &Plan, sides: &[Side], v: &mut [Vec<f64>]) -> Times {
        let Form { n, ld, t, .. } = &self.form;
        // A batch lasts some microseconds.
        let runs = (2048 / (n * n)).clamp(1, 64);
        Times::take(sides.len(), runs, plan.budget, |k, place| {
            let (side, v) = (sides[k].at(place), &mut v[k]);
            let start = Instant::now();
            for _ in 0..runs {
                black_box(side.vectors(*n, *ld, black_box(t), v));
            }
            start.elapsed()
        })
    }

    pub fn values_times(&self, plan: &Plan, sides: &[Side], out: &mut Values) -> Times {
        let Form { n, ld, t, .. } = &self.form;
        let runs = 64;
        Times::take(sides.len(), runs, plan.budget, |k, place| {
            let side = sides[k].at(place);
            let start = Instant::now();
            for _ in 0..runs {
                black_box(side.values(*n, *ld, black_box(t), out));
            }
            start.elapsed()
        })
    }

    pub fn standardised_times(&self, plan: &Plan, sides: &[Side], out: &mut Values) -> Times {
        let Form { n, ld, t, .. } = &self.form;
        // A batch lasts up to 60 microseconds or so.
        let runs = (1024 / n).min(64);
        Times::take(sides.len(), runs, plan.budget, |k, place| {
            let side = sides[k].at(place);
            let start = Instant::now();
            for _ in 0..runs {
                black_box(side.standardised(*n, *ld, black_box(t), out));
            }
            start.elapsed()
        })
    }
}
