//! Calls with a stride: a form, factor or vectors in the first n rows of larger buffers. The corner
//! of a buffer is its n rows and n columns; what stands in rows n and beyond is the lender's.

use crate::lists;
use crate::record::{Record, Value};

/// The greatest stride.
pub const MOST: usize = 128;

/// The calls that take a stride beside n, each with the call that it is on the corners.
pub const CALLS: [(&str, &str); 8] = [
    ("schur_swap_ld", "schur_swap"),
    ("reorder_schur_ld", "reorder_schur"),
    ("reorder_schur_stopping_ld", "reorder_schur_stopping"),
    ("reorder_schur_list_ld", "reorder_schur_list"),
    ("block_values_ld", "block_values"),
    ("standardised_values_ld", "standardised_values"),
    ("evd_from_real_schur_ld", "evd_from_real_schur"),
    ("column_ld", "column"),
];

/// The buffers of stride × n numbers.
pub const SQUARES: [&str; 3] = ["t", "u", "v"];

/// Whether a call takes a stride beside n.
pub fn taken_by(call: &str) -> bool {
    CALLS.iter().any(|pair| pair.0 == call)
}

/// The call on the corners; a call without a stride is itself.
pub fn base_of(call: &'static str) -> &'static str {
    CALLS.iter().find(|pair| pair.0 == call).map_or(call, |pair| pair.1)
}

/// The same call with a stride.
fn strided(base: &str) -> &'static str {
    CALLS.iter().find(|pair| pair.1 == base).expect("a call with buffers").0
}

/// The stride of a case: the one given, else n.
pub fn of(case: &Record) -> usize {
    case.n(if case.find("ld").is_some() { "ld" } else { "n" })
}

/// The case with its buffers as they are, and the stride n.
#[cfg(test)]
pub fn of_n(base: &Record) -> Record {
    let field = |(key, value): &(&'static str, Value)| {
        let stride = if *key == "n" { Some(("ld", value.clone())) } else { None };
        [(*key, value.clone())].into_iter().chain(stride)
    };
    Record { call: strided(base.call), fields: base.fields.iter().flat_map(field).collect() }
}

/// A case with each buffer spread to the stride; `beyond(corner, i, j)` tells the numbers in rows n
/// and beyond.
pub fn spread(base: &Record, ld: usize, mut beyond: impl FnMut(&[f64], usize, usize) -> f64) -> Record {
    let n = base.n("n");
    let mut case = Record::new(strided(base.call));
    for (key, value) in &base.fields {
        let value = match value {
            Value::List(corner) if SQUARES.contains(key) => {
                let mut whole = Vec::with_capacity(ld * n);
                for (j, column) in corner.chunks(n).enumerate() {
                    whole.extend_from_slice(column);
                    whole.extend((n..ld).map(|i| beyond(corner, i, j)));
                }
                Value::List(whole)
            }
            other => other.clone(),
        };
        case = case.with(key, value);
        if *key == "n" {
            case = case.num("ld", ld);
        }
    }
    case
}

/// The base call's case, on the whole buffers.
fn without_stride(case: &Record) -> Record {
    let fields = case.fields.iter().filter(|field| field.0 != "ld").cloned().collect();
    Record { call: base_of(case.call), fields }
}

/// The base call's case, on the corners.
pub fn corner(case: &Record) -> Record {
    let (n, ld) = (case.n("n"), case.n("ld"));
    let mut base = without_stride(case);
    for (_, value) in base.fields.iter_mut().filter(|field| SQUARES.contains(&field.0)) {
        if let Value::List(list) = value {
            *list = corner_of(list, n, ld);
        }
    }
    base
}

fn corner_of(list: &[f64], n: usize, ld: usize) -> Vec<f64> {
    list.chunks(ld).flat_map(|column| &column[..n]).copied().collect()
}

/// The corner of a case's form, which without a stride is all of it.
pub fn form(case: &Record) -> Vec<f64> {
    corner_of(case.l("t"), case.n("n"), of(case))
}

/// The base call's answer with its corners put into the buffers as they were lent.
pub fn put_back(case: &Record, mut answer: Record) -> Record {
    let (n, ld) = (case.n("n"), case.n("ld"));
    for (key, value) in answer.fields.iter_mut().filter(|field| SQUARES.contains(&field.0)) {
        if let Value::List(list) = value {
            let mut whole = case.l(key).to_vec();
            for (column, corner) in whole.chunks_mut(ld).zip(list.chunks(n)) {
                column[..n].copy_from_slice(corner);
            }
            *list = whole;
        }
    }
    Record { call: case.call, ..answer }
}

/// The base call's answer to the case with no rows, a refusal that leaves the whole buffers, under
/// another number.
pub fn refused(case: &Record, number: usize, base_answer: impl Fn(&Record) -> Record) -> Record {
    let answer = base_answer(&without_stride(case).num_set("n", 0)).num_set("answer", number);
    Record { call: case.call, ..answer }
}

/// An answer of the archive to a case with a stride, marked if a bit changed that no call may
/// change: in rows n and beyond, anywhere if it was turned away. NaNs must keep theirs.
pub fn checked(case: &Record, answer: Record) -> Record {
    let rows = if number(case, &answer) == Some(0) { case.n("n") } else { 0 };
    let beyond = |list: &[f64]| -> Vec<u64> {
        let columns = list.chunks(case.n("ld").clamp(1, MOST));
        columns.flat_map(|column| column.iter().skip(rows).map(|x| x.to_bits())).collect()
    };
    let changed = |key: &&str| match (case.lent(key), answer.lent(key)) {
        (Some(before), Some(after)) => beyond(before) != beyond(after),
        _ => false,
    };
    if SQUARES.iter().any(changed) { answer.list("beyond", Vec::new()) } else { answer }
}

/// The number of a call, which for a column is not told, but shows; of a list of moves 0 where a pair
/// was worked, else the least of its pairs' numbers.
fn number(case: &Record, answer: &Record) -> Option<usize> {
    if let Some(part) = answer.lent("part") {
        return Some(usize::from(part.is_empty()));
    }
    match answer.n("answer") {
        0 if base_of(case.call) == lists::CALL => lists::fours(case, answer).map(|four| four[0]).min(),
        number => Some(number),
    }
}

/// What is counted of a case with a stride: which stride, and what stands beyond the corners of an
/// accepted one.
pub fn classes(case: &Record, answer: &Record) -> Vec<&'static str> {
    let (n, ld) = (case.n("n"), case.n("ld"));
    match number(case, answer) {
        Some(0) => {}
        Some(17) => return vec![if ld < n { "stride below n" } else { "stride above 128" }],
        _ => return Vec::new(),
    }
    let mut classes = vec![match ld {
        _ if ld == n => "stride n",
        _ if ld == n + 1 => "stride n + 1",
        MOST => "stride 128",
        _ => "stride between",
    }];
    let (mut nan, mut infinite, mut below, mut set) = (false, false, false, false);
    for list in SQUARES.iter().filter_map(|key| case.lent(key)) {
        for column in list.chunks(ld) {
            below |= column.get(n).map_or(false, |x| *x != 0.0);
            for x in &column[n..] {
                nan |= x.is_nan();
                infinite |= x.is_infinite();
                set |= *x != 0.0;
            }
        }
    }
    let found = [
        (nan, "beyond NaN"),
        (infinite, "beyond infinite"),
        (below, "row n set"),
        (ld > n && !set, "beyond only zeros"),
    ];
    classes.extend(found.iter().filter(|class| class.0).map(|class| class.1));
    classes
}
