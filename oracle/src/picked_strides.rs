//! Cases of stored vectors with a stride: forms of picked_forms.rs in larger buffers, all that may
//! stand beyond the corners, and every refusal.

use crate::note::Notes;
use crate::picked_blocks;
use crate::picked_forms::*;
use crate::picked_lists::{self, a_list};
use crate::picked_stops::{self, a_stopping_move};
use crate::record::{Record, Value};
use crate::stride::{self, MOST, SQUARES};

/// What stands beyond the corners, by turns: numbers such as a form has, and all that is no such.
const BEYOND: [u64; 12] = [
    0x7ff8_0000_0000_0000, // NaN
    0x3ff8_0000_0000_0000, // 1.5
    0x7ff0_0000_0000_0000, // infinity
    0x8000_0000_0000_0000, // -0
    0xfff0_0000_dead_beef, // a NaN that no operation leaves as it is
    0xfff0_0000_0000_0000, // -infinity
    0x0000_0000_0000_0001, // least subnormal
    0xc004_0000_0000_0000, // -2.5
    0x0000_0000_0000_0000, // +0
    0x7fef_ffff_ffff_ffff, // greatest finite
    0x8010_0000_0000_0000, // -2^-1022
    0x401c_0000_0000_0000, // 7
];
/// The stride of most cases that are turned away, all of four rows.
const LD: usize = 5;

/// The cases of a call; of one without a stride, none.
pub fn picked(call: &'static str) -> Vec<Record> {
    match call {
        "reorder_schur_ld" => moves(),
        "reorder_schur_stopping_ld" => stopping_moves(),
        "reorder_schur_list_ld" => lists(),
        "schur_swap_ld" => exchanges(),
        "block_values_ld" => on_forms("block_values"),
        "standardised_values_ld" => standardised_values(),
        "evd_from_real_schur_ld" => on_forms("evd_from_real_schur"),
        "column_ld" => columns(),
        _ => Vec::new(),
    }
}

fn spread(base: &Record, ld: usize) -> Record {
    stride::spread(base, ld, |_, i, j| f64::from_bits(BEYOND[(i + 5 * j) % BEYOND.len()]))
}

/// The case in strides from the least on, and in the greatest.
fn in_strides(base: &Record) -> Vec<Record> {
    let n = base.n("n");
    [n, n + 1, n + 2, 2 * n + 2, MOST].iter().map(|ld| spread(base, *ld)).collect()
}

/// One number everywhere beyond the corners; then zeros, but for row n, or for its last number alone,
/// which would make the last row the first of a 2-block.
fn fills(base: &Record, ld: usize) -> Vec<Record> {
    let n = base.n("n");
    let mut cases: Vec<Record> =
        BEYOND.iter().map(|x| stride::spread(base, ld, |_, _, _| f64::from_bits(*x))).collect();
    for x in [1.0, f64::NAN] {
        cases.push(stride::spread(base, ld, |_, i, _| if i == n { x } else { 0.0 }));
        cases.push(stride::spread(base, ld, |_, i, j| if (i, j) == (n, n - 1) { x } else { 0.0 }));
    }
    cases
}

/// Other strides: over the buffers as they are, two of them such that the product with n wraps around
/// to the right length; and with buffers of the stride's own length.
fn other_strides(base: &Record) -> Vec<Record> {
    let (n, case) = (base.n("n"), spread(base, LD));
    let wrapping = [1 << 62 | LD, 1 << 63 | LD];
    let as_they_are = [0, n - 1, n, LD + 1, MOST, MOST + 1, 1 << 32, usize::MAX].into_iter().chain(wrapping);
    let mut cases: Vec<Record> = as_they_are.map(|other| case.clone().num_set("ld", other)).collect();
    for other in [0, 1, n - 1] {
        let cut = SQUARES.iter().fold(case.clone(), |case, key| list_set(case, key, |list| list.truncate(other * n)));
        cases.push(cut.num_set("ld", other));
    }
    cases.push(spread(base, MOST + 1));
    cases
}

/// Line 17 with each of the lines tested after it, and no third: a stride below n, buffers of its
/// length, a form of zeros but for a 2-block. Then no rows, in strides of which some are refused too.
fn with_another(base: &Record, later: &[usize]) -> Vec<Record> {
    let n = base.n("n");
    let low = SQUARES.iter().fold(spread(base, LD).num_set("ld", n - 1), |case, key| {
        list_set(case, key, |list| {
            *list = vec![0.0; (n - 1) * n];
            list[1] = -0.5;
        })
    });
    let none = ["t", "u", "v", "re", "im"].iter().fold(spread(base, LD), |case, key| list_set(case, key, Vec::clear));
    let strides = [0, 1, MOST, MOST + 1, usize::MAX].map(|ld| none.clone().num_set("n", 0).num_set("ld", ld));
    later.iter().map(|line| spoilt(low.clone(), *line)).chain(strides).collect()
}

/// A buffer with lengths around the right one, n × n and the stride among them.
fn other_lengths(case: &Record, key: &str) -> Vec<Record> {
    let (n, ld) = (case.n("n"), case.n("ld"));
    let fixed = [0, n * n, ld].map(|len| list_set(case.clone(), key, |list| list.resize(len, 7.0)));
    lengths(case, key).into_iter().chain(fixed).collect()
}

/// What every call refuses, from a case of four rows: each line and each pair of lines, in the order
/// in which they are tested, other numbers of rows, strides and lengths.
fn refused(base: &Record, lines: &[usize]) -> Vec<Record> {
    let case = spread(base, LD);
    let mut cases = refusals(&case, lines);
    let later = lines.iter().skip_while(|line| **line != 17).skip(1).copied().collect::<Vec<_>>();
    cases.extend(with_another(base, &later));
    cases.extend(sizes(&case));
    cases.extend(other_strides(base));
    for (key, value) in &case.fields {
        if let Value::List(_) = value {
            cases.extend(other_lengths(&case, key));
        }
    }
    if case.lent("t").is_some() {
        cases.extend(entries(&case));
    }
    cases
}

// ---- moves

fn moves() -> Vec<Record> {
    let call = "reorder_schur";
    let mut cases = in_strides(&a_move(form(&[1]), vec![3.0], 0, 0));
    cases.extend(in_strides(&a_move(form(&[1, 1]), unit(2), 1, 0)));
    for (n1, n2) in PAIRS {
        let n = n1 + n2;
        for (from, to) in [(0, n - 1), (n - 1, 0)] {
            cases.push(spread(&a_move(form(&[n1, n2]), Vec::new(), from, to), n + 1));
            cases.push(spread(&a_move(form(&[n1, n2]), content(n, n * n), from, to), n + 3));
        }
    }
    for (n, from, to) in [(5, 0, 4), (5, 4, 1), (8, 0, 7), (8, 7, 2)] {
        cases.push(spread(&a_move(form(&turns(n)), unit(n), from, to), n + 1));
        cases.push(spread(&a_move(form(&twos(n)), Vec::new(), from, to), 11));
    }
    for n in [4, 5, 6] {
        let (split, declined) = (|_: &Record, s: &Notes| s.splits > 0, |_: &Record, s: &Notes| s.declined > 0);
        cases.extend(drawn(call, n, 2, split).iter().chain(&drawn(call, n, 2, declined)).map(|c| spread(c, n + 2)));
    }
    for sizes in [&[2, 1][..], &[1, 2]] {
        cases.extend(fills(&a_move(form(sizes), content(3, 9), 0, 2), 5));
    }
    let base = a_move(form(&[2, 1, 1]), content(4, 16), 3, 0);
    cases.extend(refused(&base, &[2, 17, 3, 4, 5, 6, 7]));
    for position in [3, 4, LD, usize::MAX] {
        cases.push(spread(&base, LD).num_set("from", position));
        cases.push(spread(&base, LD).num_set("to", position));
    }
    cases.push(spread(&a_move(form(&turns(33)), Vec::new(), 32, 0), 34));
    cases.push(spread(&a_move(form(&turns(64)), unit(64), 63, 0), MOST));
    cases
}

/// Windows and moves that stop, and what a move has otherwise.
fn stopping_moves() -> Vec<Record> {
    let mut cases = in_strides(&a_stopping_move(form(&[1]), vec![3.0], 0, 0));
    cases.extend(in_strides(&picked_stops::at_windows()[0]));
    cases.extend(picked_stops::at_windows().iter().map(|case| spread(case, 5)));
    cases.extend(picked_stops::at_the_bound().iter().take(6).map(|case| spread(case, 6)));
    cases.extend(picked_stops::stops().iter().filter(|case| case.n("n") < 7).map(|case| spread(case, case.n("n") + 1)));
    for sizes in [&[2, 1][..], &[1, 2]] {
        cases.extend(fills(&a_stopping_move(form(sizes), content(3, 9), 0, 2), 5));
    }
    cases.extend(fills(&picked_stops::at_windows()[0], 4));
    let base = picked_stops::base();
    cases.extend(refused(&base, &[2, 17, 3, 4, 5, 6, 7]));
    for position in [3, 4, LD, usize::MAX] {
        cases.push(spread(&base, LD).num_set("from", position));
        cases.push(spread(&base, LD).num_set("to", position));
    }
    cases.push(spread(&a_stopping_move(form(&turns(33)), Vec::new(), 32, 0), 34));
    cases.push(spread(&a_stopping_move(form(&turns(64)), unit(64), 63, 0), MOST));
    cases
}

/// Small lists, one of 64 pairs, and all pairs turned away for the form's sake and the buffers'.
fn lists() -> Vec<Record> {
    let mut cases = in_strides(&a_list(form(&[1]), vec![3.0], &[(0, 0)]));
    cases.extend(in_strides(&a_list(form(&[1, 1]), unit(2), &[(1, 0), (0, 2), (0, 1)])));
    cases.push(spread(&a_list(form(&[2]), unit(2), &[]), 3));
    for (n1, n2) in PAIRS {
        let n = n1 + n2;
        let there_and_back = [(0, n - 1), (n - 1, 0)];
        cases.push(spread(&a_list(form(&[n1, n2]), content(n, n * n), &there_and_back), n + 3));
    }
    cases.extend(picked_lists::met().iter().filter(|case| case.n("n") < 7).map(|case| spread(case, case.n("n") + 1)));
    cases.extend(fills(&a_list(form(&[2, 1]), content(3, 9), &[(0, 2), (3, 0), (1, 0)]), 5));
    cases.extend(refused(&picked_lists::base(), &[12, 2, 17, 3, 4, 5, 6, 7]));
    cases.extend(picked_lists::of_other_lengths().iter().skip(9).map(|case| spread(case, 4)));
    cases.push(spread(&picked_lists::longest(64), 66));
    cases
}

// ---- exchanges

fn exchanges() -> Vec<Record> {
    let call = "schur_swap";
    let mut cases = in_strides(&an_exchange(form(&[1, 1]), unit(2), 0, 1, 1));
    for (n1, n2) in PAIRS {
        let n = n1 + n2 + 1;
        for (sizes, j0) in [([n1, n2, 1], 0), ([1, n1, n2], 1)] {
            cases.push(spread(&an_exchange(form(&sizes), Vec::new(), j0, n1, n2), n + 1));
            cases.push(spread(&an_exchange(form(&sizes), content(n, n * n), j0, n1, n2), n + 3));
        }
    }
    cases.extend(counted().iter().map(|(case, _)| spread(case, 5)));
    cases.extend(near().iter().map(|case| spread(case, 7)));
    for n in [5, 6] {
        cases.extend(drawn(call, n, 2, |_, notes| notes.splits > 0).iter().map(|case| spread(case, n + 2)));
    }
    for sizes in [[2, 1], [1, 2]] {
        cases.extend(fills(&an_exchange(form(&sizes), content(3, 9), 0, sizes[0], sizes[1]), 5));
    }
    let base = an_exchange(form(&[2, 1, 1]), content(4, 16), 0, 2, 1);
    cases.extend(refused(&base, &[2, 17, 3, 4, 5, 6, 7, 8, 9, 10]));
    let case = spread(&base, LD);
    cases.extend([2, 3, 4, LD, usize::MAX].map(|j0| at(case.clone(), j0, 1, 1)));
    cases.extend(
        [(0, 0, 1), (0, 2, 3), (2, 1, 2), (3, 2, 1), (1, 1, 1)].map(|(j0, n1, n2)| at(case.clone(), j0, n1, n2)),
    );
    cases.push(spread(&an_exchange(form(&twos(64)), Vec::new(), 60, 2, 2), MOST));
    cases
}

// ---- values and vectors

fn on_forms(call: &'static str) -> Vec<Record> {
    let mut cases = in_strides(&of_form(call, form(&[1])));
    cases.extend(in_strides(&of_form(call, form(&[2]))));
    for n in 2..=8 {
        let forms = [form(&vec![1; n]), form(&turns(n)), form(&twos(n))];
        cases.extend(forms.into_iter().enumerate().map(|(k, t)| spread(&of_form(call, t), n + k)));
    }
    for sizes in [&[2, 1][..], &[1, 2]] {
        cases.extend(fills(&of_form(call, form(sizes)), 5));
    }
    cases.extend(refused(&of_form(call, form(&[2, 1, 1])), &[2, 17, 3, 4, 5, 6]));
    cases.push(spread(&of_form(call, form(&twos(64))), MOST));
    cases
}

/// The same, and forms with the chosen 2-blocks.
fn standardised_values() -> Vec<Record> {
    let call = "standardised_values";
    let mut cases = on_forms(call);
    cases.extend(picked_blocks::in_twos(&picked_blocks::each()).into_iter().map(|t| spread(&of_form(call, t), 7)));
    cases.push(spread(&of_form(call, picked_blocks::large()), TOO_MANY));
    cases
}

// ---- columns

fn columns() -> Vec<Record> {
    let mut cases = Vec::new();
    for (n, col) in [(1, 0), (2, 1), (3, 1)] {
        cases.extend(in_strides(&a_column(n, col)));
    }
    cases.extend((1..=4).flat_map(|n| (0..n + 3).map(move |col| spread(&a_column(n, col), n + 2))));
    cases.extend(fills(&a_column(3, 2), 5));
    cases.extend(refused(&a_column(4, 2), &[2, 17, 4, 7]));
    cases.extend([(64, 63, 65), (TOO_MANY, 0, MOST)].map(|(n, col, ld)| spread(&a_column(n, col), ld)));
    cases
}

#[cfg(test)]
mod tests {
    use super::*;
    use std::collections::BTreeSet;

    /// Every line is told by some case, and no buffer is longer than 65 columns of the greatest stride.
    #[test]
    fn every_line_is_picked() {
        let form = [0, 2, 3, 4, 5, 6, 17];
        let calls = [
            ("reorder_schur_ld", &[7][..]),
            ("reorder_schur_stopping_ld", &[7]),
            ("reorder_schur_list_ld", &[7, 12]),
            ("schur_swap_ld", &[7, 8, 9, 10]),
            ("block_values_ld", &[]),
            ("standardised_values_ld", &[]),
            ("evd_from_real_schur_ld", &[]),
        ];
        for (call, further) in calls {
            let told: BTreeSet<usize> = picked(call).iter().filter_map(number).collect();
            assert_eq!(told, form.iter().chain(further).copied().collect(), "{call}");
            let lists = |case: &Record| SQUARES.iter().filter_map(|key| case.lent(key)).map(<[f64]>::len).max();
            assert!(picked(call).iter().filter_map(lists).max() <= Some(TOO_MANY * MOST), "{call}");
        }
    }
}
