//! Cases of stored vectors that are chosen one by one, not drawn.

use crate::generate::floats::next_up;
use crate::picked_forms;
use crate::picked_moduli;
use crate::picked_tails;
use crate::record::Record;

pub const ODD: [f64; 3] = [f64::NAN, f64::INFINITY, f64::NEG_INFINITY];
const ENTRIES: [f64; 9] = [0.0, -0.0, 5e-324, -5e-324, 1.0, -1.0, f64::MAX, f64::INFINITY, f64::NAN];

/// The cases of a call; of most, none.
pub fn picked(call: &'static str) -> Vec<Record> {
    match call {
        "lahqr_schur22" => blocks().into_iter().map(|b| standardise(call, b)).collect(),
        "lasy2" => systems().into_iter().map(|s| solve(call, s)).collect(),
        _ => picked_forms::picked(call),
    }
}

/// Cases that were chosen after the file was first drawn.
pub fn later(call: &'static str) -> Vec<Record> {
    [picked_forms::later(call), picked_moduli::later(call), picked_tails::later(call)].concat()
}

fn standardise(call: &'static str, [a, b, c, d]: [f64; 4]) -> Record {
    Record::new(call).float("a", a).float("b", b).float("c", c).float("d", d)
}

fn solve(call: &'static str, [tl, tr, b]: [[f64; 4]; 3]) -> Record {
    Record::new(call).list("tl", tl.to_vec()).list("tr", tr.to_vec()).list("b", b.to_vec())
}

/// Every branch, NaN and infinity in every place, all entries against each other beside the
/// diagonal, and the branches at scales that are rescaled once, twice and to the last round.
pub fn blocks() -> Vec<[f64; 4]> {
    let mut blocks = vec![[5.0, 0.0, 2.0, 7.0], [0.0, 1.0, -1.0, 0.0], [1.0, 2.0, 0.0, 3.0], [1.0, 2.0, -0.0, 3.0]];
    blocks.push([1.0, -0.0, 2.0, 3.0]);
    let bases = [[1.0, 2.0, 3.0, 4.0], [1.0, 2.0, -3.0, 1.5], [2.0, 1.0, -1.0, 2.0], [1.0, 1.0, -0.25, 2.0]];
    for base in bases {
        for (i, x) in (0..4).flat_map(|i| ODD.map(|x| (i, x))) {
            let mut block = base;
            block[i] = x;
            blocks.push(block);
        }
        for k in [-1070, -1022, -1000, -970, -485, -484, 0, 484, 485, 970, 1000, 1020] {
            blocks.push(base.map(|x| scaled(x, k)));
        }
    }
    blocks.extend(ENTRIES.iter().flat_map(|b| ENTRIES.map(|c| [1.0, *b, c, 2.0])));
    blocks
}

/// Whole numbers with ties of the pivot, singular and nearly singular systems, zero blocks, NaN and
/// infinity in every place, and scales from tiny to huge.
fn systems() -> Vec<[[f64; 4]; 3]> {
    let base = [[1.0, 2.0, 3.0, 5.0], [-1.0, 4.0, 2.0, -3.0], [1.0, -2.0, 3.0, 7.0]];
    let mut systems = vec![base];
    for i in 0..8 {
        systems.push([0, 1, 2].map(|k| if i >> k & 1 == 0 { base[k] } else { [0.0; 4] }));
    }
    for i in 0..16 {
        let tl = [0, 1, 2, 3].map(|k| if i >> k & 1 == 0 { 1.0 } else { -1.0 });
        systems.push([tl, tl, base[2]]);
        systems.push([tl, tl.map(|x| -x), base[2]]);
        systems.push([tl, [1.0; 4], [1.0; 4]]);
    }
    for i in 0..4 {
        let mut near = base[0];
        near[i] = next_up(near[i]);
        systems.push([base[0], near, base[2]]);
        systems.push([near, base[0], base[2]]);
    }
    for (i, x) in (0..12).flat_map(|i| ODD.map(|x| (i, x))) {
        for tr in [base[1], [0.0; 4]] {
            let mut system = [base[0], tr, base[2]];
            system[i / 4][i % 4] = x;
            systems.push(system);
        }
    }
    for (k, m) in
        [-1070, -1000, -500, 500, 1000, 1020].iter().flat_map(|k| [-1070, -500, 0, 500, 1020].map(|m| (*k, m)))
    {
        systems.push([base[0].map(|x| scaled(x, k)), base[1].map(|x| scaled(x, k)), base[2].map(|x| scaled(x, m))]);
    }
    systems
}

/// x times 2^k, in two steps.
fn scaled(x: f64, k: i32) -> f64 {
    x * 2f64.powi(k / 2) * 2f64.powi(k - k / 2)
}
