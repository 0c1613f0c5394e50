//! The comparison at scale: every call that the archive has, on small cases and on large forms, and
//! the calls on forms with a stride.

use crate::compare::{self, Plan};
use crate::generate::{self, Sizes};
use crate::progress::Progress;
use crate::record::CALLS;
use crate::{archive, fault, stride};
use std::io;

pub const SEED: u64 = 20_261_116;
const SMALL: u64 = 10_000_000;
const LARGE: u64 = 100_000;
const LARGE_FORMS: Sizes = Sizes { least: 33, most: 64 };
const WITH_A_FORM: [&str; 7] = [
    "schur_swap",
    "reorder_schur",
    "reorder_schur_stopping",
    "reorder_schur_list",
    "block_values",
    "standardised_values",
    "evd_from_real_schur",
];
const STRIDED: u64 = 1_000_000;
const LARGER_FORMS: Sizes = Sizes { least: 13, most: 64 };

/// The counts are of all calls together, or of each; true if nothing differed.
pub fn run(seed: u64, each: bool) -> io::Result<bool> {
    archive::linked()?;
    // Those that the archive has no call for are a part of others, or of the program.
    let absent = ["inner_prod", "column", "sheet", "column_ld"];
    let (strided, all): (Vec<&str>, Vec<&str>) = CALLS
        .iter()
        .map(|call| call.name)
        .filter(|name| !absent.contains(name))
        .partition(|name| stride::taken_by(name));
    let share = |count: u64, calls: usize| if each { count } else { (count + calls as u64 - 1) / calls as u64 };
    let plan = |calls: &[&'static str], count: u64, sizes: Sizes| Plan {
        calls: calls.to_vec(),
        count: share(count, calls.len()),
        seed,
        sizes,
        sheet: None,
    };
    let parts = [
        ("small cases, n 1 to 12", plan(&all, SMALL, generate::USUAL)),
        ("large forms, n 33 to 64", plan(&WITH_A_FORM, LARGE, LARGE_FORMS)),
        ("with a stride, n 1 to 12", plan(&strided, STRIDED, generate::USUAL)),
        ("with a stride, n 13 to 64", plan(&strided, LARGE, LARGER_FORMS)),
    ];
    let total = parts.iter().map(|(_, plan)| plan.count * plan.calls.len() as u64).sum();
    let (mut progress, mut differing) = (Progress::new(total), 0);
    for (what, plan) in &parts {
        println!("{what}, {} of each call, seed {seed}", plan.count);
        let found = compare::compare_all(plan, &mut progress)?;
        if !found.absent.is_empty() {
            return Err(fault(format!("the archive has no {}", found.absent.join(", "))));
        }
        differing += found.differing;
    }
    println!("{total} cases in {} s, differences: {differing}", progress.seconds());
    Ok(differing == 0)
}
