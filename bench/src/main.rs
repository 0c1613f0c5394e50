//! Times our archive beside the Rust and two LAPACKs in one process, and measures both sides'
//! errors. bench/run builds it and says where the libraries are.

mod accuracy;
mod archive;
#[allow(dead_code)]
#[path = "../../oracle/src/arith.rs"]
mod arith;
mod arithmetic;
mod beside;
mod exact;
mod forms;
mod lapack;
#[path = "../../oracle/src/modulus.rs"]
mod modulus;
mod note;
mod opaque;
#[allow(dead_code)]
#[path = "../../oracle/src/progress.rs"]
mod progress;
mod reflections;
mod report;
#[allow(dead_code)]
#[path = "../../oracle/src/generate/rng.rs"]
mod rng;
mod rows;
#[allow(dead_code)]
#[path = "../../oracle/src/shim/mod.rs"]
mod shim;
mod sides;
mod speed;
mod table;
#[allow(dead_code, unused_imports)]
#[path = "../../oracle/src/taken.rs"]
mod taken;
mod timing;

use archive::OURS;
use lapack::Lapack;
use rows::Plan;
use shim::perm;
use sides::Side;
use std::process::ExitCode;
use std::time::Duration;

fn main() -> ExitCode {
    match run() {
        Ok(()) => ExitCode::SUCCESS,
        Err(why) => {
            eprintln!("{why}");
            ExitCode::from(2)
        }
    }
}

fn open(name: &str) -> Result<Side, String> {
    let path = std::env::var(name).map_err(|_| format!("{name} is not set: start this by bench/run"))?;
    Ok(Side::Lapack(Lapack::open(&path)?))
}

fn run() -> Result<(), String> {
    let mut words: Vec<String> = std::env::args().skip(1).collect();
    let mut flag = |name: &str| {
        let before = words.len();
        words.retain(|word| word != name);
        words.len() < before
    };
    let (quick, markdown, least) = (flag("--quick"), flag("--markdown"), flag("--least"));
    if let Some(unknown) = words.iter().find(|word| word.starts_with('-')) {
        return Err(format!("no option {unknown}; see the head of bench/run"));
    }
    let ours = Side::Archive(&OURS, 0);
    let sides =
        || Ok::<_, String>(speed::Sides { all: [ours, Side::Rust, open("BENCH_LAPACK")?, open("BENCH_OPENBLAS")?] });
    let budget = Duration::from_millis(if quick { 60 } else { 600 });
    let command = words.first().cloned().unwrap_or_default();
    match command.as_str() {
        "accuracy" => accuracy::run(&sides()?, if quick { 4 } else { 50 }, markdown),
        "beside" => beside::run(&Plan { words: words.split_off(1), budget, markdown, least }),
        _ => speed::run(&Plan { words, budget, markdown, least }, &sides()?),
    }
    Ok(())
}
