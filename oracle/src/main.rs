//! The Rust side of the comparison. See README.md.

mod archive;
mod arith;
mod bindings;
mod calls;
mod chains;
mod compare;
mod generate;
mod lists;
mod modulus;
mod note;
mod picked;
mod picked_blocks;
mod picked_forms;
mod picked_lists;
mod picked_moduli;
mod picked_stops;
mod picked_strides;
mod picked_tails;
mod progress;
mod record;
mod refuse;
mod scale;
mod sheet;
mod shim;
mod stopping;
mod stride;
mod taken;
mod tally;
mod vectors;
#[cfg(test)]
mod worked;

use compare::Plan;
use generate::Sizes;
use record::Record;
use shim::perm;
use std::io::{self, BufRead, BufWriter, Read, Write};
use std::process::ExitCode;
use tally::Tally;

const USAGE: &str = "\
oracle answer < cases
oracle sheet < text
oracle generate CALL|all COUNT SEED [--n-min N] [--n-max N]
oracle compare CALL|all COUNT SEED [--n-min N] [--n-max N] [--sheet PROGRAM]
oracle scale [SEED] [--each]
oracle chains COUNT SEED [--n-min N] [--n-max N] [--sheet PROGRAM]
oracle replay < cases
oracle vectors CALL...|all [--classes] [--random N]";

fn main() -> ExitCode {
    let args: Vec<String> = std::env::args().skip(1).collect();
    let words: Vec<&str> = args.iter().map(String::as_str).collect();
    let done = match words[..] {
        ["answer"] => answer().map(|()| true),
        ["replay"] => compare::replay(cases()),
        ["sheet"] => sheet().map(|()| true),
        ["generate", call, count, seed, ref options @ ..] => {
            plan(call, count, seed, options).and_then(|p| write_cases(&p))
        }
        ["compare", call, count, seed, ref options @ ..] => {
            plan(call, count, seed, options).and_then(|p| compare::run(&p))
        }
        ["chains", count, seed, ref options @ ..] => plan("all", count, seed, options).and_then(|p| chains::run(&p)),
        ["scale"] => scale::run(scale::SEED, false),
        ["scale", "--each"] => scale::run(scale::SEED, true),
        ["scale", seed] => number(seed).and_then(|seed| scale::run(seed, false)),
        ["scale", seed, "--each"] => number(seed).and_then(|seed| scale::run(seed, true)),
        ["vectors", ref words @ ..] => write_vectors(words).map(|()| true),
        _ => Err(fault(USAGE)),
    };
    match done {
        Ok(true) => ExitCode::SUCCESS,
        Ok(false) => ExitCode::from(1),
        Err(why) => {
            eprintln!("{why}");
            ExitCode::from(2)
        }
    }
}

/// What stops a command, in words.
fn fault(why: impl Into<String>) -> io::Error {
    io::Error::new(io::ErrorKind::Other, why.into())
}

/// The cases on standard input, one a line.
fn cases() -> impl Iterator<Item = io::Result<Record>> {
    io::stdin()
        .lock()
        .lines()
        .enumerate()
        .map(|(i, line)| Record::parse(&line?).map_err(|why| fault(format!("line {}: {why}", i + 1))))
}

/// One answer for each case.
fn answer() -> io::Result<()> {
    let mut out = BufWriter::new(io::stdout().lock());
    for case in cases() {
        writeln!(out, "{}", calls::answer(&case?).0)?;
    }
    out.flush()
}

fn sheet() -> io::Result<()> {
    let mut text = Vec::new();
    io::stdin().lock().read_to_end(&mut text)?;
    io::stdout().write_all(&sheet::run(&text))
}

/// The calls that a word on the command line means.
fn calls_of(word: &str) -> io::Result<Vec<&'static str>> {
    let names: Vec<&str> = record::CALLS.iter().map(|c| c.name).filter(|name| word == "all" || word == *name).collect();
    if names.is_empty() { Err(fault(format!("no call `{word}`"))) } else { Ok(names) }
}

fn number<N: std::str::FromStr>(word: &str) -> io::Result<N> {
    word.parse().map_err(|_| fault(format!("`{word}` is not a number")))
}

/// What `generate`, `compare` or `chains` is asked to do.
fn plan(call: &str, count: &str, seed: &str, options: &[&str]) -> io::Result<Plan> {
    let (calls, count, seed) = (calls_of(call)?, number(count)?, number(seed)?);
    let mut plan = Plan { calls, count, seed, sizes: generate::USUAL, sheet: None };
    for pair in options.chunks(2) {
        match *pair {
            ["--n-min", n] => plan.sizes.least = number(n)?,
            ["--n-max", n] => plan.sizes.most = number(n)?,
            ["--sheet", program] => plan.sheet = Some(program.to_string()),
            _ => return Err(fault(USAGE)),
        }
    }
    let Sizes { least, most } = plan.sizes;
    if least == 0 || least > most || most > 64 {
        return Err(fault("rows are 1 to 64, --n-min at most --n-max"));
    }
    Ok(plan)
}

/// Stored vectors of the calls named before the options.
fn write_vectors(words: &[&str]) -> io::Result<()> {
    let (calls, mut options) = words.split_at(words.iter().take_while(|word| !word.starts_with("--")).count());
    if calls.is_empty() {
        return Err(fault(USAGE));
    }
    let mut extent = vectors::WHOLE;
    loop {
        (extent, options) = match *options {
            [] => break,
            ["--classes", ref rest @ ..] => (extent.of_classes(), rest),
            ["--random", n, ref rest @ ..] => (extent.of_random(number(n)?), rest),
            _ => return Err(fault(USAGE)),
        };
    }
    vectors::write(calls, &extent, &mut BufWriter::new(io::stdout().lock()))
}

/// Cases on standard output, and what the Rust makes of them on standard error.
fn write_cases(plan: &Plan) -> io::Result<bool> {
    let mut out = BufWriter::new(io::stdout().lock());
    for name in &plan.calls {
        let mut tally = Tally::default();
        for index in 0..plan.count {
            let case = generate::case(name, plan.seed, index, plan.sizes);
            let (answer, notes) = calls::answer(&case);
            tally.add(&case, &answer, &notes);
            writeln!(out, "{case}")?;
        }
        eprintln!("{name}: {tally}");
    }
    out.flush()?;
    Ok(true)
}
