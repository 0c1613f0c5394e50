//! Runs the same cases on the Rust and on the archive and compares every bit.

use crate::generate::{self, Sizes};
use crate::progress::Progress;
use crate::record::{Record, Value};
use crate::tally::Tally;
use crate::{archive, calls, fault};
use std::io::{self, Write};
use std::process::{Command, Stdio};

/// Differences printed in full for each call; the rest are counted.
pub const SHOWN: u64 = 5;

pub struct Plan {
    pub calls: Vec<&'static str>,
    pub count: u64,
    pub seed: u64,
    pub sizes: Sizes,
    /// The program `sheet`, compared by its output.
    pub sheet: Option<String>,
}

/// True if nothing differed.
pub fn run(plan: &Plan) -> io::Result<bool> {
    let mut progress = Progress::new(plan.count * plan.calls.len() as u64);
    let found = compare_all(plan, &mut progress)?;
    println!("compared: {}", found.compared.join(" "));
    println!("absent: {}", found.absent.join(" "));
    println!("differences: {}", found.differing);
    if found.compared.is_empty() {
        return Err(fault("nothing to compare with: build with VOLMEIXI_ARCHIVE, or give --sheet"));
    }
    Ok(found.differing == 0)
}

/// The calls of a plan that could be compared, those that could not, and how many cases differed.
pub struct Found {
    pub compared: Vec<&'static str>,
    pub absent: Vec<&'static str>,
    pub differing: u64,
}

pub fn compare_all(plan: &Plan, progress: &mut Progress) -> io::Result<Found> {
    let mut found = Found { compared: Vec::new(), absent: Vec::new(), differing: 0 };
    for name in &plan.calls {
        match compare(plan, name, progress)? {
            Some(differences) => {
                found.compared.push(*name);
                found.differing += differences;
            }
            None => found.absent.push(*name),
        }
    }
    Ok(found)
}

/// How many cases of one call differed; `None` if there is nothing to compare with.
fn compare(plan: &Plan, name: &'static str, progress: &mut Progress) -> io::Result<Option<u64>> {
    let (mut tally, mut differing) = (Tally::default(), 0);
    for index in 0..plan.count {
        let case = generate::case(name, plan.seed, index, plan.sizes);
        let ours = match other_side(plan, &case)? {
            Some(ours) => ours,
            None => {
                progress.skip(plan.count);
                return Ok(None);
            }
        };
        let (rust, notes) = calls::answer(&case);
        tally.add(&case, &rust, &notes);
        if let Some(place) = rust.difference(&ours) {
            differing += 1;
            if differing <= SHOWN {
                progress.wipe();
                println!("{}", told(&case, &rust, &ours, &place));
            }
        }
        progress.step(|| format!("{name}: {} of {}, {differing} differ", index + 1, plan.count));
    }
    progress.wipe();
    println!("{name}: {tally}, {differing} differ");
    Ok(Some(differing))
}

/// A case that differs, with both answers.
pub fn told(case: &Record, rust: &Record, ours: &Record, place: &str) -> String {
    format!("{case}\n  differs first in {place}\n  the Rust:    {rust}\n  the archive: {ours}")
}

/// Of a case that the archive has no call for.
pub fn absent(case: &Record) -> io::Error {
    fault(format!("the archive has no {}", case.call))
}

/// Compares given cases, one a line; true if nothing differed.
pub fn replay(lines: impl Iterator<Item = io::Result<Record>>) -> io::Result<bool> {
    let mut same = true;
    for case in lines {
        let case = case?;
        let rust = calls::answer(&case).0;
        let ours = archive::answer(&case).ok_or_else(|| absent(&case))?;
        match rust.difference(&ours) {
            None => println!("{case}\n  the same:    {rust}"),
            Some(place) => {
                println!("{}", told(&case, &rust, &ours, &place));
                same = false;
            }
        }
    }
    Ok(same)
}

fn other_side(plan: &Plan, case: &Record) -> io::Result<Option<Record>> {
    match (&plan.sheet, case.call) {
        (Some(program), "sheet") => {
            let text = printed(program, case.bytes("text"))?;
            Ok(Some(Record::new(case.call).with("text", Value::Bytes(text))))
        }
        _ => Ok(archive::answer(case)),
    }
}

/// What a program prints for a text on its standard input.
pub fn printed(program: &str, text: &[u8]) -> io::Result<Vec<u8>> {
    let mut child = Command::new(program).stdin(Stdio::piped()).stdout(Stdio::piped()).spawn()?;
    // A program may stop reading a text that is too long: the pipe is then closed, which is no fault.
    let _ = child.stdin.take().expect("piped").write_all(text);
    Ok(child.wait_with_output()?.stdout)
}
