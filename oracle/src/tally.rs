//! Counts over many cases: how many, how many of each answer, how many split or declined, of
//! exchanges how many counted so many swaps, which strides and numbers beyond the corners there were,
//! which tails of reflections, how 2-blocks were read, where moves stopped, and what became of the
//! pairs of lists of moves.

use crate::generate::tails;
use crate::lists;
use crate::note::Notes;
use crate::record::{Record, Value};
use crate::stride;
use std::collections::BTreeMap;
use std::fmt;

#[derive(Default)]
pub struct Tally {
    pub cases: u64,
    pub answers: BTreeMap<usize, u64>,
    pub split: u64,
    pub declined: u64,
    /// Accepted exchanges by their swaps.
    pub exchanges: BTreeMap<usize, u64>,
    /// Cases with a stride by what `stride::classes` tells, of reflections what `tails::classes` does,
    /// of standardised values what `pairs` does, of moves that stop what `met` does.
    pub classes: BTreeMap<&'static str, u64>,
    /// Pairs of lists of moves: all by their numbers, and what is counted of the accepted ones.
    pub numbers: BTreeMap<usize, u64>,
    pub pairs: BTreeMap<&'static str, u64>,
}

impl Tally {
    pub fn add(&mut self, case: &Record, answer: &Record, notes: &Notes) {
        self.cases += 1;
        self.split += u64::from(notes.splits > 0);
        self.declined += u64::from(notes.declined > 0);
        if let Some(number) = number_of(answer) {
            *self.answers.entry(number).or_default() += 1;
            if stride::base_of(answer.call) == "schur_swap" && number == 0 {
                *self.exchanges.entry(notes.swaps).or_default() += 1;
            }
        }
        if stride::base_of(answer.call) == lists::CALL {
            self.add_pairs(case, answer, notes);
        }
        let classes = match case.call {
            "make_householder_in_place" => tails::classes(case, answer),
            call if stride::taken_by(call) => stride::classes(case, answer),
            _ => Vec::new(),
        };
        let met = pairs(notes).chain(met(answer, notes));
        classes.into_iter().chain(met).for_each(|class| *self.classes.entry(class).or_default() += 1);
    }
}

impl Tally {
    fn add_pairs(&mut self, case: &Record, answer: &Record, notes: &Notes) {
        for four in lists::fours(case, answer) {
            *self.numbers.entry(four[0]).or_default() += 1;
            let (accepted, moved) = (four[0] == 0, four[2] > 0);
            let counts = [
                (!accepted, "refused"),
                (accepted && moved, "moved"),
                (accepted && !moved, "nothing to move"),
                (four[3] > 0, "declined"),
            ];
            let counted = counts.into_iter().filter(|count| count.0);
            counted.for_each(|(_, what)| *self.pairs.entry(what).or_default() += 1);
        }
        if notes.split_pairs > 0 {
            *self.pairs.entry("split").or_default() += notes.split_pairs as u64;
        }
    }
}

/// How 2-blocks were read whose copies were standardised first.
fn pairs(notes: &Notes) -> impl Iterator<Item = &'static str> {
    let read = [(notes.real, "a real pair"), (notes.complex, "a complex pair"), (notes.odd, "a pair with NaN c")];
    read.into_iter().filter(|(count, _)| *count > 0).map(|(_, class)| class)
}

/// What an accepted move that stops met: where it stopped, or that it came to its end.
fn met(answer: &Record, notes: &Notes) -> impl Iterator<Item = &'static str> {
    let accepted = stride::base_of(answer.call) == "reorder_schur_stopping" && answer.n("answer") == 0;
    let end = match notes.stop {
        Some((1, 2, _)) => "stopped at 1-2",
        Some((2, 1, _)) => "stopped at 2-1",
        Some(_) => "stopped at 2-2",
        None if notes.swaps > 0 => "moved",
        None => "nothing to move",
    };
    let late = matches!(notes.stop, Some((_, _, 2..)));
    let earlier = notes.stop.is_some() && notes.swaps > 1;
    let met = [
        (true, end),
        (earlier, "stopped after other exchanges"),
        (late, "stopped in a step"),
        (notes.zero_b > 0, "a zero b exchanged"),
    ];
    met.into_iter().filter(move |(found, _)| accepted && *found).map(|(_, class)| class)
}

/// The answer's number; for a sheet, the one it prints.
fn number_of(answer: &Record) -> Option<usize> {
    match answer.find("answer").or(answer.find("text"))? {
        Value::Num(number) => Some(*number),
        Value::Bytes(text) => {
            let line = text.split(|b| *b == b'\n').next()?;
            std::str::from_utf8(line.strip_prefix(b"answer=")?).ok()?.parse().ok()
        }
        _ => None,
    }
}

impl fmt::Display for Tally {
    fn fmt(&self, f: &mut fmt::Formatter<'_>) -> fmt::Result {
        write!(f, "{} cases", self.cases)?;
        if self.split + self.declined > 0 {
            write!(f, ", {} with a split, {} with a decline", self.split, self.declined)?;
        }
        write_counts(f, "answers", &self.answers)?;
        write_counts(f, "swaps", &self.exchanges)?;
        write_counts(f, "with", &self.classes)?;
        write_counts(f, "pairs' answers", &self.numbers)?;
        write_counts(f, "pairs", &self.pairs)
    }
}

fn write_counts<K: fmt::Display>(f: &mut fmt::Formatter<'_>, name: &str, counts: &BTreeMap<K, u64>) -> fmt::Result {
    if counts.is_empty() {
        return Ok(());
    }
    let counts: Vec<String> = counts.iter().map(|(key, count)| format!("{key}: {count}")).collect();
    write!(f, ", {name} {{{}}}", counts.join(", "))
}
