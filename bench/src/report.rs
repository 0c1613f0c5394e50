//! Ratios as text, what was to be reached, and an overview of all rows.

use crate::rows::SIZES;
use crate::table::Table;
use crate::timing::{Spread, Times};

/// The sides, in the order of the columns.
pub const NAMES: [&str; 4] = ["ours", "the Rust", "LAPACK", "OpenBLAS"];

pub fn shown(x: Spread) -> String {
    if x.low == x.high {
        return format!("{:.2}", x.middle);
    }
    format!("{:.2} ({:.2}–{:.2}){}", x.middle, x.low, x.high, if x.wide() { " ~" } else { "" })
}

/// The middle time of a side, marked where the core was shared all the while.
pub fn middle_time(times: &Times, side: usize) -> String {
    nanoseconds(times.nanoseconds(side).middle, times)
}

/// A time out of `times`, with the same mark.
pub fn nanoseconds(x: f64, times: &Times) -> String {
    let digits = if x < 100.0 { 1 } else { 0 };
    format!("{x:.digits$}{}", if times.shared { " *" } else { "" })
}

/// What is asked of ratios.
#[derive(Clone, Copy)]
pub enum Asked {
    AtMost(f64),
    Below(f64),
}

impl Asked {
    /// Compared as it is printed.
    fn missed_by(self, x: Spread) -> bool {
        let printed = (x.middle * 100.0).round() / 100.0;
        match self {
            Asked::AtMost(most) => printed > most,
            Asked::Below(limit) => printed >= limit,
        }
    }

    /// The verdict on some ratios.
    fn verdict(self, names: &[&str], ratios: &[Spread]) -> String {
        let missed = names.iter().zip(ratios).filter(|(_, ratio)| self.missed_by(**ratio));
        let missed: Vec<&str> = missed.map(|(name, _)| *name).collect();
        let said = if missed.is_empty() { "met".to_string() } else { format!("NOT met: {}", missed.join(", ")) };
        match self {
            Asked::AtMost(most) => format!("≤ {most:?} {said}"),
            Asked::Below(limit) => format!("< {limit:?} {said}"),
        }
    }
}

/// Ratios to the three others by row and size, and how many targets were met.
pub struct Report {
    rows: Vec<(String, [String; SIZES.len()])>,
    asked: usize,
    met: usize,
    /// Rows timed, with wide quartiles, on a shared core; parts left out, added up.
    timed: usize,
    wide: usize,
    shared: usize,
    left_out: f64,
    /// The ratios of the rows that time the same call on the same form.
    same: Vec<(String, Vec<Vec<f64>>)>,
    /// The names of rows that ours refuses.
    refused: Vec<String>,
}

impl Report {
    pub fn new() -> Report {
        let (rows, same, refused) = (Vec::new(), Vec::new(), Vec::new());
        Report { rows, asked: 0, met: 0, timed: 0, wide: 0, shared: 0, left_out: 0.0, same, refused }
    }

    /// Counts a row, and what is to be said of its times.
    pub fn note(&mut self, ratios: &[Spread], times: &Times) {
        self.timed += 1;
        self.wide += usize::from(ratios.iter().any(|x| x.wide()));
        self.shared += usize::from(times.shared);
        self.left_out += times.left_out;
    }

    /// Names a row that is not timed, as ours refuses it.
    pub fn refuse(&mut self, name: String) {
        self.refused.push(name);
    }

    /// Keeps the ratios by what is called.
    pub fn same_call(&mut self, call: String, ratios: &[Spread]) {
        let middles = ratios.iter().map(|x| x.middle).collect();
        match self.same.iter_mut().find(|(name, _)| *name == call) {
            Some((_, rows)) => rows.push(middles),
            None => self.same.push((call, vec![middles])),
        }
    }

    /// How many rows time a call that another row times too, and how far their ratios lie apart at most.
    fn agreement(&self) -> (usize, f64) {
        let groups = self.same.iter().map(|(_, rows)| rows).filter(|rows| rows.len() > 1);
        let apart = |rows: &Vec<Vec<f64>>| {
            let side = |k: usize| rows.iter().map(move |row| row[k]);
            (0..rows[0].len())
                .map(|k| side(k).fold(0.0, f64::max) / side(k).fold(f64::MAX, f64::min) - 1.0)
                .fold(0.0, f64::max)
        };
        groups.fold((0, 0.0), |(count, most), rows| (count + rows.len(), f64::max(most, apart(rows))))
    }

    /// Keeps the ratios of a row, and hands back the verdict where something is asked of it.
    pub fn add(&mut self, name: &str, n: usize, asked: Option<Asked>, ratios: &[Spread], times: &Times) -> String {
        self.note(ratios, times);
        if self.rows.last().map_or(true, |row| row.0 != name) {
            self.rows.push((name.to_string(), Default::default()));
        }
        let cell = |x: &Spread| match asked {
            Some(asked) if asked.missed_by(*x) => format!("**{:.2}**", x.middle),
            _ => format!("{:.2}", x.middle),
        };
        let cells: Vec<String> = ratios.iter().map(cell).collect();
        if let (Some(row), Some(at)) = (self.rows.last_mut(), SIZES.iter().position(|size| *size == n)) {
            row.1[at] = cells.join(" / ");
        }
        self.judged(asked, &NAMES[1..], ratios)
    }

    /// The verdict alone.
    pub fn judged(&mut self, asked: Option<Asked>, names: &[&str], ratios: &[Spread]) -> String {
        let asked = match asked {
            Some(asked) => asked,
            None => return "–".to_string(),
        };
        self.asked += 1;
        self.met += usize::from(!ratios.iter().any(|x| asked.missed_by(*x)));
        asked.verdict(names, ratios)
    }

    /// The overview is for the document; the count comes in any case.
    pub fn print(&self, markdown: bool) {
        if markdown {
            let sizes = SIZES.map(|n| format!("n = {n}"));
            let heads: Vec<&str> = [""].into_iter().chain(sizes.iter().map(String::as_str)).collect();
            let mut table = Table::new(true, &heads);
            for (name, cells) in &self.rows {
                table.add([name.clone()].into_iter().chain(cells.iter().cloned()).collect());
            }
            table.print("Overview: ours/Rust / ours/LAPACK / ours/OpenBLAS, bold where more than asked");
        }
        if self.asked > 0 {
            println!(
                "Reached against all sides: {} of the {} rows of which something is asked.\n",
                self.met, self.asked
            );
        }
        println!(
            "~ quartiles more than 5 % apart: {} of {} rows. * core shared all the while: {}. \
             Left out as the core was shared: {:.0} % of all repetitions.\n",
            self.wide,
            self.timed,
            self.shared,
            100.0 * self.left_out / self.timed.max(1) as f64
        );
        if let (count @ 2.., apart) = self.agreement() {
            println!(
                "{count} rows time a call that another row times too: their ratios lie at most {:.1} % apart.\n",
                100.0 * apart
            );
        }
        if !self.refused.is_empty() {
            println!("Not timed, as ours refuses them: {}.\n", self.refused.join("; "));
        }
    }
}
