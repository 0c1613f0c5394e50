//! Times several sides by turns, and compares them repetition by repetition.
//!
//! In stretches of a millisecond to seconds, what keeps a core's units busy (LAPACK) takes half as long
//! again, what waits for one root after the other (ours) a tenth more, all sides at once: as if the
//! core's other thread worked for another guest. A ratio then has two values. So a probe that keeps the
//! units busy is timed around each side, and a repetition with a slow one is left out.

use crate::archive::PLACES;
use crate::opaque::black_box;
use std::sync::atomic::{AtomicU64, Ordering};
use std::time::{Duration, Instant};

/// Nanoseconds for one run of each side, a list for each repetition, and the place it was timed at.
pub struct Times {
    rows: Vec<Vec<f64>>,
    places: Vec<usize>,
    /// The part of all repetitions that was left out, as their core was shared.
    pub left_out: f64,
    /// So few were left that all were taken.
    pub shared: bool,
}

/// A middle value with its quartiles.
#[derive(Clone, Copy)]
pub struct Spread {
    pub low: f64,
    pub middle: f64,
    pub high: f64,
}

impl Spread {
    /// The quartiles lie more than a twentieth of the middle value apart.
    pub fn wide(self) -> bool {
        self.high - self.low > 0.05 * self.middle
    }
}

impl Times {
    /// `run(side, place)` restores its buffers, and hands back the time of `runs` runs alone; the places
    /// of an archive take turns. Each is run twice and timed the second time, with its code in the
    /// caches. The repetitions that are kept take the budget, all together no more than five times as
    /// long.
    pub fn take(sides: usize, runs: usize, budget: Duration, mut run: impl FnMut(usize, usize) -> Duration) -> Times {
        const WARM: usize = 3;
        const LEAST: usize = 41;
        const MOST: usize = 20_001;
        const PATIENCE: u32 = 5;
        for _ in 0..500 {
            probe();
        }
        let (begun, empty) = (Instant::now(), empty_time());
        let (mut kept, mut left_out, mut spent) = (Vec::new(), Vec::new(), Duration::ZERO);
        for turn in 0.. {
            let enough = kept.len() >= LEAST && spent > budget || kept.len() == MOST;
            let late = kept.len() + left_out.len() >= LEAST && begun.elapsed() > budget * PATIENCE;
            if enough || late {
                break;
            }
            let start = Instant::now();
            let (mut row, mut slowest, place) = (vec![0.0; sides], probe(), turn / sides % PLACES);
            for k in 0..sides {
                let side = (turn + k) % sides;
                run(side, place);
                row[side] = (run(side, place).as_nanos() as f64 - empty).max(1.0) / runs as f64;
                slowest = slowest.max(probe());
            }
            if turn >= WARM && alone(slowest) {
                kept.push((row, place));
                spent += start.elapsed();
            } else if turn >= WARM {
                left_out.push((row, place));
            }
        }
        let part = left_out.len() as f64 / (kept.len() + left_out.len()) as f64;
        let shared = kept.len() < LEAST;
        if shared {
            kept.append(&mut left_out);
        }
        let (rows, places) = kept.into_iter().unzip();
        Times { rows, places, left_out: part, shared }
    }

    pub fn nanoseconds(&self, side: usize) -> Spread {
        spread(self.all(side))
    }

    /// Of one side to another, in each repetition; or of the least times of both, without a spread.
    pub fn ratio(&self, side: usize, other: usize, least: bool) -> Spread {
        if least {
            let x = least_of(self.all(side)) / least_of(self.all(other));
            return Spread { low: x, middle: x, high: x };
        }
        spread(self.rows.iter().map(|row| row[side] / row[other]).collect())
    }

    fn all(&self, side: usize) -> Vec<f64> {
        self.rows.iter().map(|row| row[side]).collect()
    }

    /// The middle or least time of a side at each place of the archives, where a repetition was kept.
    pub fn at_places(&self, side: usize, least: bool) -> Vec<f64> {
        let at = |place| self.rows.iter().zip(&self.places).filter(move |(_, at)| **at == place);
        let kept = (0..PLACES).map(|place| at(place).map(|(row, _)| row[side]).collect::<Vec<f64>>());
        let kept = kept.filter(|times| !times.is_empty());
        kept.map(|times| if least { least_of(times) } else { spread(times).middle }).collect()
    }
}

/// The time that a twentieth stay below.
fn least_of(mut all: Vec<f64>) -> f64 {
    all.sort_by(f64::total_cmp);
    all[all.len() / 20]
}

/// What reading the clock twice costs by itself.
fn empty_time() -> f64 {
    spread((0..201).map(|_| Instant::now().elapsed().as_nanos() as f64).collect()).middle
}

pub fn spread(mut all: Vec<f64>) -> Spread {
    all.sort_by(f64::total_cmp);
    let at = |quarter: usize| all[(all.len() - 1) * quarter / 4];
    Spread { low: at(1), middle: at(2), high: at(3) }
}

static LEAST_PROBE: AtomicU64 = AtomicU64::new(u64::MAX);

/// The nanoseconds of six chains of turns that do not wait for each other.
fn probe() -> u64 {
    let start = Instant::now();
    let mut chains = black_box([1u64, 2, 3, 4, 5, 6]);
    for k in 0..1000 {
        for (chain, turn) in chains.iter_mut().zip([7, 9, 11, 13, 15, 17]) {
            *chain = chain.rotate_left(turn) ^ k;
        }
    }
    black_box(chains);
    let taken = start.elapsed().as_nanos() as u64;
    LEAST_PROBE.fetch_min(taken, Ordering::Relaxed);
    taken
}

/// Whether a probe took no more than a tenth over the least one so far.
fn alone(probe: u64) -> bool {
    10 * probe <= 11 * LEAST_PROBE.load(Ordering::Relaxed)
}
