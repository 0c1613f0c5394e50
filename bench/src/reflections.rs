//! The rows of reflections: columns of a head and a tail, by the tail's length, and how such a row is timed
//! on any sides.

use crate::forms::between;
use crate::opaque::black_box;
use crate::rng::Rng;
use crate::rows::{Lines, Plan, SEED, progress};
use crate::sides::Side;
use crate::timing::Times;
use std::time::Instant;

const TAILS: [usize; 7] = [1, 2, 3, 8, 16, 32, 64];
/// What the tails of a batch hold: it stays in the second cache, and lasts 60 to 80 microseconds.
const BATCH_NUMBERS: usize = 2048;
/// A batch has other columns than the one before: with the same ones each time the processor learns how
/// their branches go (a tail of 1 took 29 ns in place of 38), more at one place than at another. A prime,
/// so that each side gets all of them.
const BATCHES: usize = 17;

/// Reflections with tails of one length, each of another column.
pub struct ReflectionRow {
    pub name: String,
    tail: usize,
    /// Those of all batches, column after column, the head first.
    columns: Vec<f64>,
}

impl ReflectionRow {
    /// The rows that are wanted; a tail's length is their n.
    pub fn all(plan: &Plan) -> impl Iterator<Item = ReflectionRow> + '_ {
        TAILS.into_iter().filter_map(move |tail| {
            let name = format!("reflection, tail of {tail}");
            plan.wants(&name, Some(tail)).then(|| {
                progress(&name);
                let rng = &mut Rng::new(SEED, "reflection", tail as u64);
                let count = BATCHES * (BATCH_NUMBERS / tail);
                let columns = (0..count * (1 + tail)).map(|_| between(rng, -2.0, 2.0)).collect();
                ReflectionRow { name, tail, columns }
            })
        })
    }

    /// What a side makes of the columns, and the further results of each; nothing where it refuses one.
    pub fn done_by(&self, side: &Side) -> Option<(Vec<f64>, Vec<f64>)> {
        let (mut columns, mut further) = (self.columns.clone(), Vec::new());
        for column in columns.chunks_mut(1 + self.tail) {
            let mut results = [0.0; 3];
            if side.reflect(column, &mut results) != 0 {
                return None;
            }
            further.extend(results);
        }
        Some((columns, further))
    }

    pub fn times(&self, plan: &Plan, sides: &[Side]) -> Times {
        let (places, len) = (1 + self.tail, self.columns.len() / BATCHES);
        let (mut lines, mut batches) = (Lines::new(len), self.columns.chunks(len).cycle());
        let (columns, mut results) = (lines.numbers(), [0.0; 3]);
        Times::take(sides.len(), len / places, plan.budget, |k, place| {
            let side = sides[k].at(place);
            columns.copy_from_slice(batches.next().unwrap());
            let start = Instant::now();
            for column in columns.chunks_mut(places) {
                black_box(side.reflect(column, &mut results));
            }
            let taken = start.elapsed();
            black_box(&mut *columns);
            taken
        })
    }
}
