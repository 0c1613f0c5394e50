//! The forms that are timed and checked: diagonal values well apart, standardised 2-blocks whose
//! values are complex, upper entries of size 1/√n. Fixed by a seed.

use crate::rng::Rng;

/// The moves that one list takes.
const MOST_MOVES: usize = 64;

#[derive(Clone, Copy, PartialEq)]
pub enum Kind {
    Rows,
    Pairs,
    Mixed,
}

impl Kind {
    pub const ALL: [Kind; 3] = [Kind::Rows, Kind::Pairs, Kind::Mixed];

    pub fn name(self) -> &'static str {
        match self {
            Kind::Rows => "1-blocks",
            Kind::Pairs => "2-blocks",
            Kind::Mixed => "mixed",
        }
    }

    /// The sizes of the blocks, from the first on.
    pub fn sizes(self, n: usize) -> Vec<usize> {
        let mut sizes = Vec::new();
        let mut left = n;
        while left > 0 {
            let wanted = match self {
                Kind::Rows => 1,
                Kind::Pairs => 2,
                Kind::Mixed => 1 + sizes.len() % 2,
            };
            sizes.push(wanted.min(left));
            left -= wanted.min(left);
        }
        sizes
    }
}

pub struct Form {
    pub n: usize,
    /// Places from one column to the next.
    pub ld: usize,
    pub sizes: Vec<usize>,
    /// Column after column.
    pub t: Vec<f64>,
}

impl Form {
    pub fn new(kind: Kind, n: usize, seed: u64) -> Form {
        let rng = &mut Rng::new(seed, kind.name(), n as u64);
        let sizes = kind.sizes(n);
        let mut t = vec![0.0; n * n];
        for j in 0..n {
            for i in 0..j {
                t[i + n * j] = between(rng, -1.0, 1.0) / (n as f64).sqrt();
            }
        }
        // The blocks' places on the diagonal are mixed, so that values do not rise with the row.
        let mut order: Vec<usize> = (0..sizes.len()).collect();
        for i in (1..order.len()).rev() {
            order.swap(i, rng.below(i + 1));
        }
        let mut row = 0;
        for (size, place) in sizes.iter().zip(order) {
            let a = 1.0 + place as f64 + between(rng, -0.25, 0.25);
            t[row + n * row] = a;
            if *size == 2 {
                let (m, ratio) = (between(rng, 0.5, 1.5), between(rng, 0.5, 2.0));
                t[row + 1 + n * (row + 1)] = a;
                t[row + n * (row + 1)] = m * ratio;
                t[row + 1 + n * row] = -m / ratio;
            }
            row += size;
        }
        Form { n, ld: n, sizes, t }
    }

    /// The same form in the corner of a larger sheet.
    pub fn spread(self, ld: usize) -> Form {
        Form { ld, t: spread(self.n, ld, &self.t), ..self }
    }

    /// The same form with each 2-block turned by one angle, and nothing beyond the blocks: the diagonal
    /// numbers of a 2-block then differ, its values are the same up to rounding.
    pub fn raw(mut self) -> Form {
        let (cs, sn) = (0.8, 0.6);
        for (i, size) in self.starts().into_iter().zip(&self.sizes) {
            if *size == 1 {
                continue;
            }
            let at = |row: usize, column: usize| i + row + self.ld * (i + column);
            let [a, b, c, d] = [at(0, 0), at(0, 1), at(1, 0), at(1, 1)];
            // The two rows, then the two columns.
            for [x, y] in [[a, c], [b, d], [a, b], [c, d]] {
                (self.t[x], self.t[y]) = (cs * self.t[x] - sn * self.t[y], sn * self.t[x] + cs * self.t[y]);
            }
            assert!(self.t[a] != self.t[d], "the 2-block in row {i} is standardised yet");
        }
        self
    }

    /// The unit in the form's own stride, as a factor; or none.
    pub fn factor(&self, with_factor: bool) -> Vec<f64> {
        if with_factor { spread(self.n, self.ld, &unit(self.n)) } else { Vec::new() }
    }

    /// The first row of each block.
    fn starts(&self) -> Vec<usize> {
        self.sizes
            .iter()
            .scan(0, |row, size| {
                *row += size;
                Some(*row - size)
            })
            .collect()
    }

    /// The block just below the middle goes up by one.
    pub fn adjacent(&self) -> Vec<(usize, usize)> {
        let (starts, middle) = (self.starts(), self.sizes.len() / 2);
        vec![(starts[middle], starts[middle - 1])]
    }

    /// As many moves as a list takes, each one exchange on a form of 1-blocks: the first block down row by
    /// row, from the last row up again, and so on.
    pub fn adjacent_list(&self) -> Vec<(usize, usize)> {
        let last = self.n - 1;
        let row_after = |moves: usize| (moves % (2 * last)).min(2 * last - moves % (2 * last));
        (0..MOST_MOVES).map(|k| (row_after(k), row_after(k + 1))).collect()
    }

    pub fn last_to_first(&self) -> Vec<(usize, usize)> {
        vec![(*self.starts().last().unwrap(), 0)]
    }

    /// Always the last block, to the place after those moved before it.
    pub fn reversal(&self) -> Vec<(usize, usize)> {
        let mut moves = Vec::new();
        let mut to = 0;
        for size in self.sizes.iter().skip(1).rev() {
            moves.push((self.n - size, to));
            to += size;
        }
        moves
    }
}

/// A square of n rows, column after column a stride apart, with NaNs beyond its rows.
fn spread(n: usize, ld: usize, square: &[f64]) -> Vec<f64> {
    let mut whole = vec![f64::NAN; ld * n];
    whole.chunks_mut(ld).zip(square.chunks(n)).for_each(|(column, rows)| column[..n].copy_from_slice(rows));
    whole
}

pub fn unit(n: usize) -> Vec<f64> {
    (0..n * n).map(|k| if k / n == k % n { 1.0 } else { 0.0 }).collect()
}

pub fn between(rng: &mut Rng, low: f64, high: f64) -> f64 {
    low + (high - low) * (rng.bits() >> 11) as f64 / (1u64 << 53) as f64
}
