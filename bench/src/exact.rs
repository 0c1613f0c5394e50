//! Sums and products in twice the digits of an f64, to measure errors of an f64's last digits:
//! a number is the sum of two f64, the second below half a unit of the first's last place.

#[derive(Clone, Copy, Default)]
pub struct Wide(f64, f64);

fn sum(a: f64, b: f64) -> Wide {
    let s = a + b;
    let t = s - a;
    Wide(s, (a - (s - t)) + (b - t))
}

impl Wide {
    pub fn of(x: f64) -> Wide {
        Wide(x, 0.0)
    }

    /// The nearest f64, or nearly.
    pub fn near(self) -> f64 {
        self.0
    }

    pub fn plus(self, other: Wide) -> Wide {
        let s = sum(self.0, other.0);
        sum(s.0, s.1 + self.1 + other.1)
    }

    pub fn minus(self, other: Wide) -> Wide {
        self.plus(Wide(-other.0, -other.1))
    }

    pub fn times(self, x: f64) -> Wide {
        let p = self.0 * x;
        sum(p, self.0.mul_add(x, -p) + self.1 * x)
    }
}

/// Numbers of n rows and n columns, column after column.
pub struct Square {
    n: usize,
    all: Vec<Wide>,
}

impl Square {
    pub fn of(n: usize, all: &[f64]) -> Square {
        Square { n, all: all.iter().map(|x| Wide::of(*x)).collect() }
    }

    /// This times q.
    pub fn times(&self, q: &[f64]) -> Square {
        let n = self.n;
        let dot =
            |i: usize, j: usize| (0..n).fold(Wide::default(), |s, k| s.plus(self.all[i + n * k].times(q[k + n * j])));
        Square { n, all: (0..n * n).map(|at| dot(at % n, at / n)).collect() }
    }

    pub fn turned(&self) -> Square {
        let n = self.n;
        Square { n, all: (0..n * n).map(|at| self.all[at / n + n * (at % n)]).collect() }
    }

    /// The Frobenius norm of the difference.
    pub fn apart(&self, other: &[f64]) -> f64 {
        norm(self.all.iter().zip(other).map(|(x, y)| x.minus(Wide::of(*y)).near()))
    }
}

pub fn norm(numbers: impl Iterator<Item = f64>) -> f64 {
    numbers.map(|x| x * x).sum::<f64>().sqrt()
}
