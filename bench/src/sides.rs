//! Who is timed: our archive or another, the Rust, and two LAPACKs. All take a stride `ld`, the Rust in
//! its views.

use crate::archive::{Archive, PLACES};
use crate::arith;
use crate::lapack::Lapack;
use crate::opaque::black_box;
use crate::shim::*;
use crate::taken::{eigen, evd, householder, leaves};

#[derive(Clone, Copy)]
pub enum Side {
    /// The copies of an archive, and which one is called.
    Archive(&'static [Archive; PLACES], usize),
    /// The same, with the move that stops for its move.
    Stopping(&'static [Archive; PLACES], usize),
    /// The same, with one call for all the moves of a list.
    List(&'static [Archive; PLACES], usize),
    Rust,
    Lapack(Lapack),
}

impl Side {
    /// The same side; an archive's copy at that place.
    pub fn at(self, place: usize) -> Side {
        match self {
            Side::Archive(copies, _) => Side::Archive(copies, place),
            Side::Stopping(copies, _) => Side::Stopping(copies, place),
            Side::List(copies, _) => Side::List(copies, place),
            _ => self,
        }
    }

    /// A move; hands back 0 if it was carried out.
    #[inline(always)]
    pub fn reorder(&self, n: usize, ld: usize, t: &mut [f64], u: &mut [f64], from: usize, to: usize) -> usize {
        match self {
            Side::Archive(copies, place) => copies[*place].reorder(n, ld, t, u, from, to).0,
            Side::Stopping(copies, place) => {
                let (number, stopped, _) = copies[*place].reorder_stopping(n, ld, t, u, from, to);
                number + usize::from(stopped)
            }
            Side::List(..) => unreachable!("this side takes a list, not a move"),
            Side::Rust => rust_reorder(n, ld, t, u, from, to),
            Side::Lapack(lapack) => lapack.reorder(n, ld, t, u, from, to) as usize,
        }
    }

    /// Moves in turn: one call for each, or for all where the side takes a list.
    #[inline(always)]
    pub fn reorder_all(
        &self,
        n: usize,
        ld: usize,
        t: &mut [f64],
        u: &mut [f64],
        moves: &[(usize, usize)],
        list: &mut List,
    ) {
        match self {
            Side::List(copies, place) => {
                black_box(copies[*place].reorder_list(n, ld, t, u, &list.moves, &mut list.results));
            }
            _ => {
                for &(from, to) in moves {
                    black_box(self.reorder(n, ld, t, u, from, to));
                }
            }
        }
    }

    #[inline(always)]
    pub fn vectors(&self, n: usize, ld: usize, t: &[f64], v: &mut [f64]) -> usize {
        match self {
            Side::Archive(copies, place) | Side::Stopping(copies, place) | Side::List(copies, place) => {
                copies[*place].vectors(n, ld, t, v)
            }
            Side::Rust => rust_vectors(n, ld, t, v),
            Side::Lapack(lapack) => lapack.vectors(n, ld, t, v) as usize,
        }
    }

    /// LAPACK has no routine for this.
    #[inline(always)]
    pub fn values(&self, n: usize, ld: usize, t: &[f64], out: &mut Values) -> usize {
        match self {
            Side::Archive(copies, place) | Side::Stopping(copies, place) | Side::List(copies, place) => {
                copies[*place].values(n, ld, t, &mut out.re, &mut out.im)
            }
            Side::Rust => rust_values(n, ld, t, &mut out.all),
            Side::Lapack(_) => unreachable!("LAPACK has no routine that only reads the values off a form"),
        }
    }

    /// The values where of each 2-block a copy is standardised first. The Rust and LAPACK have no routine
    /// for a form: a loop of ours calls theirs for a 2-block.
    #[inline(always)]
    pub fn standardised(&self, n: usize, ld: usize, t: &[f64], out: &mut Values) -> usize {
        match self {
            Side::Archive(copies, place) | Side::Stopping(copies, place) | Side::List(copies, place) => {
                return copies[*place].standardised(n, ld, t, &mut out.re, &mut out.im);
            }
            Side::Rust => rust_standardised(n, ld, t, &mut out.all),
            Side::Lapack(lapack) => lapack.standardised(n, ld, t, &mut out.re, &mut out.im),
        }
        0
    }

    /// The reflection of a column, its head first; hands back 0 unless it is refused. The further results
    /// are tau, head_with_beta_inv and the norm; LAPACK has only a tau.
    #[inline(always)]
    pub fn reflect(&self, column: &mut [f64], further: &mut [f64; 3]) -> usize {
        let (head, tail) = column.split_first_mut().unwrap();
        match self {
            Side::Archive(copies, place) | Side::Stopping(copies, place) | Side::List(copies, place) => {
                return copies[*place].reflect(head, tail, further);
            }
            Side::Rust => rust_reflect(head, tail, further),
            Side::Lapack(lapack) => lapack.reflect(head, tail, &mut further[0]),
        }
        0
    }
}

/// Moves as one call takes them, from and to of each in turn, and where it writes four results a move.
pub struct List {
    pub moves: Vec<usize>,
    pub results: Vec<usize>,
}

impl List {
    pub fn of(moves: &[(usize, usize)]) -> List {
        List { moves: moves.iter().flat_map(|&(from, to)| [from, to]).collect(), results: vec![0; 4 * moves.len()] }
    }
}

/// Where a side writes values: an archive and LAPACK in two lists, the Rust in one.
pub struct Values {
    re: Vec<f64>,
    im: Vec<f64>,
    all: Vec<Complex<f64>>,
}

impl Values {
    pub fn new(n: usize) -> Values {
        Values { re: vec![0.0; n], im: vec![0.0; n], all: vec![Complex::new(0.0, 0.0); n] }
    }

    /// What an archive and the Rust wrote is the same in every bit.
    pub fn agree(&self) -> bool {
        let bits = |x: &[f64]| x.iter().map(|x| x.to_bits()).collect::<Vec<u64>>();
        let (re, im): (Vec<f64>, Vec<f64>) = self.all.iter().map(|x| (x.re, x.im)).unzip();
        bits(&self.re) == bits(&re) && bits(&self.im) == bits(&im)
    }

    /// What an archive and LAPACK wrote is the same up to rounding.
    pub fn near(&self, other: &Values) -> bool {
        let near = |x: &[f64], y: &[f64]| x.iter().zip(y).all(|(x, y)| (x - y).abs() < 1e-10);
        near(&self.re, &other.re) && near(&self.im, &other.im)
    }
}

#[inline(never)]
fn rust_reorder(n: usize, ld: usize, t: &mut [f64], u: &mut [f64], from: usize, to: usize) -> usize {
    let factor = if u.is_empty() { None } else { Some(MatMut::with_stride(u, n, n, ld)) };
    eigen::reorder_schur(MatMut::with_stride(t, n, n, ld), factor, from, to);
    0
}

/// The plain branch of the solvers, as document 01 asks.
const PARAMS: EvdFromSchurParams = EvdFromSchurParams { recursion_threshold: 65 };

#[inline(never)]
fn rust_vectors(n: usize, ld: usize, t: &[f64], v: &mut [f64]) -> usize {
    let (form, vectors) = (MatRef::with_stride(t, n, n, ld), MatMut::with_stride(v, n, n, ld));
    evd::evd_from_real_schur_imp(form, vectors, Par::Seq, PARAMS);
    0
}

/// The Rust's loop writes vectors too; here they have no rows.
#[inline(never)]
fn rust_values(n: usize, ld: usize, t: &[f64], values: &mut [Complex<f64>]) -> usize {
    let (form, mut unused) = (MatRef::with_stride(t, n, n, ld), []);
    eigen::block_values(form, MatRef::from_slice(&[], 0, n), values, MatMut::from_slice(&mut unused, 0, n));
    0
}

/// The loop is ours, as in the oracle.
#[inline(never)]
fn rust_standardised(n: usize, ld: usize, t: &[f64], values: &mut [Complex<f64>]) {
    let form = MatRef::with_stride(t, n, n, ld);
    let mut i = 0;
    while i < n {
        if i + 1 == n || form[(i + 1, i)] == 0.0 {
            values[i] = Complex::new(form[(i, i)], 0.0);
            i += 1;
            continue;
        }
        let ((a, _, c, d), (_, size), ..) =
            leaves::lahqr_schur22(form[(i, i)], form[(i, i + 1)], form[(i + 1, i)], form[(i + 1, i + 1)]);
        let [first, second] = if c == 0.0 { [0.0, 0.0] } else { [size, -size] };
        (values[i], values[i + 1]) = (Complex::new(a, first), Complex::new(d, second));
        i += 2;
    }
}

#[inline(never)]
fn rust_reflect(head: &mut f64, tail: &mut [f64], further: &mut [f64; 3]) {
    let rows = tail.len();
    let info = householder::make_householder_in_place(head, MatMut::from_slice(tail, rows, 1).col_mut(0));
    *further = [info.tau, info.head_with_beta_inv, info.norm];
}

#[inline(never)]
pub extern "C" fn rust_hypot(p: f64, q: f64) -> f64 {
    arith::hypot(p, q)
}

/// One instruction, of this very kind: the compiler cannot take two roots at once.
#[inline(always)]
pub fn hardware_sqrt(x: f64) -> f64 {
    #[cfg(target_arch = "x86_64")]
    {
        let root: f64;
        unsafe {
            core::arch::asm!("sqrtsd {0}, {1}", lateout(xmm_reg) root, in(xmm_reg) x, options(pure, nomem, nostack))
        };
        root
    }
    #[cfg(not(target_arch = "x86_64"))]
    crate::opaque::black_box(x).sqrt()
}

/// The same behind a call, as our root is.
#[inline(never)]
pub extern "C" fn called_sqrt(x: f64) -> f64 {
    hardware_sqrt(x)
}
