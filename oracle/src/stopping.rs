//! The move that stops, which the Rust does not have: a reference of ours, from Note 6 of document 02.
//! Which exchanges it makes is LAPACK's dtrexc, with its names, rows from 0; when one fails is its
//! dlaexc. All arithmetic below these is the Rust's own.

use crate::arith::{self, EPS, MIN_POSITIVE, abs, fmax};
use crate::note;
use crate::shim::*;
use crate::taken::leaves;

/// What an accepted move answers beside 0 and its buffers.
#[derive(Debug, PartialEq)]
pub struct Stopped {
    pub stopped: bool,
    pub here: usize,
    pub swaps: usize,
    pub declined: usize,
}

/// INFO = 1 of dlaexc.
struct Failed;
type Tested = Result<(), Failed>;

struct Move<'a> {
    n: usize,
    t: &'a mut [f64],
    u: &'a mut [f64],
    here: usize,
    swaps: usize,
    declined: usize,
    /// The swaps before the step that the move is in.
    before: usize,
}

/// An accepted move; a factor of length 0 is none.
pub fn reorder(n: usize, t: &mut [f64], u: &mut [f64], from: usize, to: usize) -> Stopped {
    let mut m = Move { n, t, u, here: 0, swaps: 0, declined: 0, before: 0 };
    let stopped = m.dtrexc(from, to).is_err();
    Stopped { stopped, here: m.here, swaps: m.swaps, declined: m.declined }
}

// ---- dtrexc

impl Move<'_> {
    fn at(&self, i: usize, j: usize) -> f64 {
        self.t[i + self.n * j]
    }

    /// The first row of the block that a row is in.
    fn first_of(&self, row: usize) -> usize {
        if row > 0 && self.at(row, row - 1) != 0.0 { row - 1 } else { row }
    }

    /// The size of the block that begins at a row.
    fn size_from(&self, row: usize) -> usize {
        if row + 1 < self.n && self.at(row + 1, row) != 0.0 { 2 } else { 1 }
    }

    /// The size of the block right above a row.
    fn size_above(&self, row: usize) -> usize {
        if row >= 2 && self.at(row - 1, row - 2) != 0.0 { 2 } else { 1 }
    }

    fn dtrexc(&mut self, from: usize, to: usize) -> Tested {
        let (ifst, mut ilst) = (self.first_of(from), self.first_of(to));
        let (mut nbf, nbl) = (self.size_from(ifst), self.size_from(ilst));
        self.here = ifst;
        if ifst < ilst {
            match (nbf, nbl) {
                (2, 1) => ilst -= 1,
                (1, 2) => ilst += 1,
                _ => {}
            }
            while self.here < ilst {
                self.before = self.swaps;
                if nbf == 3 { self.parted_below()? } else { nbf = self.whole_below(nbf)? }
            }
        } else {
            while self.here > ilst {
                self.before = self.swaps;
                if nbf == 3 { self.parted_above()? } else { nbf = self.whole_above(nbf)? }
            }
        }
        Ok(())
    }

    /// The moved block as it now is: a 2-block that came apart goes on as 3.
    fn nbf_after(&self, nbf: usize) -> usize {
        if nbf == 2 && self.at(self.here + 1, self.here) == 0.0 {
            note::split();
            return 3;
        }
        nbf
    }

    fn whole_below(&mut self, nbf: usize) -> Result<usize, Failed> {
        let nbnext = self.size_from(self.here + nbf);
        self.exchange(self.here, nbf, nbnext)?;
        self.here += nbnext;
        Ok(self.nbf_after(nbf))
    }

    fn whole_above(&mut self, nbf: usize) -> Result<usize, Failed> {
        let nbnext = self.size_above(self.here);
        self.exchange(self.here - nbnext, nbnext, nbf)?;
        self.here -= nbnext;
        Ok(self.nbf_after(nbf))
    }

    /// Two single rows pass the next block below, the lower row first; the block may come apart between.
    fn parted_below(&mut self) -> Tested {
        let here = self.here;
        let nbnext = self.size_from(here + 2);
        self.exchange(here + 1, 1, nbnext)?;
        if nbnext == 1 {
            self.exchange(here, 1, 1)?;
        } else if self.at(here + 2, here + 1) != 0.0 {
            self.exchange(here, 1, 2)?;
        } else {
            self.exchange(here, 1, 1)?;
            self.exchange(here + 1, 1, 1)?;
        }
        self.here += nbnext;
        Ok(())
    }

    /// The same past the next block above, the upper row first.
    fn parted_above(&mut self) -> Tested {
        let here = self.here;
        let nbnext = self.size_above(here);
        self.exchange(here - nbnext, nbnext, 1)?;
        if nbnext == 1 {
            self.exchange(here, 1, 1)?;
        } else if self.at(here, here - 1) != 0.0 {
            self.exchange(here - 1, 2, 1)?;
        } else {
            self.exchange(here, 1, 1)?;
            self.exchange(here - 1, 1, 1)?;
        }
        self.here -= nbnext;
        Ok(())
    }
}

// ---- dlaexc, over 01's swaps and 01's standardising

impl Move<'_> {
    /// The rows from j on, n1 of them with the n2 below; of a test that fails nothing is written.
    fn exchange(&mut self, j: usize, n1: usize, n2: usize) -> Tested {
        let whole = |j: usize, size: usize| size == 1 || self.at(j + 1, j) != 0.0;
        assert!(whole(j, n1) && whole(j + n1, n2), "two rows with a zero inside are never exchanged as one");
        self.swaps += 1;
        note::swap();
        let fails = match (n1, n2) {
            (1, 1) => self.swap(leaves::schur_swap_11, j),
            (2, 2) => self.swap(leaves::schur_swap_22, j),
            _ => {
                let window = self.window(j);
                let swap = if n1 == 1 { leaves::schur_swap_12 } else { leaves::schur_swap_21 };
                test_fails(n1, &window) || self.swap(swap, j)
            }
        };
        if fails {
            self.declined += 1;
            note::stop(n1, n2, self.swaps - self.before);
            return Err(Failed);
        }
        if n2 == 2 {
            self.standardise(j);
        }
        if n1 == 2 {
            self.standardise(j + n2);
        }
        Ok(())
    }

    /// One of the Rust's four; true if it declines.
    fn swap(&mut self, swap: Swap, j: usize) -> bool {
        let n = self.n;
        let factor = if self.u.is_empty() { None } else { Some(MatMut::from_slice(self.u, n, n)) };
        swap(MatMut::from_slice(self.t, n, n), factor, j) != 0
    }

    /// The three rows and columns from j on.
    fn window(&self, j: usize) -> [f64; 9] {
        let mut window = [0.0; 9];
        (0..9).for_each(|k| window[k] = self.at(j + k % 3, j + k / 3));
        window
    }

    /// 01's standardising of the 2-block at row j, with dlanv2's exchange: where the rotated block has b
    /// zero and c not, b becomes -c, c zero, and (cs, sn) becomes (-sn, cs). b comes out zero beside
    /// another c only where the block was rotated.
    fn standardise(&mut self, j: usize) {
        let (n, k) = (self.n, j + 1);
        let ((a, mut b, mut c, d), _, _, (mut cs, mut sn)) =
            leaves::lahqr_schur22(self.at(j, j), self.at(j, k), self.at(k, j), self.at(k, k));
        if b == 0.0 && c != 0.0 {
            note::zero_b();
            (b, c) = (-c, 0.0);
            (cs, sn) = (-sn, cs);
        }
        (self.t[j + n * j], self.t[j + n * k]) = (a, b);
        (self.t[k + n * j], self.t[k + n * k]) = (c, d);
        let turn = |list: &mut [f64], p: usize, q: usize| (list[p], list[q]) = arith::apply(cs, sn, list[p], list[q]);
        (k + 1..n).for_each(|col| turn(self.t, j + n * col, k + n * col));
        (0..j).for_each(|row| turn(self.t, row + n * j, row + n * k));
        (0..self.u.len() / n).for_each(|row| turn(self.u, row + n * j, row + n * k));
    }
}

type Swap = fn(MatMut<'_, f64>, Option<MatMut<'_, f64>>, usize) -> isize;

/// The window of three rows after the swap's reflections from both sides, before the swap sets zeros. The
/// Rust's own swap works it out. From the left it reflects the columns right of the window too: a copy
/// of the window there shows what that leaves. From the right it reflects the factor: with this for a
/// factor, both.
fn tried(n1: usize, window: &[f64; 9]) -> [f64; 9] {
    let swap: Swap = if n1 == 1 { leaves::schur_swap_12 } else { leaves::schur_swap_21 };
    let mut beside = [0.0; 36];
    for k in 0..9 {
        (beside[k % 3 + 6 * (k / 3)], beside[k % 3 + 6 * (k / 3 + 3)]) = (window[k], window[k]);
    }
    swap(MatMut::from_slice(&mut beside, 6, 6), None, 0);
    let (mut form, mut both) = (*window, [0.0; 9]);
    (0..9).for_each(|k| both[k] = beside[k % 3 + 6 * (k / 3 + 3)]);
    swap(MatMut::from_slice(&mut form, 3, 3), Some(MatMut::from_slice(&mut both, 3, 3)), 0);
    both
}

/// What dlaexc tests of a window of three rows: the two entries that are to become zero, and how far
/// the single row's diagonal number has changed. Then 01's threshold of the window.
pub fn tested(n1: usize, window: &[f64; 9]) -> ([f64; 3], f64) {
    let w = tried(n1, window);
    let numbers = if n1 == 1 { [w[2], w[5], w[8] - window[0]] } else { [w[1], w[2], w[0] - window[8]] };
    let dnorm = window.iter().fold(0.0, |most, x| fmax(most, abs(*x)));
    (numbers.map(abs), fmax(10.0 * EPS * dnorm, MIN_POSITIVE / EPS))
}

fn test_fails(n1: usize, window: &[f64; 9]) -> bool {
    let ([p, q, change], threshold) = tested(n1, window);
    fmax(fmax(p, q), change) > threshold
}

#[cfg(test)]
mod tests {
    use super::*;
    use crate::calls;
    use crate::generate::{self, USUAL};
    use crate::note::Notes;
    use crate::record::{Record, settle};

    const CALL: &str = "reorder_schur_stopping";

    fn bits(list: &[f64]) -> Vec<u64> {
        list.iter().map(|x| settle(*x).to_bits()).collect()
    }

    /// Accepted cases with their answers and notes.
    fn accepted(count: u64, mut each: impl FnMut(&Record, &Record, &Notes)) {
        for index in 0..count {
            let case = generate::case(CALL, 5, index, USUAL);
            let (answer, notes) = calls::answer(&case);
            if answer.n("answer") == 0 {
                each(&case, &answer, &notes);
            }
        }
    }

    /// The Rust's own move on the same form and factor.
    fn the_old(case: &Record) -> (Record, Notes) {
        calls::answer(&Record { call: "reorder_schur", fields: case.fields.clone() })
    }

    fn same_buffers(case: &Record, x: &Record, y: &Record) {
        ["t", "u"].iter().for_each(|key| assert_eq!(bits(x.l(key)), bits(y.l(key)), "{case}"));
    }

    /// A tried window, with the zeros set, is what the swap leaves of the window: in every window of
    /// three rows of the drawn forms.
    #[test]
    fn windows_are_tried_as_the_swap_works() {
        let mut seen = [0; 3];
        accepted(6000, |case, _, _| {
            let (n, t) = (case.n("n"), case.l("t"));
            for j in 0..n.saturating_sub(2) {
                let mut window = [0.0; 9];
                (0..9).for_each(|k| window[k] = t[j + k % 3 + n * (j + k / 3)]);
                let (n1, zeros) = match (window[1] != 0.0, window[5] != 0.0) {
                    (false, true) => (1, [2, 5]),
                    (true, false) => (2, [1, 2]),
                    _ => continue,
                };
                let mut tried = tried(n1, &window);
                zeros.iter().for_each(|k| tried[*k] = 0.0);
                let swap: Swap = if n1 == 1 { leaves::schur_swap_12 } else { leaves::schur_swap_21 };
                swap(MatMut::from_slice(&mut window, 3, 3), None, 0);
                assert_eq!(bits(&tried), bits(&window), "{case}");
                seen[n1] += 1;
            }
        });
        assert!(seen[1] > 1000 && seen[2] > 1000, "{seen:?}");
    }

    /// Stopped exactly when a test has failed, and then exactly one, the last; that no exchange has two
    /// rows with a zero inside is asserted in every one. Stops of every size occur, in steps of parted
    /// blocks too, and zeros for b.
    #[test]
    fn stops_at_the_first_that_fails() {
        let mut tally = crate::tally::Tally::default();
        accepted(20_000, |case, answer, notes| {
            assert_eq!(answer.n("stopped"), answer.n("declined"), "{case}");
            assert_eq!(answer.n("stopped") == 1, notes.stop.is_some(), "{case}");
            assert_eq!((answer.n("swaps"), answer.n("declined")), (notes.swaps, notes.declined), "{case}");
            tally.add(case, answer, notes);
        });
        for class in ["stopped at 1-2", "stopped at 2-1", "stopped at 2-2"] {
            assert!(tally.classes[class] > tally.answers[&0] / 50, "{tally}");
        }
        for class in ["stopped after other exchanges", "stopped in a step", "a zero b exchanged"] {
            assert!(tally.classes[class] > 50, "{tally}");
        }
    }

    /// On triangular forms it is the Rust's move; so it is wherever no test fails and no b is exchanged.
    #[test]
    fn otherwise_it_is_the_old_move() {
        let (mut triangular, mut others) = (0, 0);
        accepted(20_000, |case, answer, notes| {
            let (n, t) = (case.n("n"), case.l("t"));
            let single = (1..n).all(|i| t[i + n * (i - 1)] == 0.0);
            if notes.stop.is_some() || notes.zero_b > 0 {
                assert!(!single, "{case}");
                return;
            }
            let (old, _) = the_old(case);
            same_buffers(case, answer, &old);
            let counts = [answer.n("here"), answer.n("swaps"), answer.n("declined"), answer.n("stopped")];
            assert_eq!(counts, [old.n("landed"), old.n("swaps"), old.n("declined"), 0], "{case}");
            (triangular, others) = (triangular + usize::from(single), others + usize::from(!single));
        });
        assert!(triangular > 1000 && others > 5000, "{triangular} {others}");
    }

    /// What a stopped move leaves: the form and the factor of the exchanges before, which the same move
    /// makes on its way to `here` where it stops at a step's first exchange.
    #[test]
    fn a_stop_leaves_what_was_there() {
        let mut seen = 0;
        accepted(20_000, |case, answer, notes| {
            if notes.stop.map(|stop| stop.2) != Some(1) || notes.splits > 0 {
                return;
            }
            let here = answer.n("here");
            let (before, _) = calls::answer(&case.clone().num_set("to", here));
            let to_here = before.n("stopped") == 0 && before.n("here") == here;
            if to_here && before.n("swaps") + 1 == answer.n("swaps") {
                same_buffers(case, answer, &before);
                seen += 1;
            }
        });
        assert!(seen > 500, "{seen}");
    }

    /// The factor has no part in it.
    #[test]
    fn the_factor_has_no_part() {
        accepted(3000, |case, answer, _| {
            let (other, _) = calls::answer(&case.clone().list_set("u", Vec::new()));
            assert_eq!(bits(answer.l("t")), bits(other.l("t")), "{case}");
            calls::STOPPED.iter().for_each(|key| assert_eq!(answer.n(key), other.n(key), "{case}"));
        });
    }

    /// dlanv2's exchange: the block (2, -1), (1, 0) is rotated to (1, 0), (2, 1), which becomes (1, -2),
    /// (0, 1), and its rotation is turned by a right angle.
    #[test]
    fn a_zero_b_is_exchanged() {
        let ((a, b, c, d), _, _, (cs, sn)) = leaves::lahqr_schur22(2.0, -1.0, 1.0, 0.0);
        assert_eq!([a, b, c, d], [1.0, 0.0, 2.0, 1.0]);
        let (mut t, mut u) = ([2.0, 1.0, -1.0, 0.0], [1.0, 0.0, 0.0, 1.0]);
        Move { n: 2, t: &mut t, u: &mut u, here: 0, swaps: 0, declined: 0, before: 0 }.standardise(0);
        assert_eq!(bits(&t), bits(&[1.0, 0.0, -2.0, 1.0]));
        assert_eq!(bits(&u), bits(&[-sn, cs, -cs, -sn]));
    }
}
