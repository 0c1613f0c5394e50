//! Runs a case on the archive and writes its answer down as calls.rs does for the Rust.

use crate::bindings::*;
use crate::calls;
use crate::record::Record;
use crate::refuse::MOST_PAIRS;
use crate::{fault, stride};
use std::io;

type Values = unsafe extern "C" fn(usize, usize, *const f64, usize, *mut f64, usize, *mut f64, usize) -> usize;

/// What a result holds before a call: no result, and not a NaN.
const UNWRITTEN: u64 = 0x4c0f_fee4_c0ff_ee77;

/// Stops a command that needs an archive where there is none.
pub fn linked() -> io::Result<()> {
    match vx_abs() {
        Some(_) => Ok(()),
        None => Err(fault("nothing to compare with: build with VOLMEIXI_ARCHIVE")),
    }
}

/// The archive's answer, or `None` if the archive has no such call.
pub fn answer(case: &Record) -> Option<Record> {
    unsettled(case).map(Record::settled)
}

/// The same with NaNs as they came.
pub fn unsettled(case: &Record) -> Option<Record> {
    let answer = run(case)?;
    let strided = stride::taken_by(case.call);
    Some(if strided { stride::checked(case, answer) } else { answer })
}

fn run(case: &Record) -> Option<Record> {
    let one = |f: unsafe extern "C" fn(f64) -> f64| Record::new(case.call).float("r", unsafe { f(case.f("x")) });
    let two = |f: unsafe extern "C" fn(f64, f64) -> f64, p, q| {
        Record::new(case.call).float("r", unsafe { f(case.f(p), case.f(q)) })
    };
    Some(match stride::base_of(case.call) {
        "abs" => one(vx_abs()?),
        "abs1" => one(vx_abs1()?),
        "abs2" => one(vx_abs2()?),
        "recip" => one(vx_recip()?),
        "sqrt" => one(vx_sqrt()?),
        "mul_pow2" => two(vx_mul_pow2()?, "x", "p"),
        "fmax" => two(vx_fmax()?, "p", "q"),
        "fmin" => two(vx_fmin()?, "p", "q"),
        "hypot" => two(vx_hypot()?, "p", "q"),
        "norm_l2" => {
            let (f, x) = (vx_norm_l2()?, Given::new(case, "x"));
            let answer = Record::new(case.call).float("r", unsafe { f(x.first(), x.len()) });
            x.checked(answer)
        }
        "rotg" => {
            let (f, [mut c, mut s, mut r]) = (vx_rotg()?, unwritten());
            unsafe { f(case.f("p"), case.f("q"), &mut c, &mut s, &mut r) };
            calls::floats(Record::new(case.call), calls::ROTG, &[c, s, r])
        }
        "adjoint" => {
            let (f, [mut c, mut s]) = (vx_adjoint()?, unwritten());
            unsafe { f(case.f("c"), case.f("s"), &mut c, &mut s) };
            calls::floats(Record::new(case.call), calls::ADJOINT, &[c, s])
        }
        "apply" => {
            let (f, [mut x, mut y]) = (vx_apply()?, unwritten());
            unsafe { f(case.f("c"), case.f("s"), case.f("x"), case.f("y"), &mut x, &mut y) };
            calls::floats(Record::new(case.call), calls::APPLY, &[x, y])
        }
        "lahqr_schur22" => standardise(case)?,
        "make_householder_in_place" => reflect(case)?,
        "lasy2" => solve(case)?,
        "schur_swap" => exchange(case)?,
        "reorder_schur" => reorder(case)?,
        "reorder_schur_stopping" => reorder_stopping(case)?,
        "reorder_schur_list" => reorder_list(case)?,
        "block_values" => values(case, vx_block_values()?),
        "standardised_values" => values(case, vx_standardised_values()?),
        "evd_from_real_schur" => vectors(case)?,
        _ => return None,
    })
}

/// A buffer lent to be read only.
struct Given {
    before: Vec<f64>,
    lent: Vec<f64>,
}

impl Given {
    fn new(case: &Record, key: &str) -> Given {
        Given { before: case.l(key).to_vec(), lent: case.l(key).to_vec() }
    }

    fn first(&self) -> *const f64 {
        self.lent.as_ptr()
    }

    fn len(&self) -> usize {
        self.lent.len()
    }

    /// The answer, marked if the call wrote to this buffer.
    fn checked(&self, answer: Record) -> Record {
        let same = self.lent.iter().zip(&self.before).all(|(x, y)| x.to_bits() == y.to_bits());
        if same { answer } else { answer.list("written", self.lent.clone()) }
    }
}

fn unwritten<const N: usize>() -> [f64; N] {
    [f64::from_bits(UNWRITTEN); N]
}

fn numbered(case: &Record, number: usize) -> Record {
    Record::new(case.call).num("answer", number)
}

fn standardise(case: &Record) -> Option<Record> {
    let f = vx_lahqr_schur22()?;
    let [mut a, mut b, mut c, mut d] = unwritten();
    let [mut re1, mut im1, mut re2, mut im2, mut cs, mut sn] = unwritten();
    let number = unsafe {
        f(
            case.f("a"),
            case.f("b"),
            case.f("c"),
            case.f("d"),
            &mut a,
            &mut b,
            &mut c,
            &mut d,
            &mut re1,
            &mut im1,
            &mut re2,
            &mut im2,
            &mut cs,
            &mut sn,
        )
    };
    Some(calls::floats(numbered(case, number), calls::STANDARDISED, &[a, b, c, d, re1, im1, re2, im2, cs, sn]))
}

fn reflect(case: &Record) -> Option<Record> {
    let f = vx_make_householder_in_place()?;
    let mut tail = case.l("tail").to_vec();
    let [mut head, mut tau, mut inv, mut norm] = unwritten();
    let number = unsafe { f(case.f("head"), tail.as_mut_ptr(), tail.len(), &mut head, &mut tau, &mut inv, &mut norm) };
    Some(calls::floats(numbered(case, number), calls::REFLECTION, &[head, tau, inv, norm]).list("tail", tail))
}

fn solve(case: &Record) -> Option<Record> {
    let f = vx_lasy2()?;
    let [tl, tr, b] = ["tl", "tr", "b"].map(|key| Given::new(case, key));
    assert_eq!([tl.len(), tr.len(), b.len()], [4; 3], "lasy2 reads four numbers of each");
    let ([mut scale], mut x) = (unwritten(), unwritten::<4>());
    unsafe { f(tl.first(), tr.first(), b.first(), x.as_mut_ptr(), &mut scale) };
    let answer = calls::floats(Record::new(case.call), calls::SOLUTION, &[x[0], x[1], x[2], x[3], scale]);
    Some([tl, tr, b].iter().fold(answer, |answer, given| given.checked(answer)))
}

fn exchange(case: &Record) -> Option<Record> {
    let f = vx_schur_swap()?;
    let (mut t, mut u) = (case.l("t").to_vec(), case.l("u").to_vec());
    let (n, ld, j0, n1, n2) = (case.n("n"), stride::of(case), case.n("j0"), case.n("n1"), case.n("n2"));
    let [mut swaps, mut declined] = [UNWRITTEN as usize; 2];
    let number =
        unsafe { f(n, ld, t.as_mut_ptr(), t.len(), u.as_mut_ptr(), u.len(), j0, n1, n2, &mut swaps, &mut declined) };
    Some(calls::counts(numbered(case, number), calls::EXCHANGED, &[swaps, declined]).list("t", t).list("u", u))
}

fn reorder(case: &Record) -> Option<Record> {
    let f = vx_reorder_schur()?;
    let (mut t, mut u) = (case.l("t").to_vec(), case.l("u").to_vec());
    let (n, ld, from, to) = (case.n("n"), stride::of(case), case.n("from"), case.n("to"));
    let [mut landed, mut swaps, mut declined] = [UNWRITTEN as usize; 3];
    let number = unsafe {
        f(n, ld, t.as_mut_ptr(), t.len(), u.as_mut_ptr(), u.len(), from, to, &mut landed, &mut swaps, &mut declined)
    };
    Some(calls::counts(numbered(case, number), calls::MOVED, &[landed, swaps, declined]).list("t", t).list("u", u))
}

fn reorder_stopping(case: &Record) -> Option<Record> {
    let f = vx_reorder_schur_stopping()?;
    let (mut t, mut u) = (case.l("t").to_vec(), case.l("u").to_vec());
    let (n, ld, from, to) = (case.n("n"), stride::of(case), case.n("from"), case.n("to"));
    let (mut stopped, [mut here, mut swaps, mut declined]) = (UNWRITTEN as u8, [UNWRITTEN as usize; 3]);
    let number = unsafe {
        f(
            n,
            ld,
            t.as_mut_ptr(),
            t.len(),
            u.as_mut_ptr(),
            u.len(),
            from,
            to,
            &mut stopped,
            &mut here,
            &mut swaps,
            &mut declined,
        )
    };
    let results = [usize::from(stopped), here, swaps, declined];
    Some(calls::counts(numbered(case, number), calls::STOPPED, &results).list("t", t).list("u", u))
}

/// The answer is marked if the call wrote to the moves, or past the results.
fn reorder_list(case: &Record) -> Option<Record> {
    let f = vx_reorder_schur_list()?;
    let (mut t, mut u) = (case.l("t").to_vec(), case.l("u").to_vec());
    let (n, ld, moves, len) = (case.n("n"), stride::of(case), case.ns("moves").to_vec(), case.ns("results").len());
    let past = [UNWRITTEN as usize; 4 * (MOST_PAIRS + 1)];
    let mut room = [case.ns("results"), &past].concat();
    let number = unsafe {
        f(n, ld, t.as_mut_ptr(), t.len(), u.as_mut_ptr(), u.len(), moves.as_ptr(), moves.len(), room.as_mut_ptr(), len)
    };
    let (results, after) = room.split_at(len);
    let answer = numbered(case, number).list("t", t).list("u", u).nums("results", results.to_vec());
    let answer = if after == past { answer } else { answer.nums("past", after.to_vec()) };
    Some(if moves == case.ns("moves") { answer } else { answer.nums("written", moves) })
}

/// The values by one of the two readings, which take the same arguments.
fn values(case: &Record, f: Values) -> Record {
    let t = Given::new(case, "t");
    let (mut re, mut im) = (case.l("re").to_vec(), case.l("im").to_vec());
    let (n, ld) = (case.n("n"), stride::of(case));
    let number = unsafe { f(n, ld, t.first(), t.len(), re.as_mut_ptr(), re.len(), im.as_mut_ptr(), im.len()) };
    t.checked(numbered(case, number).list("re", re).list("im", im))
}

fn vectors(case: &Record) -> Option<Record> {
    let (f, t) = (vx_evd_from_real_schur()?, Given::new(case, "t"));
    let mut v = case.l("v").to_vec();
    let (n, ld) = (case.n("n"), stride::of(case));
    let number = unsafe { f(n, ld, t.first(), t.len(), v.as_mut_ptr(), v.len()) };
    Some(t.checked(numbered(case, number).list("v", v)))
}
