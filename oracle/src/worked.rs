//! Document 01's worked values, and the edges of a stride.

use crate::calls;
use crate::record::Record;
use crate::sheet;
use crate::shim::MatMut;
use crate::taken::householder;

fn words(numbers: &[f64]) -> String {
    let words: Vec<String> = numbers.iter().map(|x| format!("{:016x}", x.to_bits())).collect();
    words.join(",")
}

fn answer(case: &str) -> Record {
    calls::answer(&Record::parse(case).unwrap()).0
}

fn float(call: &str, given: &[(&str, f64)], key: &str) -> f64 {
    let fields: String = given.iter().map(|(k, x)| format!(" {k}={:016x}", x.to_bits())).collect();
    answer(&format!("{call}{fields}")).f(key)
}

fn same(x: f64, y: f64) {
    assert_eq!(x.to_bits(), y.to_bits(), "{x} is not {y}");
}

fn diagonal(numbers: &[f64]) -> Vec<f64> {
    let n = numbers.len();
    (0..n * n).map(|k| if k % n == k / n { numbers[k / n] } else { 0.0 }).collect()
}

fn moved(n: usize, t: &[f64], from: usize, to: usize) -> Record {
    answer(&format!("reorder_schur n={n} t={} u= from={from} to={to}", words(t)))
}

fn exchanged(n: usize, t: &[f64], j0: usize, n1: usize, n2: usize) -> Record {
    answer(&format!("schur_swap n={n} t={} u= j0={j0} n1={n1} n2={n2}", words(t)))
}

/// The 2-block of rows (0, 1) and (-1, 0).
const TURN: [f64; 4] = [0.0, -1.0, 1.0, 0.0];

#[test]
fn roots() {
    same(float("sqrt", &[("x", 4.0)], "r"), 2.0);
    same(float("sqrt", &[("x", f64::from_bits(1))], "r"), 2f64.powi(-537));
    same(float("sqrt", &[("x", -0.0)], "r"), -0.0);
    same(float("hypot", &[("p", 3.0), ("q", 4.0)], "r"), 5.0);
}

#[test]
fn rotations() {
    let given = [("p", 3.0), ("q", 4.0)];
    same(float("rotg", &given, "r"), 5.0);
    same(float("rotg", &given, "c"), 0.6);
    same(float("rotg", &given, "s"), -0.8);
    same(float("rotg", &[("p", 7.0), ("q", -0.0)], "s"), 0.0);
    same(float("rotg", &[("p", 0.0), ("q", 7.0)], "s"), -1.0);
    same(float("adjoint", &[("c", 1.0), ("s", 0.0)], "s"), -0.0);
}

#[test]
fn standardising() {
    let of = |a: f64, b: f64, c: f64, d: f64| {
        let given = [("a", a), ("b", b), ("c", c), ("d", d)];
        ["a", "b", "c", "d", "s1im", "cs", "sn"].map(|key| float("lahqr_schur22", &given, key))
    };
    assert_eq!(of(5.0, 0.0, 2.0, 7.0), [7.0, -2.0, 0.0, 5.0, 0.0, 0.0, 1.0]);
    assert_eq!(of(0.0, 1.0, -1.0, 0.0), [0.0, 1.0, -1.0, 0.0, 1.0, 1.0, 0.0]);
}

#[test]
fn moves_on_a_diagonal() {
    let t = diagonal(&[1.0, 2.0, 3.0]);
    let down = moved(3, &t, 0, 2);
    assert_eq!([down.n("landed"), down.n("swaps"), down.n("declined")], [2, 2, 0]);
    assert_eq!([down.l("t")[0], down.l("t")[4], down.l("t")[8]], [2.0, 3.0, 1.0]);
    let up = moved(3, &t, 2, 0);
    assert_eq!([up.l("t")[0], up.l("t")[4], up.l("t")[8]], [3.0, 1.0, 2.0]);
}

#[test]
fn a_block_on_its_own() {
    let stay = moved(2, &TURN, 1, 0);
    assert_eq!([stay.n("answer"), stay.n("landed"), stay.n("swaps")], [0, 0, 0]);
    assert_eq!(exchanged(2, &TURN, 0, 1, 1).n("answer"), 10);
}

#[test]
fn eigenvectors() {
    let of = |t: &[f64], v: &[f64]| {
        answer(&format!("evd_from_real_schur n=2 t={} v={}", words(t), words(v))).l("v").to_vec()
    };
    assert_eq!(of(&[1.0, 0.0, 1.0, 2.0], &[9.0; 4])[2..], [1.0, 1.0]);
    let zero = of(&[0.0; 4], &[9.0; 4]);
    same(zero[2], -0.0);
    same(zero[1], 9.0);
}

#[test]
fn a_sign_that_is_not_one() {
    let r = answer(&format!("make_householder_in_place head={} tail={}", words(&[49.0]), words(&[1.0])));
    let sign = 49.0 * (1.0 / 49.0);
    assert_ne!(sign, 1.0);
    same(r.f("head"), -(sign * r.f("norm")));
}

/// Note 5 of document 02: the real pair in its order, with +0 beside each, or the complex pair; the
/// diagonal numbers of an already standardised block as they are, zeros of unlike sign too.
#[test]
fn standardised_values() {
    let of = |a: f64, b: f64, c: f64, d: f64| {
        let (t, lent) = (words(&[a, c, b, d]), words(&[9.0; 2]));
        let values = answer(&format!("standardised_values n=2 t={t} re={lent} im={lent}"));
        assert_eq!(values.n("answer"), 0);
        [values.l("re")[0], values.l("im")[0], values.l("re")[1], values.l("im")[1]]
    };
    let same_all = |x: [f64; 4], y: [f64; 4]| x.iter().zip(&y).for_each(|(x, y)| same(*x, *y));
    same_all(of(5.0, 0.0, 2.0, 7.0), [7.0, 0.0, 5.0, 0.0]);
    same_all(of(0.0, 1.0, 1.0, 0.0), [1.0, 0.0, -1.0, 0.0]);
    same_all(of(0.0, 1.0, -1.0, 0.0), [0.0, 1.0, 0.0, -1.0]);
    same_all(of(0.0, 4.0, -1.0, -0.0), [0.0, 2.0, -0.0, -2.0]);
    same_all(of(-2.0, -1.0, 1.0, 0.0), [-1.0, 0.0, -1.0, -0.0]);
    same_all(of(3.0, 4.0, -0.0, 5.0), [3.0, 0.0, 5.0, 0.0]);
    let nan = of(0.0, 1.0, f64::NAN, -0.0);
    same(nan[0], 0.0);
    same(nan[2], -0.0);
    assert!(nan[1].is_nan() && nan[3].is_nan());
}

const SHEET: &str = "n=2\nfrom=0\nto=1\n\
    t=3ff0000000000000 0000000000000000 0000000000000000 4000000000000000\n\
    u=3ff0000000000000 0000000000000000 0000000000000000 3ff0000000000000\n";

#[test]
fn the_sheet_of_two_rows() {
    let expected = "answer=0\nlanded=1\nswaps=1\ndeclined=0\n\
        t=4000000000000000 0000000000000000 0000000000000000 3ff0000000000000\n\
        u=0000000000000000 3ff0000000000000 bff0000000000000 0000000000000000\n";
    assert_eq!(String::from_utf8(sheet::run(SHEET.as_bytes())).unwrap(), expected);
}

#[test]
fn sheets_turned_away() {
    let of = |text: String| String::from_utf8(sheet::run(text.as_bytes())).unwrap();
    let changed = |from: &str, to: &str| of(SHEET.replacen(from, to, 1));
    assert_eq!(changed("n=2", "n=02"), "answer=1\n");
    assert_eq!(changed("n=2", "n=00002"), "answer=1\n");
    assert_eq!(changed("t=3", "t= 3"), "answer=1\n");
    assert_eq!(changed("t=3f", "t=3F"), "answer=1\n");
    assert_eq!(of(format!("{SHEET}\n")), "answer=1\n");
    assert_eq!(of(SHEET.trim_end().to_string()), "answer=1\n");
    assert_eq!(changed("n=2", "n=0"), "answer=2\n");
    assert_eq!(changed("n=2", "n=33"), "answer=2\n");
    assert_eq!(changed("n=2", "n=32"), "answer=3\n");
    assert_eq!(changed("u=3ff0000000000000 ", "u="), "answer=4\n");
    assert_eq!(changed("to=1", "to=2"), "answer=7\n");
}

#[test]
fn numbers_of_the_lines() {
    let of = |n: usize, len: usize, from: usize| {
        let t = words(&vec![0.0; len]);
        answer(&format!("reorder_schur n={n} t={t} u= from={from} to=0")).n("answer")
    };
    assert_eq!([of(0, 0, 0), of(65, 65 * 65, 0), of(64, 64 * 64, 0)], [2, 2, 0]);
    assert_eq!([of(3, 8, 0), of(3, 9, 2), of(3, 9, 3)], [3, 0, 7]);
    let mut t = diagonal(&[1.0, 2.0, 3.0, 4.0]);
    assert_eq!(exchanged(4, &t, 0, 3, 1).n("answer"), 8);
    assert_eq!(exchanged(4, &t, 3, 1, 1).n("answer"), 9);
    t[1] = f64::NAN;
    assert_eq!(exchanged(4, &t, 1, 1, 1).n("answer"), 10);
    assert_eq!(exchanged(4, &t, 2, 1, 1).n("answer"), 0);
    t[6] = -0.0;
    assert_eq!(exchanged(4, &t, 2, 1, 1).n("answer"), 0);
    t[6] = 1.0;
    assert_eq!(exchanged(4, &t, 2, 1, 1).n("answer"), 6);
    t[3] = f64::NAN;
    assert_eq!(exchanged(4, &t, 2, 1, 1).n("answer"), 5);
    let tail = |len: usize| {
        answer(&format!("make_householder_in_place head={} tail={}", words(&[1.0]), words(&vec![1.0; len]))).n("answer")
    };
    assert_eq!([tail(0), tail(1), tail(64), tail(65)], [11, 0, 0, 11]);
}

/// The Rust itself has no line 11 (docs/DIFFERENCES.md).
#[test]
fn the_rust_takes_any_tail() {
    for mut tail in [vec![], vec![0.0; 65]] {
        let (mut head, rows) = (1.0, tail.len());
        let info = householder::make_householder_in_place(&mut head, MatMut::from_slice(&mut tail, rows, 1).col_mut(0));
        let results = [head, info.tau, info.head_with_beta_inv, info.norm];
        assert_eq!(results, [1.0, f64::INFINITY, f64::INFINITY, 1.0]);
    }
}

#[test]
fn strides() {
    let of = |n: usize, ld: usize, len: usize, from: usize| {
        let t = words(&vec![0.0; len]);
        answer(&format!("reorder_schur_ld n={n} ld={ld} t={t} u= from={from} to=0")).n("answer")
    };
    assert_eq!([of(0, 0, 0, 0), of(65, 128, 65 * 128, 0), of(65, 129, 0, 0), of(64, 128, 64 * 128, 63)], [2, 2, 2, 0]);
    assert_eq!([of(3, 2, 6, 0), of(3, 3, 9, 0), of(1, 128, 128, 0), of(1, 129, 129, 0)], [17, 0, 0, 17]);
    assert_eq!([of(4, usize::MAX, 16, 0), of(4, 1 << 62 | 5, 20, 0)], [17, 17]);
    assert_eq!([of(3, 4, 9, 0), of(3, 4, 12, 2), of(3, 4, 12, 3)], [3, 0, 7]);
    let values = |t: &[f64]| answer(&format!("block_values_ld n=1 ld=2 t={} re={1} im={1}", words(t), words(&[9.0])));
    let single = values(&[3.0, f64::NAN]);
    assert_eq!((single.n("answer"), single.l("re"), single.l("im")), (0, &[3.0][..], &[0.0][..]));
    let part = |col: usize| {
        let v = words(&[1.0, 2.0, 3.0, 4.0, 5.0, 6.0]);
        answer(&format!("column_ld n=2 ld=3 v={v} col={col}")).l("part").to_vec()
    };
    assert_eq!([part(0), part(1), part(2)], [vec![1.0, 2.0], vec![4.0, 5.0], vec![]]);
}
