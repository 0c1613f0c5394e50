//! Document 01's worked values, every refusal, that a refused call leaves its buffers, and that at
//! every stride a call gives what it gives without gaps and leaves the rows beyond, and that a list of
//! moves is its single calls in turn.

use volmeixi::*;

/// The 2-block of rows (0, 1) and (-1, 0).
const TURN: [f64; 4] = [0.0, -1.0, 1.0, 0.0];

/// Rows with a pair among them, as in examples/slow-mode.txt.
#[rustfmt::skip]
const SIX: [f64; 36] = [
    -3.0, 0.0, 0.0, 0.0, 0.0, 0.0,
    0.5, -0.5, -1.5, 0.0, 0.0, 0.0,
    -0.25, 2.0, -0.5, 0.0, 0.0, 0.0,
    1.0, 0.375, 0.625, -1.25, 0.0, 0.0,
    0.125, -0.5, 0.875, 0.5, -2.0, 0.0,
    0.75, 0.25, -0.125, -0.75, 0.25, -0.0625,
];

/// Two 2-blocks of equal values and other scales, whose swap declines.
#[rustfmt::skip]
const ALIKE: [f64; 16] = [
    0.0, -1.0, 0.0, 0.0,
    1.0, 0.0, 0.0, 0.0,
    1.0, 0.0, 0.0, -1e-8,
    0.0, 1.0, 1e8, 0.0,
];

/// The same two with another pair between them, which both can pass.
#[rustfmt::skip]
const ALIKE_APART: [f64; 36] = [
    0.0, -1.0, 0.0, 0.0, 0.0, 0.0,
    1.0, 0.0, 0.0, 0.0, 0.0, 0.0,
    0.0, 0.0, 4.0, -2.0, 0.0, 0.0,
    0.0, 0.0, 2.0, 4.0, 0.0, 0.0,
    1.0, 0.0, 0.0, 0.0, 0.0, -1e-8,
    0.0, 1.0, 0.0, 0.0, 1e8, 0.0,
];

fn same(x: f64, y: f64) {
    assert_eq!(x.to_bits(), y.to_bits(), "{x} is not {y}");
}

fn diagonal(numbers: &[f64]) -> Vec<f64> {
    let n = numbers.len();
    (0..n * n).map(|k| if k % n == k / n { numbers[k / n] } else { 0.0 }).collect()
}

fn bits(x: &[f64]) -> Vec<u64> {
    x.iter().map(|x| x.to_bits()).collect()
}

/// n rows at a stride; in the rows beyond stand numbers that no form could have there.
fn spread(n: usize, stride: usize, rows: &[f64]) -> Vec<f64> {
    let others = [f64::NAN, f64::INFINITY, 5e-324, -7.0, -0.0];
    let at = |i, j| if i < n { rows[i + n * j] } else { others[(i + j) % 5] };
    (0..stride * n).map(|k| at(k % stride, k / stride)).collect()
}

/// The refusal of a call on form and factor, both of which it must leave.
fn refused<T: std::fmt::Debug>(
    t: &[f64],
    u: &[f64],
    call: impl FnOnce(&mut [f64], Option<&mut [f64]>) -> Result<T, Refusal>,
) -> Refusal {
    let (mut lent_t, mut lent_u) = (t.to_vec(), u.to_vec());
    let refusal = call(&mut lent_t, Some(&mut lent_u)).unwrap_err();
    assert_eq!((bits(&lent_t), bits(&lent_u)), (bits(t), bits(u)));
    refusal
}

#[test]
fn roots() {
    same(sqrt(4.0), 2.0);
    same(sqrt(f64::from_bits(1)), 2f64.powi(-537)); // of 2^-1074
    same(sqrt(-0.0), -0.0);
    same(hypot(3.0, 4.0), 5.0);
    same(hypot(2.0, 3.0), 3.605551275463989);
    same(hypot(-0.0, -0.0), 0.0);
    same(norm_l2(&[-2.0, 3.0, 6.0]), hypot(hypot(2.0, 3.0), 6.0));
    same(fmax(0.0, -0.0), -0.0);
    same(abs1(-0.0), 0.0);
}

#[test]
fn rotations() {
    let g = rotg(3.0, 4.0);
    assert_eq!((g.rot.c, g.rot.s, g.r), (0.6, -0.8, 5.0));
    same(rotg(7.0, -0.0).rot.s, 0.0);
    same(rotg(0.0, 7.0).rot.s, -1.0);
    same(adjoint(JacobiRotation { c: 1.0, s: 0.0 }).s, -0.0);
    assert_eq!(apply(JacobiRotation { c: 2.0, s: 3.0 }, 5.0, 7.0), (31.0, -1.0));
}

#[test]
fn a_sign_that_is_not_one() {
    let mut tail = [1.0];
    let r = make_householder_in_place(49.0, &mut tail).unwrap();
    let sign = 49.0 * (1.0 / 49.0);
    assert_ne!(sign, 1.0);
    same(r.head, -(sign * r.norm));
    same(tail[0], r.head_with_beta_inv);
}

#[test]
fn tails() {
    for len in 1..=64 {
        let given: Vec<f64> = (0..len).map(|i| i as f64 - 20.5).collect();
        let mut tail = given.clone();
        let r = make_householder_in_place(-3.0, &mut tail).unwrap();
        tail.iter().zip(given).for_each(|(x, y)| same(*x, y * r.head_with_beta_inv));
    }
    let mut tail = [1.0; 65];
    assert_eq!(make_householder_in_place(1.0, &mut tail), Err(Refusal::TailLength));
    assert_eq!(tail, [1.0; 65]);
    assert_eq!(make_householder_in_place(1.0, &mut []), Err(Refusal::TailLength));
}

#[test]
fn standardising() {
    let of = |a, b, c, d| {
        let s = lahqr_schur22(a, b, c, d);
        ([s.a, s.b, s.c, s.d, s.cs, s.sn], s.eigenvalues)
    };
    assert_eq!(of(5.0, 0.0, 2.0, 7.0), ([7.0, -2.0, 0.0, 5.0, 0.0, 1.0], Eigenvalues::Real(7.0, 5.0)));
    assert_eq!(of(0.0, 1.0, -1.0, 0.0), ([0.0, 1.0, -1.0, 0.0, 1.0, 0.0], Eigenvalues::Complex(0.0, 0.0, 1.0)));
}

#[test]
fn solving() {
    let (tl, tr) = ([3.0, 0.0, 0.0, 3.0], [1.0, 0.0, 0.0, 1.0]);
    assert_eq!(lasy2(&tl, &tr, &[2.0, 4.0, 6.0, 8.0]), Sylvester { x: [1.0, 2.0, 3.0, 4.0], scale: 1.0 });
    assert_eq!(lasy2(&tr, &tl, &tr), Sylvester { x: [-0.5, -0.0, -0.0, -0.5], scale: 1.0 });
}

#[test]
fn moves_on_a_diagonal() {
    let mut t = diagonal(&[1.0, 2.0, 3.0]);
    assert_eq!(reorder_schur(3, &mut t, None, 0, 2), Ok(Moved { landed: 2, swaps: 2, declined: 0 }));
    assert_eq!([t[0], t[4], t[8]], [2.0, 3.0, 1.0]);
    let mut t = diagonal(&[1.0, 2.0, 3.0]);
    assert_eq!(reorder_schur(3, &mut t, Some(&mut []), 2, 0), Ok(Moved { landed: 0, swaps: 2, declined: 0 }));
    assert_eq!([t[0], t[4], t[8]], [3.0, 1.0, 2.0]);
}

#[test]
fn a_block_on_its_own() {
    let mut t = TURN;
    assert_eq!(reorder_schur(2, &mut t, None, 1, 0), Ok(Moved { landed: 0, swaps: 0, declined: 0 }));
    assert_eq!(t, TURN);
    assert_eq!(refused(&TURN, &[9.0; 4], |t, u| schur_swap(2, t, u, 0, 1, 1)), Refusal::Across);
}

#[test]
fn a_swap_that_declines() {
    let mut t = ALIKE;
    assert_eq!(reorder_schur(4, &mut t, None, 0, 2), Ok(Moved { landed: 2, swaps: 1, declined: 1 }));
    assert_eq!(t, ALIKE);
    assert_eq!(schur_swap(4, &mut t, None, 0, 2, 2), Ok(Exchanged { swaps: 1, declined: 1 }));
}

/// A stopping move without a factor.
fn stopping(n: usize, t: &mut [f64], from: usize, to: usize) -> StoppingMove {
    reorder_schur_stopping(n, t, None, from, to).unwrap()
}

#[test]
fn stopping_moves_to_their_end() {
    for (from, to) in [(0, 2), (2, 0), (1, 1), (1, 2)] {
        let form = [1.0, 0.0, 0.0, 5.0, 2.0, 0.0, 7.0, 6.0, 3.0];
        let (mut t, mut u) = (form, diagonal(&[1.0; 3]));
        let (mut old_t, mut old_u) = (form, diagonal(&[1.0; 3]));
        let Moved { landed, swaps, declined } = reorder_schur(3, &mut old_t, Some(&mut old_u), from, to).unwrap();
        assert_eq!(
            reorder_schur_stopping(3, &mut t, Some(&mut u), from, to),
            Ok(StoppingMove { stopped: false, here: landed, swaps, declined })
        );
        assert_eq!((bits(&t), bits(&u)), (bits(&old_t), bits(&old_u)));
    }
    let mut t = TURN;
    assert_eq!(stopping(2, &mut t, 1, 0), StoppingMove { stopped: false, here: 0, swaps: 0, declined: 0 });
    assert_eq!(t, TURN);
}

#[test]
fn moves_that_stop() {
    // at the first exchange: nothing is written
    for (from, here) in [(0, 0), (1, 0), (2, 2), (3, 2)] {
        let mut t = ALIKE;
        assert_eq!(stopping(4, &mut t, from, 2 - here), StoppingMove { stopped: true, here, swaps: 1, declined: 1 });
        assert_eq!(bits(&t), bits(&ALIKE));
    }
    // a row and a pair, a pair and a row, whose reflections overflow; the other move has no test there
    let power = |k| 2f64.powi(k);
    for form in [
        [power(1022), 0.0, 0.0, power(1000), 0.0, 1.0, power(1023), 0.0, 0.0],
        [-power(1023), 1.0, 0.0, power(1023), 1.0, 0.0, 0.0, 0.0, 0.0],
    ] {
        let mut t = form;
        assert_eq!(stopping(3, &mut t, 0, 2), StoppingMove { stopped: true, here: 0, swaps: 1, declined: 1 });
        assert_eq!(bits(&t), bits(&form));
        assert_eq!(reorder_schur(3, &mut t, None, 0, 2).unwrap().declined, 0);
    }
    // at the second: as a move to that row leaves them
    let (mut t, mut u) = (ALIKE_APART, diagonal(&[1.0; 6]));
    let (mut first_t, mut first_u) = (ALIKE_APART, diagonal(&[1.0; 6]));
    assert_eq!(
        reorder_schur_stopping(6, &mut first_t, Some(&mut first_u), 0, 2),
        Ok(StoppingMove { stopped: false, here: 2, swaps: 1, declined: 0 })
    );
    assert_eq!(
        reorder_schur_stopping(6, &mut t, Some(&mut u), 0, 5),
        Ok(StoppingMove { stopped: true, here: 2, swaps: 2, declined: 1 })
    );
    assert_eq!((bits(&t), bits(&u)), (bits(&first_t), bits(&first_u)));
    // where it stops, the other move goes on
    let mut t = ALIKE_APART;
    assert_eq!(stopping(6, &mut t, 4, 0), StoppingMove { stopped: true, here: 2, swaps: 2, declined: 1 });
    assert_eq!(stopping(6, &mut t, 0, 5), StoppingMove { stopped: true, here: 0, swaps: 1, declined: 1 });
    assert_eq!(reorder_schur(6, &mut t, None, 0, 5), Ok(Moved { landed: 4, swaps: 2, declined: 1 }));
}

/// It splits, as dlanv2 has it; the other move leaves it so.
#[test]
fn a_pair_standardised_to_b_zero() {
    let form = [-4.0, 0.0, 0.0, 0.0, -4.0, -1.0, 0.0, 1.0, -2.0];
    let mut t = form;
    assert_eq!(stopping(3, &mut t, 0, 2), StoppingMove { stopped: false, here: 2, swaps: 1, declined: 0 });
    assert_eq!(t, [-3.0, 0.0, 0.0, -2.0, -3.0, 0.0, 0.0, 0.0, -4.0]);
    let mut t = form;
    reorder_schur(3, &mut t, None, 0, 2).unwrap();
    assert_eq!(t, [-3.0, 2.0, 0.0, 0.0, -3.0, 0.0, 0.0, 0.0, -4.0]);
}

#[test]
fn lists_are_single_calls_in_turn() {
    let moves = [(0, 5), (6, 0), (4, 0), (0, usize::MAX), (2, 4), (0, 5)];
    for form in [SIX, ALIKE_APART] {
        let (mut t, mut u) = (form, diagonal(&[1.0; 6]));
        let (mut list_t, mut list_u) = (form, diagonal(&[1.0; 6]));
        let mut single = |&(from, to): &(usize, usize)| reorder_schur(6, &mut t, Some(&mut u), from, to);
        let singles: Vec<_> = moves.iter().map(&mut single).collect();
        assert_eq!((singles[1], singles[3]), (Err(Refusal::Position), Err(Refusal::Position)));
        assert_eq!(singles.iter().flatten().any(|moved| moved.declined > 0), form != SIX);
        assert_eq!(reorder_schur_list(6, &mut list_t, Some(&mut list_u), &moves).as_ref(), Ok(&singles));
        assert_eq!((bits(&list_t), bits(&list_u)), (bits(&t), bits(&u)));
        assert_eq!(at_a_stride(&form, |t, u| t.reorder_schur_list(u, &moves)), Ok(singles));
    }
}

#[test]
fn lists_of_no_pair_and_of_many() {
    for n in [0, 3] {
        let mut t = vec![0.0; n * n];
        assert_eq!(reorder_schur_list(n, &mut t, None, &[]), Ok(vec![]));
    }
    let mut t = vec![0.0; 64 * 64];
    let moved = Moved { landed: 0, swaps: 63, declined: 0 };
    assert_eq!(reorder_schur_list(64, &mut t, None, &[(63, 0); 64]), Ok(vec![Ok(moved); 64]));

    // 65 are refused before all else is
    let of = |n, t: &[f64], u: &[f64]| refused(t, u, |t, u| reorder_schur_list(n, t, u, &[(0, 1); 65]));
    let t = diagonal(&[1.0, 2.0, 3.0]);
    assert_eq!(of(3, &t, &[9.0; 9]), Refusal::MoveList);
    assert_eq!(of(0, &t, &[9.0; 9]), Refusal::MoveList);
    assert_eq!(of(65, &t, &[9.0; 9]), Refusal::MoveList);
    assert_eq!(of(3, &t[1..], &[9.0; 9]), Refusal::MoveList);
    assert_eq!(of(3, &t, &[9.0; 8]), Refusal::MoveList);
    assert_eq!(of(3, &[f64::NAN; 9], &[9.0; 9]), Refusal::MoveList);
    let wide = |t: &mut [f64], u: Option<&mut [f64]>| {
        ViewMut { n: 3, stride: 2, numbers: t }.reorder_schur_list(u, &[(0, 1); 65])
    };
    assert_eq!(refused(&t, &[9.0; 9], wide), Refusal::MoveList);
}

/// What a list gives that has one pair twice: for both the same.
fn twice(mut t: ViewMut, u: Option<&mut [f64]>, from: usize, to: usize) -> Result<Moved, Refusal> {
    let results = t.reorder_schur_list(u, &[(from, to); 2]).unwrap();
    assert_eq!((results.len(), results[0]), (2, results[1]));
    results[0]
}

#[test]
fn exchanges_of_three_and_four_swaps() {
    let mut t = [0.0; 16];
    (t[0], t[5], t[10], t[15]) = (1.0, 2.0, 3.0, 4.0);
    assert_eq!(schur_swap(4, &mut t, None, 0, 2, 2), Ok(Exchanged { swaps: 4, declined: 0 }));
    assert_eq!((t[0], t[5], t[10], t[15]), (3.0, 4.0, 1.0, 2.0));

    // rows 0 and 1 have a zero inside, rows 2 and 3, (1, 2) and (3, 4), split on the way
    let mut t = [7.0, 0.0, 0.0, 0.0, 1.0, 9.0, 0.0, 0.0, 1.0, 2.0, 1.0, 3.0, 3.0, 4.0, 2.0, 4.0];
    assert_eq!(schur_swap(4, &mut t, None, 0, 2, 2), Ok(Exchanged { swaps: 3, declined: 0 }));
}

/// The values of the 2-block of rows (a, b) and (c, d), in rows 1 and 2 of a form of four: those of a
/// block standardised by itself, bit for bit.
fn values_of_a_copy(a: f64, b: f64, c: f64, d: f64) -> [(f64, f64); 2] {
    let t = [7.0, 0.0, 0.0, 0.0, 3.0, a, c, 0.0, -3.0, b, d, 0.0, 5.0, 6.0, -6.0, -0.0];
    let (mut re, mut im) = ([9.0; 4], [9.0; 4]);
    standardised_values(4, &t, &mut re, &mut im).unwrap();
    assert_eq!(bits(&[re[0], im[0], re[3], im[3]]), bits(&[7.0, 0.0, -0.0, 0.0]));
    let (first, second) = match lahqr_schur22(a, b, c, d).eigenvalues {
        Eigenvalues::Real(x, y) => ((x, 0.0), (y, 0.0)),
        Eigenvalues::Complex(x, y, m) => ((x, m), (y, -m)),
    };
    for (x, y) in [(re[1], first.0), (im[1], first.1), (re[2], second.0), (im[2], second.1)] {
        assert!(x.to_bits() == y.to_bits() || x.is_nan() && y.is_nan(), "{x} is not {y}");
    }
    [(re[1], im[1]), (re[2], im[2])]
}

#[test]
fn values_of_blocks_that_are_not_standardised() {
    let near = |x: f64, y: f64| assert!((x - y).abs() < 1e-14, "{x} is not near {y}");
    // unequal diagonal numbers, once with a complex pair, once with a real one
    let [(re, im), second] = values_of_a_copy(1.0, 2.0, -3.0, 4.0);
    near(re, 2.5);
    near(im, 3.75f64.sqrt());
    assert_eq!(second, (re, -im));
    let [(first, _), (second, _)] = values_of_a_copy(4.0, -2.0, -1.0, 3.0);
    near(first, 5.0);
    near(second, 2.0);
    // one sign
    let [(first, _), (second, _)] = values_of_a_copy(1.0, 2.0, 3.0, 1.0);
    near(first, 1.0 + 6f64.sqrt());
    near(second, 1.0 - 6f64.sqrt());
    // b zero: the lower diagonal number comes first
    assert_eq!(values_of_a_copy(1.0, -0.0, 5.0, 2.0), [(2.0, 0.0), (1.0, 0.0)]);
    // -3 twice: the copy ends with b zero and c not
    let [first, second] = values_of_a_copy(-4.0, -1.0, 1.0, -2.0);
    assert_eq!(bits(&[first.0, first.1, second.0, second.1]), bits(&[-3.0, 0.0, -3.0, -0.0]));
    // a NaN is not zero
    let [(re, im), _] = values_of_a_copy(1.0, 2.0, f64::NAN, 1.0);
    assert!(re == 1.0 && im.is_nan());
}

#[test]
fn values_of_standardised_blocks_are_the_same() {
    for t in [TURN, [0.5, 0.75, -3.0, 0.5], [1e300, 5e-324, -1e308, 1e300]] {
        let mut parts = [[9.0; 2]; 4];
        let [re, im, copy_re, copy_im] = &mut parts;
        block_values(2, &t, re, im).unwrap();
        standardised_values(2, &t, copy_re, copy_im).unwrap();
        assert_eq!((bits(re), bits(im)), (bits(copy_re), bits(copy_im)));
    }
}

#[test]
fn eigenvectors() {
    let mut v = [9.0; 4];
    evd_from_real_schur(2, &[1.0, 0.0, 1.0, 2.0], &mut v).unwrap();
    assert_eq!(column(2, &v, 1).unwrap(), [1.0, 1.0]);
    let mut v = [9.0; 4];
    evd_from_real_schur(2, &[0.0; 4], &mut v).unwrap();
    same(v[2], -0.0);
    same(v[1], 9.0);
}

#[test]
fn edges_that_pass() {
    let mut t = vec![0.0; 64 * 64];
    assert_eq!(reorder_schur(64, &mut t, None, 63, 0).unwrap().swaps, 63);
    assert_eq!(schur_swap(64, &mut t, None, 62, 1, 1).unwrap().swaps, 1);
    let mut v = vec![0.0; 64 * 64];
    evd_from_real_schur(64, &t, &mut v).unwrap();
    assert_eq!(column(64, &v, 63).unwrap().len(), 64);
}

#[test]
fn moves_refused() {
    let t = diagonal(&[1.0, 2.0, 3.0]);
    let u = [9.0; 9];
    let of = |n, t: &[f64], u: &[f64], from, to| {
        let refusal = refused(t, u, |t, u| reorder_schur(n, t, u, from, to));
        assert_eq!(refused(t, u, |t, u| reorder_schur_stopping(n, t, u, from, to)), refusal);
        assert_eq!(refused(t, u, |t, u| twice(ViewMut { n, stride: n, numbers: t }, u, from, to)), refusal);
        refusal
    };
    assert_eq!(of(0, &[], &[], 0, 0), Refusal::Rows);
    assert_eq!(of(65, &vec![0.0; 65 * 65], &[], 0, 1), Refusal::Rows);
    assert_eq!(of(3, &t[1..], &u, 0, 1), Refusal::FormLength);
    assert_eq!(of(3, &t, &u[1..], 0, 1), Refusal::BufferLength);
    assert_eq!(of(3, &t, &u, 3, 0), Refusal::Position);
    assert_eq!(of(3, &t, &u, 0, usize::MAX), Refusal::Position);
    let mut touching = t.clone();
    (touching[1], touching[5]) = (1.0, f64::NAN);
    assert_eq!(of(3, &touching, &u, 0, 1), Refusal::Touching);
    touching[2] = f64::NAN;
    assert_eq!(of(3, &touching, &u, 0, 1), Refusal::DeepEntry);
}

#[test]
fn exchanges_refused() {
    let t = diagonal(&[1.0, 2.0, 3.0]);
    let of = |j0, n1, n2| refused(&t, &[9.0; 9], |t, u| schur_swap(3, t, u, j0, n1, n2));
    assert_eq!(of(3, 1, 1), Refusal::Position);
    assert_eq!(of(0, 3, 1), Refusal::BlockSize);
    assert_eq!(of(0, 1, 0), Refusal::BlockSize);
    assert_eq!(of(2, 1, 1), Refusal::PastEnd);
}

#[test]
fn values_and_vectors_refused() {
    let mut buffers = ([9.0; 3], [9.0; 3]);
    let (re, im) = (&mut buffers.0, &mut buffers.1);
    let touching = [1.0, 1.0, 0.0, 0.0, 2.0, f64::NAN, 0.0, 0.0, 3.0];
    let mut deep = touching;
    deep[2] = f64::NAN;
    for values in [block_values, standardised_values] {
        assert_eq!(values(0, &[], re, im), Err(Refusal::Rows));
        assert_eq!(values(65, &[0.0; 65 * 65], re, im), Err(Refusal::Rows));
        assert_eq!(values(3, &TURN, re, im), Err(Refusal::FormLength));
        assert_eq!(values(2, &TURN, re, im), Err(Refusal::BufferLength));
        assert_eq!(values(2, &TURN, &mut re[1..], im), Err(Refusal::BufferLength));
        assert_eq!(values(2, &TURN, re, &mut im[1..]), Err(Refusal::BufferLength));
        assert_eq!(values(3, &deep, re, im), Err(Refusal::DeepEntry));
        assert_eq!(values(3, &touching, re, im), Err(Refusal::Touching));
    }
    assert_eq!(evd_from_real_schur(2, &TURN, re), Err(Refusal::BufferLength));
    assert_eq!(evd_from_real_schur(0, &[], im), Err(Refusal::Rows));
    assert_eq!(buffers, ([9.0; 3], [9.0; 3]));
    assert_eq!(column(65, &[0.0; 65 * 65], 0), Err(Refusal::Rows));
    assert_eq!(column(2, &[0.0; 5], 0), Err(Refusal::BufferLength));
    assert_eq!(column(2, &TURN, 2), Err(Refusal::Position));
}

/// What a call on six rows and the unit factor gives at any stride: the same, rows and answer, as
/// without gaps, with a factor and without.
fn at_a_stride<T: std::fmt::Debug + PartialEq>(
    six: &[f64; 36],
    call: impl Fn(&mut ViewMut, Option<&mut [f64]>) -> T,
) -> T {
    let (mut t, mut u) = (*six, diagonal(&[1.0; 6]));
    let answer = call(&mut ViewMut { n: 6, stride: 6, numbers: &mut t }, Some(&mut u));
    for stride in [6, 7, 12, 127, 128] {
        let (mut wide_t, mut wide_u) = (spread(6, stride, six), spread(6, stride, &diagonal(&[1.0; 6])));
        let mut alone = wide_t.clone();
        assert_eq!(call(&mut ViewMut { n: 6, stride, numbers: &mut wide_t }, Some(&mut wide_u)), answer);
        assert_eq!(call(&mut ViewMut { n: 6, stride, numbers: &mut alone }, None), answer);
        assert_eq!(bits(&wide_t), bits(&spread(6, stride, &t)));
        assert_eq!(bits(&wide_u), bits(&spread(6, stride, &u)));
        assert_eq!(bits(&alone), bits(&wide_t));
    }
    answer
}

#[test]
fn moves_and_exchanges_at_a_stride() {
    let moved = at_a_stride(&SIX, |t, u| t.reorder_schur(u, 5, 0));
    assert_eq!(moved, Ok(Moved { landed: 0, swaps: 4, declined: 0 }));
    assert_eq!(reorder_schur(6, &mut SIX.clone(), None, 5, 0), moved);
    for (form, from, to) in [(SIX, 5, 0), (ALIKE_APART, 0, 5), (ALIKE_APART, 5, 0)] {
        let moved = at_a_stride(&form, |t, u| t.reorder_schur_stopping(u, from, to)).unwrap();
        assert_eq!(moved.stopped, form != SIX);
        assert_eq!(stopping(6, &mut form.clone(), from, to), moved);
    }
    let done = at_a_stride(&SIX, |t, u| t.schur_swap(u, 1, 2, 1));
    assert_eq!(done, Ok(Exchanged { swaps: 1, declined: 0 }));
    assert_eq!(schur_swap(6, &mut SIX.clone(), None, 1, 2, 1), done);
}

#[test]
fn values_and_vectors_at_a_stride() {
    let (mut re, mut im, mut v) = ([9.0; 6], [9.0; 6], [9.0; 36]);
    let mut six = SIX;
    six[2 + 6] = 1.5; // a 2-block of one sign
    evd_from_real_schur(6, &six, &mut v).unwrap();
    for stride in [6, 7, 12, 127, 128] {
        let mut wide_t = spread(6, stride, &six);
        let form = ViewMut { n: 6, stride, numbers: &mut wide_t };
        let (mut wide_re, mut wide_im) = ([9.0; 6], [9.0; 6]);
        block_values(6, &six, &mut re, &mut im).unwrap();
        form.view().block_values(&mut wide_re, &mut wide_im).unwrap();
        assert_eq!((bits(&wide_re), bits(&wide_im)), (bits(&re), bits(&im)));
        standardised_values(6, &six, &mut re, &mut im).unwrap();
        assert_ne!(bits(&wide_re), bits(&re));
        form.view().standardised_values(&mut wide_re, &mut wide_im).unwrap();
        assert_eq!((bits(&wide_re), bits(&wide_im)), (bits(&re), bits(&im)));
        let mut wide_v = spread(6, stride, &[9.0; 36]);
        form.view().evd_from_real_schur(&mut wide_v).unwrap();
        assert_eq!(bits(&wide_v), bits(&spread(6, stride, &v)));
        for col in 0..6 {
            assert_eq!(View { n: 6, stride, numbers: &wide_v }.column(col), column(6, &v, col));
        }
        assert_eq!(bits(&wide_t), bits(&spread(6, stride, &six)));
    }
}

/// The refusal that all calls on views give, of buffers that they must leave. The lengths are the
/// form's, that of the factor or vectors, and those of re and im.
fn refused_by_all(n: usize, stride: usize, lengths: [usize; 4]) -> Refusal {
    let [t_len, len, re_len, im_len] = lengths;
    let (t, u) = (vec![0.0; t_len], vec![9.0; len]);
    let refusal = refused(&t, &u, |t, u| ViewMut { n, stride, numbers: t }.reorder_schur(u, 0, 1));
    assert_eq!(refused(&t, &u, |t, u| ViewMut { n, stride, numbers: t }.reorder_schur_stopping(u, 0, 1)), refusal);
    assert_eq!(refused(&t, &u, |t, u| twice(ViewMut { n, stride, numbers: t }, u, 0, 1)), refusal);
    assert_eq!(refused(&t, &u, |t, u| ViewMut { n, stride, numbers: t }.schur_swap(u, 0, 1, 1)), refusal);
    let form = View { n, stride, numbers: &t };
    assert_eq!(refused(&t, &u, |_, v| form.evd_from_real_schur(v.unwrap())), refusal);
    let (re, im) = (vec![9.0; re_len], vec![9.0; im_len]);
    assert_eq!(refused(&re, &im, |re, im| form.block_values(re, im.unwrap())), refusal);
    assert_eq!(refused(&re, &im, |re, im| form.standardised_values(re, im.unwrap())), refusal);
    refusal
}

#[test]
fn strides_refused() {
    use Refusal::*;
    assert_eq!(refused_by_all(0, 129, [1; 4]), Rows);
    assert_eq!(refused_by_all(65, 64, [1; 4]), Rows);
    assert_eq!(refused_by_all(65, 129, [65 * 129, 65 * 129, 65, 65]), Rows);
    assert_eq!(refused_by_all(3, 0, [0, 0, 3, 3]), Stride);
    assert_eq!(refused_by_all(3, 2, [6, 6, 3, 3]), Stride);
    assert_eq!(refused_by_all(3, 2, [9, 9, 3, 3]), Stride);
    assert_eq!(refused_by_all(64, 129, [64 * 129, 64 * 129, 64, 64]), Stride);
    assert_eq!(refused_by_all(3, usize::MAX, [1; 4]), Stride);
    assert_eq!(refused_by_all(3, 4, [9, 9, 1, 1]), FormLength);
    assert_eq!(refused_by_all(3, 4, [11, 12, 3, 3]), FormLength);
    assert_eq!(refused_by_all(3, 4, [12, 9, 4, 3]), BufferLength);
    assert_eq!(refused_by_all(3, 4, [12, 13, 3, 4]), BufferLength);

    let column = |n, stride, len, col| View { n, stride, numbers: &vec![0.0; len] }.column(col).map(<[f64]>::len);
    assert_eq!(column(65, 129, 1, 65), Err(Rows));
    assert_eq!(column(3, 2, 1, 3), Err(Stride));
    assert_eq!(column(3, usize::MAX, 1, 3), Err(Stride));
    assert_eq!(column(3, 4, 9, 3), Err(BufferLength));
    assert_eq!(column(3, 4, 12, 3), Err(Position));
    assert_eq!(column(64, 129, 64 * 129, 0), Err(Stride));
    assert_eq!(column(64, 128, 64 * 128, 63), Ok(64));

    let mut t = vec![0.0; 64 * 128];
    assert_eq!(ViewMut { n: 64, stride: 128, numbers: &mut t }.reorder_schur(None, 63, 0).unwrap().swaps, 63);
}

#[test]
fn forms_refused_at_a_stride() {
    let of = |t: &[f64]| {
        let (t, u) = (spread(6, 8, t), spread(6, 8, &[9.0; 36]));
        let refusal = refused(&t, &u, |t, u| ViewMut { n: 6, stride: 8, numbers: t }.reorder_schur(u, 6, 0));
        assert_eq!(
            refused(&t, &u, |t, u| ViewMut { n: 6, stride: 8, numbers: t }.reorder_schur_stopping(u, 6, 0)),
            refusal
        );
        assert_eq!(refused(&t, &u, |t, u| twice(ViewMut { n: 6, stride: 8, numbers: t }, u, 6, 0)), refusal);
        refusal
    };
    let mut t = SIX;
    assert_eq!(of(&t), Refusal::Position);
    t[3 + 6 * 2] = 1.0;
    assert_eq!(of(&t), Refusal::Touching);
    t[5 + 6 * 3] = f64::NAN;
    assert_eq!(of(&t), Refusal::DeepEntry);
}

#[test]
fn every_refusal_says_its_own() {
    use Refusal::*;
    let all = [
        MoveList,
        Rows,
        Stride,
        FormLength,
        BufferLength,
        DeepEntry,
        Touching,
        Position,
        BlockSize,
        PastEnd,
        Across,
        TailLength,
    ];
    let messages: std::collections::BTreeSet<String> = all.iter().map(|refusal| refusal.to_string()).collect();
    assert_eq!(messages.len(), all.len());
    assert_eq!(all.map(Refusal::number), [12, 2, 17, 3, 4, 5, 6, 7, 8, 9, 10, 11]);
}
