"""The test of volmeixi.py: document 01's worked values, every refusal, that a refused call leaves its
buffers, and that in the corner of a larger array a call gives what it gives without gaps and leaves
what stands beside it. Those with NumPy are skipped where it is not there, and tests.py counts that as
failed. The examples of the docstrings are run too."""

import builtins
import contextlib
import ctypes
import doctest
import inspect
import itertools
import math
import struct
import unittest
import unittest.mock
from array import array

import volmeixi as vx

try:
    import numpy
except ImportError:
    numpy = None

TURN = (0.0, -1.0, 1.0, 0.0)  # the 2-block of rows (0, 1) and (-1, 0)
VALUES = (vx.block_values, vx.standardised_values)  # which have the same parameters and lines

# rows with a pair among them, as in examples/slow-mode.txt, column after column
SIX = (
    *(-3, 0, 0, 0, 0, 0),
    *(0.5, -0.5, -1.5, 0, 0, 0),
    *(-0.25, 2, -0.5, 0, 0, 0),
    *(1, 0.375, 0.625, -1.25, 0, 0),
    *(0.125, -0.5, 0.875, 0.5, -2, 0),
    *(0.75, 0.25, -0.125, -0.75, 0.25, -0.0625),
)

# two 2-blocks of equal values and other scales, whose swap declines, and the same with another pair
# between them, which both can pass
ALIKE = (0, -1, 0, 0, 1, 0, 0, 0, 1, 0, 0, -1e-8, 0, 1, 1e8, 0)
ALIKE_APART = (
    *(0, -1, 0, 0, 0, 0),
    *(1, 0, 0, 0, 0, 0),
    *(0, 0, 4, -2, 0, 0),
    *(0, 0, 2, 4, 0, 0),
    *(1, 0, 0, 0, 0, -1e-8),
    *(0, 1, 0, 0, 1e8, 0),
)

MOVES = (vx.reorder_schur, vx.reorder_schur_stopping)  # which have the same parameters and lines
LIST = ((5, 0), (6, 0), (2, 4))  # of moves on six rows, one of which is refused

RAW = (*SIX[:8], 1.5, *SIX[9:])  # the same with a 2-block of one sign, a real pair

# what no form could have beside it: NaN (a signalling one too), infinity, a subnormal, minus zero
OTHERS = array("d", struct.pack("6Q", 0x7FF8 << 48, 0x7FF4 << 48 | 0xBEEF, 0x7FF0 << 48, 1, 1 << 63, 7))


def load_tests(_loader, tests, _pattern):
    tests.addTests(doctest.DocTestSuite(vx))
    return tests


def floats(numbers):
    return array("d", numbers)


def diagonal(*numbers):
    n = len(numbers)
    return floats(numbers[k // n] if k % n == k // n else 0.0 for k in range(n * n))


def told(results):
    """The results of a list of moves, a number in the place of each refusal."""
    return [one.number if isinstance(one, vx.Refusal) else one for one in results]


def in_turn(t, u, moves):
    """The same of single calls."""
    results = []
    for from_, to in moves:
        try:
            results.append(vx.reorder_schur(t, u, from_, to))
        except vx.Refusal as refusal:
            results.append(refusal.number)
    return results


class Case(unittest.TestCase):
    def same(self, x, y):
        self.assertEqual(struct.pack("d", x), struct.pack("d", y), f"{x} is not {y}")

    def refused(self, number, call, *buffers):
        """The message, of a call that must leave its buffers."""
        before = [bytes(buffer) for buffer in buffers]
        with self.assertRaises(vx.Refusal) as caught:
            call(*buffers)
        self.assertEqual(caught.exception.number, number)
        self.assertEqual([bytes(buffer) for buffer in buffers], before)
        return str(caught.exception)


class Worked(Case):
    def test_arithmetic(self):
        self.same(vx.sqrt(4), 2.0)
        self.same(vx.sqrt(2.0**-1074), 2.0**-537)
        self.same(vx.sqrt(-0.0), -0.0)
        self.assertTrue(math.isnan(vx.sqrt(-1)))
        self.same(vx.hypot(3, 4), 5.0)
        self.same(vx.hypot(2, 3), 3.605551275463989)
        self.same(vx.hypot(-0.0, -0.0), 0.0)
        self.same(vx.hypot(6081690782099583 * 2.0**970, 16956756496728720 * 2.0**970), math.inf)
        self.same(vx.norm_l2([-2, 3, 6]), vx.hypot(vx.hypot(2, 3), 6))
        self.same(vx.norm_l2([]), 0.0)
        self.same(vx.abs_(-3), 3.0)
        self.same(vx.abs1(-0.0), 0.0)
        self.same(vx.abs2(-3), 9.0)
        self.same(vx.recip(-0.0), -math.inf)
        self.same(vx.mul_pow2(3, 0.5), 1.5)
        self.same(vx.fmax(0.0, -0.0), -0.0)
        self.same(vx.fmin(2, math.nan), 2.0)

    def test_rotations(self):
        self.assertEqual(vx.rotg(3, 4), ((0.6, -0.8), 5.0))
        self.same(vx.rotg(7, -0.0).rot.s, 0.0)
        self.same(vx.rotg(0, 7).rot.s, -1.0)
        self.same(vx.adjoint(vx.Rotation(1, 0)).s, -0.0)
        self.assertEqual(vx.apply(vx.Rotation(2, 3), 5, 7), (31.0, -1.0))

    def test_reflections(self):
        tail = floats([1])
        r = vx.make_householder_in_place(49, tail)
        sign = 49 * (1 / 49)
        self.assertNotEqual(sign, 1)
        self.same(r.head, -(sign * r.norm))
        self.same(tail[0], r.head_with_beta_inv)
        for length in range(1, 65):
            tail = floats([i - 20.5 for i in range(length)])
            r = vx.make_householder_in_place(-3, tail)
            for i, x in enumerate(tail):
                self.same(x, (i - 20.5) * r.head_with_beta_inv)
        for length in (0, 65):
            self.refused(11, lambda tail: vx.make_householder_in_place(1, tail), floats([1] * length))

    def test_blocks_of_two(self):
        self.assertEqual(vx.lahqr_schur22(5, 0, 2, 7), (7, -2, 0, 5, 0, 1, (7, 5)))
        self.assertEqual(vx.lahqr_schur22(0, 1, -1, 0), (0, 1, -1, 0, 1, 0, (1j, -1j)))
        tl, tr, b = [3, 0, 0, 3], [1, 0, 0, 1], [2, 4, 6, 8]
        self.assertEqual(vx.lasy2(tl, tr, b), ((1, 2, 3, 4), 1))
        with self.assertRaisesRegex(ValueError, "b has 3 numbers: it needs 4 numbers"):
            vx.lasy2(tl, tr, b[1:])

    def test_one_move(self):
        t = array("d", [1, 0, 0, 0, 2, 0, 0, 0, 3])
        moved = vx.reorder_schur(t, None, 0, 2)
        self.assertEqual((moved.landed, moved.swaps, moved.declined), (2, 2, 0))
        self.assertEqual((t[0], t[4], t[8]), (2, 3, 1))

    def test_moves(self):
        t = diagonal(1, 2, 3)
        self.assertEqual(vx.reorder_schur(t, None, 0, 2), vx.Moved(landed=2, swaps=2, declined=0))
        self.assertEqual(t, diagonal(2, 3, 1))
        t = diagonal(1, 2, 3)
        self.assertEqual(vx.reorder_schur(t, floats([]), 2, 0), (0, 2, 0))
        self.assertEqual(t, diagonal(3, 1, 2))

        t, u = diagonal(1, 2), diagonal(1, 1)
        self.assertEqual(vx.reorder_schur(t, u, 0, 1), (1, 1, 0))
        self.assertEqual((t, u), (diagonal(2, 1), floats([0, 1, -1, 0])))

        t = floats(TURN)
        self.assertEqual(vx.reorder_schur(t, None, 1, 0), (0, 0, 0))
        self.assertEqual(t, floats(TURN))
        self.assertEqual(vx.reorder_schur(floats([0] * 4096), None, 63, 0).swaps, 63)

    def test_a_swap_that_declines(self):
        t = floats(ALIKE)
        self.assertEqual(vx.reorder_schur(t, None, 0, 2), vx.Moved(landed=2, swaps=1, declined=1))
        self.assertEqual(vx.schur_swap(t, None, 0, 2, 2), vx.Exchanged(swaps=1, declined=1))
        self.assertEqual(t, floats(ALIKE))

    def test_stopping_moves_to_their_end(self):
        """On a triangular form as the other move does it."""
        form = floats([1, 0, 0, 5, 2, 0, 7, 6, 3])
        for from_, to in itertools.product(range(3), range(3)):
            (t, u), (other_t, other_u) = ((form[:], diagonal(1, 1, 1)) for _ in range(2))
            moved = vx.reorder_schur_stopping(t, u, from_, to)
            self.assertEqual(moved, (False, *vx.reorder_schur(other_t, other_u, from_, to)))
            self.assertEqual((bytes(t), bytes(u)), (bytes(other_t), bytes(other_u)))
        moved = vx.reorder_schur_stopping(floats(TURN), None, 1, 0)
        self.assertEqual(moved, vx.StoppingMove(stopped=False, here=0, swaps=0, declined=0))
        self.assertIs(moved.stopped, False)

    def test_moves_that_stop(self):
        for from_, to, here in ((0, 2, 0), (1, 3, 0), (2, 0, 2), (3, 1, 2)):
            t, u = floats(ALIKE), diagonal(1, 1, 1, 1)
            moved = vx.reorder_schur_stopping(t, u, from_, to)
            self.assertEqual(moved, vx.StoppingMove(stopped=True, here=here, swaps=1, declined=1))
            self.assertEqual((t, u), (floats(ALIKE), diagonal(1, 1, 1, 1)))
        self.assertIs(moved.stopped, True)

        # a row and a pair, a pair and a row, whose reflections overflow; the other move has no test there
        for form in (
            (2.0**1022, 0, 0, 2.0**1000, 0, 1, 2.0**1023, 0, 0),
            (-(2.0**1023), 1, 0, 2.0**1023, 1, 0, 0, 0, 0),
        ):
            t = floats(form)
            self.assertEqual(vx.reorder_schur_stopping(t, None, 0, 2), (True, 0, 1, 1))
            self.assertEqual(t, floats(form))
            self.assertEqual(vx.reorder_schur(t, None, 0, 2).declined, 0)

        # at the second exchange: form and factor as a move to that row leaves them
        (t, u), (first_t, first_u) = ((floats(ALIKE_APART), diagonal(*[1] * 6)) for _ in range(2))
        self.assertEqual(vx.reorder_schur_stopping(first_t, first_u, 0, 2), (False, 2, 1, 0))
        self.assertEqual(vx.reorder_schur_stopping(t, u, 0, 5), (True, 2, 2, 1))
        self.assertEqual((bytes(t), bytes(u)), (bytes(first_t), bytes(first_u)))

        # where it stops, the other move goes on
        t = floats(ALIKE_APART)
        self.assertEqual(vx.reorder_schur_stopping(t, None, 4, 0), (True, 2, 2, 1))
        self.assertEqual(vx.reorder_schur_stopping(t, None, 0, 5), (True, 0, 1, 1))
        self.assertEqual(vx.reorder_schur(t, None, 0, 5), (4, 2, 1))

    def test_a_pair_standardised_to_b_zero(self):
        """It splits, as dlanv2 has it; the other move leaves it so."""
        form = floats([-4, 0, 0, 0, -4, -1, 0, 1, -2])
        t, other = form[:], form[:]
        self.assertEqual(vx.reorder_schur_stopping(t, None, 0, 2), (False, 2, 1, 0))
        self.assertEqual(t, floats([-3, 0, 0, -2, -3, 0, 0, 0, -4]))
        vx.reorder_schur(other, None, 0, 2)
        self.assertEqual(other, floats([-3, 2, 0, 0, -3, 0, 0, 0, -4]))

    def test_lists(self):
        """As the single calls in turn, and a pair that is refused is passed over."""
        moves = [(0, 5), (6, 0), (4, 0), [0, -1], (2, 4), (True, 2**64), (0, 5), (False, True)]
        for form in (SIX, ALIKE_APART):
            (t, u), (other_t, other_u) = ((floats(form), diagonal(*[1] * 6)) for _ in range(2))
            results = vx.reorder_schur_list(t, u, moves)
            self.assertEqual(told(results), in_turn(other_t, other_u, moves))
            self.assertEqual((bytes(t), bytes(u)), (bytes(other_t), bytes(other_u)))
            self.assertEqual([type(one) for one in results[:4]], [vx.Moved, vx.Refusal] * 2)
            self.assertEqual(str(results[1]), str(vx.Refusal(7)))
            self.assertEqual(any(one.declined for one in results[::2]), form is ALIKE_APART)
            alone = floats(form)
            self.assertEqual(told(vx.reorder_schur_list(alone, None, iter(moves))), told(results))
            self.assertEqual(bytes(alone), bytes(t))

        t = floats([0] * 4096)
        self.assertEqual(vx.reorder_schur_list(t, None, [(63, 0)] * 64), [(0, 63, 0)] * 64)
        self.assertEqual(vx.reorder_schur_list(t, None, []), [])

    def test_lists_refused(self):
        """12, which is raised, before all others; then each pair has what it was refused for."""

        def by_12(t, u):
            return vx.reorder_schur_list(t, u, [(0, 1)] * 65)

        def moves(*pairs):
            return lambda t, u: vx.reorder_schur_list(t, u, pairs)

        t, u = diagonal(1, 2, 3), floats([9] * 9)
        touching, deep = floats([1, 1, 0, 0, 2, math.nan, 0, 0, 3]), floats([1, 0, math.nan, 0, 2, 0, 0, 0, 3])
        for number, form, factor in (
            *((2, floats([]), floats([])), (2, floats([0] * 65 * 65), floats([1]))),
            *((3, t[1:], u), (4, t, u[1:])),
        ):
            self.refused(12, by_12, form, factor)
            before = bytes(form), bytes(factor)
            results = moves((0, 1), (0, 7))(form, factor)
            self.assertEqual(told(results), [number] * 2)
            self.assertNotEqual(str(results[0]), "")
            self.assertEqual((bytes(form), bytes(factor)), before)
            self.assertEqual(moves()(form, factor), [])
        for number, form, pairs in (
            *((5, deep, ((0, 1), (0, 7))), (6, touching, ((0, 1), (0, 7)))),
            (7, t, ((3, 0), (0, 3), (-1, 0), (0, 2**64), (2**70, -5))),
        ):
            self.refused(12, by_12, form, u)
            before = bytes(form), bytes(u)
            results = moves(*pairs)(form, u)
            self.assertEqual(told(results), [number] * len(pairs))
            self.assertEqual({str(one) for one in results}, {str(vx.Refusal(number))})
            self.assertEqual((bytes(form), bytes(u)), before)
            self.assertEqual(moves()(form, u), [])

    def test_lists_of_what_is_no_pair(self):
        t, u = diagonal(1, 2, 3), diagonal(1, 1, 1)
        before = bytes(t), bytes(u)
        for wrong in (5, None, (), (1,), (0, 1, 2), {0, 2}, {0: 1, 1: 2}):
            with self.assertRaisesRegex(TypeError, "must be a pair of positions, from and to, not "):
                vx.reorder_schur_list(t, u, [(0, 2), wrong])
        for wrong in ((0, 1.0), (None, 0), "01", b"", ("0", 1)):
            with self.assertRaises(TypeError):
                vx.reorder_schur_list(t, u, [(0, 2), wrong])
        for wrong in (5, None, [0, 2], "02"):
            with self.assertRaises(TypeError):
                vx.reorder_schur_list(t, u, wrong)
        self.assertEqual((bytes(t), bytes(u)), before)

    def test_exchanges(self):
        t = diagonal(1, 2, 3)
        self.assertEqual(vx.schur_swap(t, None, 1, 1, 1), vx.Exchanged(swaps=1, declined=0))
        self.assertEqual(t, diagonal(1, 3, 2))

    def test_exchanges_count_one_to_four_swaps(self):
        def two_pairs(first, second):
            """Rows 0, 1 and rows 2, 3 of a form of four, each given by its rows."""
            (a, b), (c, d) = first
            (e, f), (g, h) = second
            return floats([a, c, 0, 0, b, d, 0, 0, 1, 2, e, g, 3, 4, f, h])

        holds, firm = ((5, 2), (-1, 5)), ((8, 3), (-2, 8))
        parted, splits = ((7, 1), (0, 9)), ((1, 2), (3, 4))
        counts = [(holds, firm, 1), (parted, firm, 2), (holds, parted, 2)]
        counts += [(parted, splits, 3), (splits, parted, 3), (parted, parted, 4)]
        for first, second, swaps in counts:
            t = two_pairs(first, second)
            self.assertEqual(vx.schur_swap(t, None, 0, 2, 2), vx.Exchanged(swaps=swaps, declined=0))

    def test_moves_refused(self):
        for call in MOVES:

            def move(from_, to):
                return lambda t, u: call(t, u, from_, to)

            t, u = diagonal(1, 2, 3), floats([9] * 9)
            self.refused(2, move(0, 0), floats([]), floats([]))
            self.refused(2, move(0, 1), floats([0] * 65 * 65), floats([1]))
            self.assertIn("the form t has 8 numbers", self.refused(3, move(0, 1), t[1:], u))
            self.assertIn("the factor u has 8 numbers", self.refused(4, move(0, 1), t, u[1:]))
            for outside in (3, -1, 2**64):
                self.refused(7, move(outside, 0), t, u)
                self.refused(7, move(0, outside), t, u)
            t[1], t[5] = 1, math.nan
            self.refused(6, move(0, 1), t, u)
            t[2] = math.nan
            self.refused(5, move(0, 1), t, u)

    def test_exchanges_refused(self):
        def exchange(j0, n1, n2):
            return lambda t, u: vx.schur_swap(t, u, j0, n1, n2)

        t, u = diagonal(1, 2, 3), floats([9] * 9)
        self.refused(7, exchange(3, 1, 1), t, u)
        self.refused(8, exchange(0, 3, 1), t, u)
        self.refused(8, exchange(0, 1, -1), t, u)
        self.refused(9, exchange(2, 1, 1), t, u)
        self.refused(10, exchange(0, 1, 1), floats(TURN), u[:4])

    def test_values(self):
        for values in VALUES:
            self.assertEqual(values(TURN), (floats([0, 0]), floats([1, -1])))
            re, im = floats([9, 9]), floats([9, 9])
            given = values(TURN, re, im)
            self.assertTrue(given[0] is re and given[1] is im)
            self.assertEqual((re, im), (floats([0, 0]), floats([1, -1])))
            self.assertEqual(values([1, 0, 1, 2], im=im), (floats([1, 2]), floats([0, 0])))
            self.assertEqual(im, floats([0, 0]))

            self.assertIn("re has 1 number:", self.refused(4, lambda re: values(TURN, re, im), floats([9])))
            self.assertIn("im has 3 num", self.refused(4, lambda im: values(TURN, im=im), floats([9] * 3)))
            self.refused(3, lambda re, im: values(TURN[1:], re, im), re, im)
            self.refused(2, lambda: values([]))
            touching, deep = floats([1, 1, 0, 0, 2, math.nan, 0, 0, 3]), floats([1, 0, math.nan, 0, 2, 0, 0, 0, 3])
            self.refused(6, values, touching, floats([9] * 3), floats([9] * 3))
            self.refused(5, values, deep, floats([9] * 3), floats([9] * 3))
            with self.assertRaisesRegex(ValueError, "overlap"):
                values(TURN, re, re)

    def copied(self, a, b, c, d):
        """The values of the 2-block of rows (a, b) and (c, d), in rows 1 and 2 of a form of four, by a
        copy: bit for bit those of lahqr_schur22. The form stays."""
        t = floats([7, 0, 0, 0, 3, a, c, 0, -3, b, d, 0, 5, 6, -6, -0.0])
        before = bytes(t)
        re, im = vx.standardised_values(t)
        self.assertEqual(bytes(t), before)
        values = vx.lahqr_schur22(a, b, c, d).values
        parts = [(7.0, 0.0), *((value.real, value.imag) for value in values), (-0.0, 0.0)]
        for x, y in zip((*re, *im), (*(part[0] for part in parts), *(part[1] for part in parts))):
            self.same(*(math.nan if math.isnan(number) else number for number in (x, y)))
        return re[1:3].tolist(), im[1:3].tolist()

    def test_values_of_a_copy(self):
        (first, second), im = self.copied(1, 2, -3, 4)
        self.assertAlmostEqual(first, 2.5, places=14)
        self.assertAlmostEqual(im[0], math.sqrt(3.75), places=14)
        self.assertEqual((second, im[1]), (first, -im[0]))
        for block, pair in (((1, 2, 3, 1), (1 + math.sqrt(6), 1 - math.sqrt(6))), ((4, -2, -1, 3), (5, 2))):
            re, im = self.copied(*block)
            self.assertAlmostEqual(re[0], pair[0], places=14)
            self.assertAlmostEqual(re[1], pair[1], places=14)
            for part in im:
                self.same(part, 0.0)
        for zero in (0.0, -0.0):
            self.assertEqual(self.copied(1, zero, 5, 2), ([2, 1], [0, 0]))
        re, im = self.copied(-4, -1, 1, -2)  # -3 twice: the copy ends with b zero and c not
        self.assertEqual(re, [-3, -3])
        self.same(im[0], 0.0)
        self.same(im[1], -0.0)
        re, im = self.copied(1, 2, math.nan, 1)  # a NaN is not zero
        self.assertTrue(re == [1, 1] and all(map(math.isnan, im)))
        re, im = self.copied(math.nan, 2, -3, 1)
        self.assertTrue(all(map(math.isnan, re)) and im == [0, 0])
        edges = (0.0, -0.0, 1.0, -2.0, 5e-324, -1e308, math.inf, math.nan)
        for block in itertools.product(edges, edges, edges[2:], edges):
            self.copied(*block)

    def test_values_of_a_standardised_block(self):
        """Both calls give the same, but where the diagonal numbers are zeros of two signs."""
        for t in (TURN, (0.5, 0.75, -3, 0.5), (1e300, 5e-324, -1e308, 1e300), (-0.0, -1, 4, -0.0)):
            for x, y in zip(*(values(t) for values in VALUES)):
                self.assertEqual(bytes(x), bytes(y))
        t = (-0.0, -1, 4, 0.0)
        self.same(vx.block_values(t)[0][1], -0.0)
        self.same(vx.standardised_values(t)[0][1], 0.0)
        self.assertEqual(vx.block_values(t)[1], vx.standardised_values(t)[1])

    @unittest.skipUnless(numpy, "NumPy is not there")
    def test_values_beside_numpy(self):
        """Of forms with raw 2-blocks: the values that NumPy finds, block by block, within rounding."""

        def in_order(values):
            return sorted(values, key=lambda value: (value.real, value.imag))

        random = numpy.random.default_rng(5)
        real = 0
        for _ in range(300):
            t = numpy.triu(random.standard_normal((6, 6)))
            for j in (0, 3):
                t[j + 1, j] = random.standard_normal()
            re, im = vx.standardised_values(t)
            self.assertEqual([re[2], re[5], im[2], im[5]], [t[2, 2], t[5, 5], 0, 0])
            for j in (0, 3):
                ours = in_order((re + 1j * im)[j : j + 2])
                theirs = in_order(numpy.linalg.eigvals(t[j : j + 2, j : j + 2]))
                self.assertLess(abs(numpy.subtract(ours, theirs)).max(), 1e-12)
                real += im[j] == 0
        self.assertTrue(200 < real < 500, real)

    def test_vectors(self):
        v = vx.evd_from_real_schur([1, 0, 1, 2])
        self.assertEqual(v, floats([1, 0, 1, 1]))
        v = floats([9] * 4)
        self.assertIs(vx.evd_from_real_schur([0] * 4, v), v)
        self.same(v[2], -0.0)
        self.same(v[1], 9.0)
        vx.column(v, 1)[0] = 5
        self.assertEqual(v[2], 5)
        self.assertEqual(vx.column(v, 1).tolist(), [5, 1])
        self.assertEqual(vx.column(memoryview(v).toreadonly(), 1).tolist(), [5, 1])

        self.assertIn("v has 3 numbers", self.refused(4, lambda v: vx.evd_from_real_schur(TURN, v), v[1:]))
        self.refused(2, lambda v: vx.column(v, 0), floats([0] * 65 * 65))
        self.assertIn("v has 3 numbers", self.refused(4, lambda v: vx.column(v, 0), v[1:]))
        self.refused(7, lambda v: vx.column(v, 2), v)

    def test_buffers_that_do_not_serve(self):
        t = diagonal(1, 2)
        with self.assertRaisesRegex(ValueError, "overlap"):
            vx.reorder_schur(t, t, 0, 1)
        for wrong in (bytes(32), array("f", [0] * 4), memoryview(t)[::2], [0.0] * 4):
            with self.assertRaises(TypeError):
                vx.reorder_schur(wrong, None, 0, 1)
        self.assertEqual(t, diagonal(1, 2))

    def test_messages(self):
        self.assertEqual(str(vx.Refusal(7)), "a position or column number is not below n")
        self.assertEqual(str(vx.Refusal(17)), "the stride is below n or above 128")
        self.assertEqual(len({str(vx.Refusal(number)) for number in (*range(2, 13), 17)}), 12)
        self.assertIn("13", str(vx.Refusal(13)))

    def test_names(self):
        """All that is offered is named in __all__, and none of it hides a name of Python's own."""
        offered = {
            name
            for name, value in vars(vx).items()
            if inspect.getmodule(value) is vx and not name.startswith("_")
        }
        self.assertEqual(offered, set(vx.__all__))
        self.assertEqual(offered & set(vars(builtins)), set())

    @unittest.skipUnless(numpy, "NumPy is not there")
    def test_numpy(self):
        t = numpy.diag([1.0, 2.0, 3.0])
        with self.assertRaisesRegex(TypeError, "Fortran order"):
            vx.reorder_schur(t, None, 0, 2)
        t = numpy.asfortranarray(t)
        u = numpy.eye(3, order="F")
        self.assertEqual(vx.reorder_schur(t, u, 0, 2), (2, 2, 0))
        self.assertEqual(t.diagonal().tolist(), [2, 3, 1])
        self.assertEqual((u @ t @ u.T).tolist(), numpy.diag([1.0, 2.0, 3.0]).tolist())
        flat = numpy.array(TURN)
        self.assertEqual(vx.reorder_schur(flat, None, 1, 0), (0, 0, 0))

    @unittest.skipUnless(numpy, "NumPy is not there")
    def test_column_reflected_in_place(self):
        """A column of an array in Fortran order: I - v v' / tau takes it to (head, 0 ..)."""
        a = numpy.array([[(5 * i + 3 * j) % 7 - 2.5 for j in range(3)] for i in range(65)], order="F")
        before = a.copy()
        r = vx.make_householder_in_place(a[0, 1], a[1:, 1])
        v = numpy.concatenate(([1.0], a[1:, 1]))
        x = before[:, 1]
        y = x - v * (v @ x) / r.tau
        self.assertLess(abs(y[0] - r.head), 1e-13)
        self.assertLess(abs(y[1:]).max(), 1e-13)
        a[1:, 1] = before[1:, 1]
        self.assertEqual(a.tolist(), before.tolist())
        with self.assertRaisesRegex(TypeError, "without gaps"):
            vx.make_householder_in_place(1, numpy.ones((4, 4))[:, 1])

    @unittest.skipUnless(numpy, "NumPy is not there")
    def test_numpy_that_is_read(self):
        """In C order, in Fortran order, read-only, with gaps, as a list: the same."""
        rows = [[1.0, 1.0, 4.0], [0.0, 2.0, 5.0], [0.0, 0.0, 3.0]]
        for order in "CF":
            t = numpy.array(rows, order=order)
            gaps = numpy.zeros((6, 6), order=order)
            gaps[::2, ::2] = t
            t.setflags(write=False)
            for form in (t, gaps[::2, ::2]):
                for values in VALUES:
                    re, im = values(form)
                    self.assertIsInstance(re, numpy.ndarray)
                    self.assertEqual((re.tolist(), im.tolist()), ([1, 2, 3], [0, 0, 0]))
                v = vx.evd_from_real_schur(form)
                self.assertEqual(v.shape, (3, 3))
                self.assertEqual((t @ v).tolist(), (v * re).tolist())
                self.assertEqual(v.tolist(), [[1, 1, 4.5], [0, 1, 5], [0, 0, 1]])
        self.assertEqual(vx.evd_from_real_schur(t.flatten(order="F")).tolist(), v.tolist())
        self.assertEqual(vx.norm_l2(numpy.array([3.0, 7.0, 4.0])[::2]), 5)

        for order in "CF":
            lent = numpy.array(v, order=order)
            self.assertEqual(vx.column(lent, 2).tolist(), [4.5, 5, 1])
            vx.column(lent, 2)[1] = 6
            self.assertEqual(lent[1, 2], 6)
            lent.setflags(write=False)
            self.assertTrue(vx.column(lent, 2).readonly)
            with self.assertRaisesRegex(TypeError, "read-only"):
                vx.evd_from_real_schur(t, lent)
        x, scale = vx.lasy2(numpy.array([[3.0, 1.0], [0.0, 3.0]]), numpy.eye(2), numpy.array([[4.0, 8.0], [2.0, 6.0]]))
        self.assertEqual((x, scale), ((1.5, 1, 2.5, 3), 1))

    @unittest.skipUnless(numpy, "NumPy is not there")
    def test_shapes_refused(self):
        def move(t, u=None):
            return vx.reorder_schur(t, u, 0, 1)

        wrong, right = numpy.zeros((2, 8), order="F"), numpy.zeros((4, 4), order="F")
        self.assertIn("the form t has shape (2, 8)", self.refused(3, move, wrong))
        for values in VALUES:
            self.assertIn("the form t has shape (2, 8)", self.refused(3, values, wrong))
            self.assertIn("re has shape (4, 1)", self.refused(4, lambda re: values(right, re), right[:, :1]))
        self.assertIn("the factor u has shape (2, 8)", self.refused(4, move, right, wrong))
        self.assertIn("v has shape (2, 8)", self.refused(4, lambda v: vx.evd_from_real_schur(right, v), wrong))
        self.assertIn("v has shape (2, 8)", self.refused(4, lambda v: vx.column(v, 1), wrong))
        self.refused(3, lambda t: vx.schur_swap(t, None, 0, 1, 1), numpy.zeros((4, 2, 2), order="F"))
        self.refused(2, move, numpy.zeros((65, 65), order="F"))
        with self.assertRaises(TypeError):
            vx.make_householder_in_place(1, numpy.ones((1, 3), order="F"))
        self.assertEqual(move(right, numpy.zeros((0, 0))).swaps, 1)


def spread(numbers, n, stride):
    """n rows, column after column, at a stride, with others in the rows beyond."""
    rows = range(stride)
    return floats(numbers[i + n * j] if i < n else OTHERS[(i + j) % 6] for j in range(n) for i in rows)


class Strides(Case):
    """One dimension, whose stride is given."""

    def test_moves_and_exchanges(self):
        unit = diagonal(*[1] * 6)
        for stride in (6, 7, 12, 127, 128):
            for form, call in (
                (SIX, lambda t, u, **at: vx.reorder_schur(t, u, 5, 0, **at)),
                (SIX, lambda t, u, **at: vx.reorder_schur_stopping(t, u, 5, 0, **at)),
                (ALIKE_APART, lambda t, u, **at: vx.reorder_schur_stopping(t, u, 0, 5, **at)),
                (SIX, lambda t, u, **at: told(vx.reorder_schur_list(t, u, LIST, **at))),
                (SIX, lambda t, u, **at: vx.schur_swap(t, u, 1, 2, 1, **at)),
            ):
                t, u = floats(form), unit[:]
                answer = call(t, u)
                wide_t, wide_u, alone = (spread(numbers, 6, stride) for numbers in (form, unit, form))
                self.assertEqual(call(wide_t, wide_u, stride=stride), answer)
                self.assertEqual(bytes(wide_t), bytes(spread(t, 6, stride)))
                self.assertEqual(bytes(wide_u), bytes(spread(u, 6, stride)))
                self.assertEqual(call(alone, None, stride=stride), answer)
                self.assertEqual(bytes(alone), bytes(wide_t))

    def test_values(self):
        for form in (SIX, RAW):
            for values in VALUES:
                for stride in (6, 7, 12, 127, 128):
                    t = spread(form, 6, stride)
                    self.assertEqual(values(t, stride=stride), values(form))
                    self.assertEqual(values(t.tolist(), stride=stride), values(form))
                    self.assertEqual(bytes(t), bytes(spread(form, 6, stride)))
        self.assertEqual(vx.standardised_values(SIX), vx.block_values(SIX))
        self.assertNotEqual(vx.standardised_values(RAW), vx.block_values(RAW))

    def test_vectors(self):
        v = vx.evd_from_real_schur(SIX, floats([9] * 36))
        for stride in (6, 7, 12, 127, 128):
            t = spread(SIX, 6, stride)
            wide = spread([9] * 36, 6, stride)
            self.assertIs(vx.evd_from_real_schur(t, wide, stride=stride), wide)
            self.assertEqual(bytes(wide), bytes(spread(v, 6, stride)))
            self.assertEqual(vx.evd_from_real_schur(t, stride=stride), vx.evd_from_real_schur(SIX))
            for col in range(6):
                self.assertEqual(vx.column(wide, col, stride=stride), vx.column(v, col))
            vx.column(wide, 5, stride=stride)[0] = 4
            self.assertEqual(wide[5 * stride], 4)
            self.assertEqual(bytes(t), bytes(spread(SIX, 6, stride)))

    def by_all(self, number, stride, form, further):
        """All calls refuse a form, and a factor or vectors, of so many numbers."""
        t, u = floats([0] * form), floats([9] * further)
        for move in MOVES:
            self.refused(number, lambda t, u: move(t, u, 0, 1, stride=stride), t, u)
        before = bytes(t), bytes(u)
        self.assertEqual(told(vx.reorder_schur_list(t, u, LIST, stride=stride)), [number] * len(LIST))
        self.assertEqual((bytes(t), bytes(u)), before)
        self.refused(12, lambda t, u: vx.reorder_schur_list(t, u, LIST * 22, stride=stride), t, u)
        self.refused(number, lambda t, u: vx.schur_swap(t, u, 0, 1, 1, stride=stride), t, u)
        self.refused(number, lambda t, v: vx.evd_from_real_schur(t, v, stride=stride), t, u)
        if number != 4:
            for values in VALUES:
                self.refused(number, lambda t: values(t, stride=stride), t)

    def test_refused(self):
        """2, then 17, then 3, then 4."""
        self.by_all(2, 4, 0, 1)
        self.by_all(2, 129, 65 * 129, 1)
        self.by_all(2, 64, 65 * 64, 1)
        for stride in (0, -1, -(2**64)):
            self.by_all(17, stride, 9, 9)
        self.by_all(17, 2, 6, 6)
        self.by_all(17, 129, 130, 1)
        self.by_all(17, 129, 64 * 129, 64 * 129)
        self.by_all(3, 4, 9, 9)
        self.by_all(3, 4, 11, 12)
        self.by_all(4, 4, 12, 9)
        self.by_all(4, 4, 12, 13)
        t, u = floats([0] * 12), floats([9] * 9)
        self.assertIn(
            "the form t has 11 numbers: it needs 4 times n",
            self.refused(3, lambda t: vx.block_values(t, stride=4), t[1:]),
        )
        self.assertIn(
            "the factor u has 9 numbers: it needs 12 numbers",
            self.refused(4, lambda t, u: vx.reorder_schur(t, u, 0, 1, stride=4), t, u),
        )
        self.assertIn(
            "the form t has a stride of 129: it must be from n, here 2, to 128",
            self.refused(17, lambda t: vx.reorder_schur(t, None, 0, 1, stride=129), floats([0] * 258)),
        )
        self.assertEqual(vx.reorder_schur(floats([0] * 64 * 128), None, 63, 0, stride=128).swaps, 63)
        for wrong in ("4", 4.0):
            with self.assertRaises(TypeError):
                vx.reorder_schur(t, None, 0, 1, stride=wrong)

    def test_columns_refused(self):
        """2, then 17, then 4, then 7."""
        self.refused(2, lambda v: vx.column(v, 65, stride=129), floats([0] * 65 * 129))
        self.refused(17, lambda v: vx.column(v, 3, stride=2), floats([0] * 7))
        self.refused(17, lambda v: vx.column(v, 3, stride=129), floats([0] * 130))
        self.refused(4, lambda v: vx.column(v, 3, stride=4), floats([0] * 13))
        self.refused(7, lambda v: vx.column(v, 3, stride=4), floats([0] * 12))
        self.assertEqual(len(vx.column(floats([0] * 64 * 128), 63, stride=128)), 64)

    def test_numbers_between_each_other(self):
        """Form and factor in one array, four of each eight rows."""
        sheet = floats([0] * 36)
        for j in range(4):
            sheet[9 * j], sheet[9 * j + 4] = j + 1, 1
        t, u = diagonal(1, 2, 3, 4), diagonal(1, 1, 1, 1)
        answer = vx.reorder_schur(t, u, 0, 3)
        parts = memoryview(sheet)
        self.assertEqual(vx.reorder_schur(parts[:32], parts[4:], 0, 3, stride=8), answer)
        for j in range(4):
            self.assertEqual(sheet[8 * j : 8 * j + 4], t[4 * j : 4 * j + 4])
            self.assertEqual(sheet[8 * j + 4 : 8 * j + 8], u[4 * j : 4 * j + 4])
        before = bytes(sheet)
        with self.assertRaisesRegex(ValueError, "overlap"):
            vx.reorder_schur(parts[:32], parts[3:35], 0, 3, stride=8)
        self.assertEqual(bytes(sheet), before)


@unittest.skipUnless(numpy, "NumPy is not there")
class Corners(Case):
    """Parts of NumPy arrays, which have their stride from there."""

    @staticmethod
    def sheet(rows, columns, order="F"):
        return numpy.array(numpy.resize(OTHERS, (columns, rows)).T, order=order)

    @staticmethod
    def beside(sheet, *parts):
        """What stands beside some parts of a sheet, given by their slices."""
        rest = sheet.copy()
        for part in parts:
            rest[part] = 0
        return rest.tobytes()

    @staticmethod
    def square(top, left, n):
        return slice(top, top + n), slice(left, left + n)

    @staticmethod
    def six():
        return numpy.array(SIX).reshape((6, 6), order="F")

    @contextlib.contextmanager
    def lends(self, name, *sheets):
        """What a call of this name lends: its stride, and each buffer's address and length. All of it
        lies inside one of the sheets, or beside them all."""
        seen, call = [], vx._CALLS[name]

        def spy(*given):
            seen.append(given[1])
            for memory, length in zip(given, given[1:]):
                if isinstance(memory, ctypes.Array):
                    self.assertEqual(len(memory), length)
                    seen.append(ctypes.addressof(memory) if length else None)
                    for sheet in sheets:
                        start = sheet.ctypes.data - ctypes.addressof(memory)
                        inside = start <= 0 and 8 * length <= start + sheet.nbytes
                        self.assertTrue(inside or start >= 8 * length or start + sheet.nbytes <= 0)
            return call(*given)

        with unittest.mock.patch.dict(vx._CALLS, {name: spy}):
            yield seen

    def test_in_place(self):
        """At every stride, in several places: every second column is a stride too."""
        moved = self.six()
        answer = vx.reorder_schur(moved, None, 5, 0)
        for rows, top, left, step in (
            *((7, 0, 0, 1), (7, 1, 1, 1), (8, 0, 2, 1), (8, 2, 1, 1), (12, 6, 3, 1), (64, 58, 0, 1)),
            *((127, 50, 2, 1), (128, 0, 3, 1), (128, 122, 2, 1), (64, 9, 0, 2), (10, 3, 1, 3)),
        ):
            sheet = self.sheet(rows, left + 6 * step + 1)
            part = slice(top, top + 6), slice(left, left + 6 * step, step)
            sheet[part] = self.six()
            beside = self.beside(sheet, part)
            with self.lends("reorder_schur", sheet) as seen:
                self.assertEqual(vx.reorder_schur(sheet[part], None, 5, 0), answer)
            self.assertEqual(seen, [rows * step, sheet[part].ctypes.data, None])
            self.assertEqual(sheet[part].tobytes(), moved.tobytes())
            self.assertEqual(self.beside(sheet, part), beside)

    def test_at_the_end(self):
        """Fewer numbers than the stride times n from the first on: through a copy."""
        moved, ended, listed, swapped = (self.six() for _ in range(4))
        vx.reorder_schur(moved, None, 5, 0)
        vx.reorder_schur_list(listed, None, LIST)
        vx.reorder_schur_stopping(ended, None, 5, 0)
        vx.schur_swap(swapped, None, 1, 2, 1)
        for rows, top in ((8, 2), (8, 1), (200 - 72, 1)):
            sheet, part = self.sheet(rows, 8), self.square(top, 2, 6)
            beside = self.beside(sheet, part)
            for name, call, result in (
                ("reorder_schur", lambda t: vx.reorder_schur(t, None, 5, 0), moved),
                ("reorder_schur_stopping", lambda t: vx.reorder_schur_stopping(t, None, 5, 0), ended),
                ("reorder_schur_list", lambda t: vx.reorder_schur_list(t, None, LIST), listed),
                ("schur_swap", lambda t: vx.schur_swap(t, None, 1, 2, 1), swapped),
            ):
                sheet[part] = self.six()
                with self.lends(name, sheet) as seen:
                    call(sheet[part])
                self.assertEqual(seen[0], 6)
                self.assertEqual(sheet[part].tobytes(), result.tobytes())
                self.assertEqual(self.beside(sheet, part), beside)
            self.refused(7, lambda sheet: vx.reorder_schur(sheet[part], None, 6, 0), sheet)

    def test_a_view_of_a_view(self):
        """What counts is the array that owns the memory, also where a view ends before it."""
        sheet = self.sheet(9, 9)
        sheet[1:7, 1:7] = self.six()
        kind = type("Kind", (numpy.ndarray,), {})
        for part in (sheet[:7, :7][1:, 1:], sheet.view(kind)[1:7, 1:7], sheet.T.T[1:7, 1:7]):
            with self.lends("reorder_schur", sheet) as seen:
                vx.reorder_schur(part, None, 0, 0)
            self.assertEqual(seen, [9, sheet[1:, 1:].ctypes.data, None])
        flat = array("d", sheet.tobytes(order="F"))
        for owner in (numpy.frombuffer(flat), numpy.frombuffer(flat)[:72]):
            part = owner.reshape((9, -1), order="F")[1:7, 1:7]
            with self.lends("reorder_schur", owner) as seen:
                vx.reorder_schur(part, None, 0, 0)
            self.assertEqual(seen[0], 9)
        for part in (memoryview(sheet[1:7, 1:7]), numpy.lib.stride_tricks.as_strided(sheet[1:7, 1:7])):
            with self.lends("reorder_schur", sheet) as seen:
                vx.reorder_schur(part, None, 0, 0)
            self.assertEqual(seen[0], 6)  # a copy: the end of the array is not known
        self.assertEqual(sheet[1:7, 1:7].tobytes(), self.six().tobytes())

    def pair(self, form, factor, stride, in_place):
        """A move of form and factor, each a sheet and its part, beside the same without gaps; the
        stride, and which of the two are lent in place."""
        (first, t), (second, u) = form, factor
        first[t], second[u] = self.six(), numpy.eye(6)
        moved, turned = self.six(), numpy.eye(6, order="F")
        answer = vx.reorder_schur(moved, turned, 5, 0)
        parts = ((t, u), (t, u)) if first is second else ((t,), (u,))
        before = self.beside(first, *parts[0]), self.beside(second, *parts[1])
        self.refused(7, lambda *_: vx.reorder_schur(first[t], second[u], 5, 6), first, second)
        with self.lends("reorder_schur", first, second) as seen:
            self.assertEqual(vx.reorder_schur(first[t], second[u], 5, 0), answer)
        self.assertEqual(seen[0], stride)
        places = first[t].ctypes.data, second[u].ctypes.data
        self.assertEqual([place == lent for place, lent in zip(places, seen[1:])], in_place)
        self.assertEqual(first[t].tobytes(), moved.tobytes())
        self.assertEqual(second[u].tobytes(), turned.tobytes())
        self.assertEqual((self.beside(first, *parts[0]), self.beside(second, *parts[1])), before)

    def test_form_and_factor(self):
        part = self.square
        sheet, other, taller = self.sheet(14, 14), self.sheet(14, 9), self.sheet(20, 9)
        whole, end = (slice(None), slice(None)), part(8, 8, 6)
        self.pair((sheet, part(2, 3, 6)), (other, part(1, 1, 6)), 14, [True, True])
        self.pair((sheet, part(2, 3, 6)), (taller, part(1, 1, 6)), 14, [True, False])
        self.pair((sheet, part(2, 3, 6)), (self.sheet(6, 6), whole), 14, [True, False])
        self.pair((self.sheet(6, 6), whole), (sheet, part(2, 3, 6)), 6, [True, False])
        self.pair((sheet, end), (taller, part(1, 1, 6)), 20, [False, True])
        self.pair((sheet, end), (other, part(8, 3, 6)), 6, [False, False])
        self.pair((sheet, end), (self.sheet(6, 6), whole), 6, [False, True])

    def test_lists(self):
        """In place and through a copy; the pairs may be rows of an array."""
        t, u = self.six(), numpy.eye(6, order="F")
        results = told(vx.reorder_schur_list(t, u, LIST))
        sheet, other, part = self.sheet(14, 14), self.sheet(20, 9), self.square(2, 3, 6)
        sheet[part], other[part] = self.six(), numpy.eye(6)
        before = self.beside(sheet, part), self.beside(other, part)
        with self.lends("reorder_schur_list", sheet, other) as seen:
            self.assertEqual(told(vx.reorder_schur_list(sheet[part], other[part], numpy.array(LIST))), results)
        self.assertEqual(seen[:2], [14, sheet[part].ctypes.data])
        self.assertNotEqual(seen[2], other[part].ctypes.data)
        self.assertEqual((sheet[part].tobytes(), other[part].tobytes()), (t.tobytes(), u.tobytes()))
        self.assertEqual((self.beside(sheet, part), self.beside(other, part)), before)
        with self.assertRaisesRegex(ValueError, "two buffers of one call overlap"):
            vx.reorder_schur_list(sheet[0:6, 0:6], sheet[5:11, 0:6], LIST)

    def test_form_and_factor_in_one_array(self):
        part, sheet = self.square, self.sheet(14, 14)
        self.pair((sheet, part(0, 0, 6)), (sheet, part(0, 6, 6)), 14, [True, True])
        self.pair((sheet, part(2, 0, 6)), (sheet, part(2, 6, 6)), 14, [True, True])
        self.pair((sheet, part(0, 0, 6)), (sheet, part(6, 0, 6)), 14, [True, False])
        self.pair((sheet, part(6, 0, 6)), (sheet, part(0, 0, 6)), 14, [True, False])
        self.pair((sheet, part(0, 0, 6)), (sheet, part(8, 5, 6)), 14, [True, False])
        self.pair((sheet, part(8, 8, 6)), (sheet, part(0, 8, 6)), 14, [False, True])
        self.pair((sheet, part(0, 8, 6)), (sheet, part(8, 8, 6)), 14, [True, False])
        columns = slice(0, 6), slice(0, 12, 2)
        between = slice(0, 6), slice(1, 13, 2)
        self.pair((sheet, columns), (sheet, between), 28, [True, False])

    def test_form_and_factor_that_share_numbers(self):
        sheet, part = self.sheet(14, 14), self.square
        sheet[part(0, 0, 14)] = 0
        before = sheet.tobytes()
        flat = sheet.reshape(-1, order="F")
        for u in (sheet[0:6, 0:6], sheet[5:11, 0:6], sheet[0:6, 5:11], sheet[5:11, 5:11], flat[75:111]):
            self.assertTrue(numpy.shares_memory(sheet[0:6, 0:6], u))
            with self.assertRaisesRegex(ValueError, "two buffers of one call overlap"):
                vx.reorder_schur(sheet[0:6, 0:6], u, 0, 1)
        self.assertEqual(sheet.tobytes(), before)

    def test_values_and_vectors(self):
        raw, vectors = self.six(), vx.evd_from_real_schur(self.six())
        raw[2, 1] = 1.5
        for rows in (8, 128, 129, 300):  # what is only read is copied, whatever its stride
            for order in "FC":
                sheet, part = self.sheet(rows, 8, order), self.square(2, 2, 6)
                sheet[part] = self.six()
                other = sheet.copy(order=order)
                other[part] = raw
                for each in (sheet, other):
                    each.setflags(write=False)
                for values in VALUES:
                    for x, y in zip(values(other[part]), values(raw)):
                        self.assertEqual(x.tobytes(), y.tobytes())
                self.assertEqual(vx.evd_from_real_schur(sheet[part]).tobytes(), vectors.tobytes())

        v = vx.evd_from_real_schur(self.six(), numpy.full((6, 6), 9.0, order="F"))
        for rows, left, stride in ((8, 1, 8), (8, 2, 6), (128, 0, 128)):
            sheet, part = self.sheet(rows, 8), self.square(2, left, 6)
            sheet[part] = 9
            beside = self.beside(sheet, part)
            self.refused(5, lambda sheet: vx.evd_from_real_schur(numpy.tri(6), sheet[part]), sheet)
            with self.lends("evd_from_real_schur", sheet) as seen:
                vx.evd_from_real_schur(self.six(), sheet[part])
            self.assertEqual(seen[0], stride)
            self.assertEqual(seen[2] == sheet[part].ctypes.data, stride == rows)
            self.assertEqual(sheet[part].tobytes(), v.tobytes())
            self.assertEqual(self.beside(sheet, part), beside)

        sheet = self.sheet(8, 8)
        form = sheet[:6, :6]
        form[:] = raw
        for values in VALUES:
            values(form, sheet[2:, 6], sheet[2:, 7])
            parts = [sheet[2:, 6].tobytes(), sheet[2:, 7].tobytes()]
            self.assertEqual(parts, [part.tobytes() for part in values(raw)])
            self.assertEqual(form.tobytes(), raw.tobytes())
        form[:] = self.six()
        vx.evd_from_real_schur(form, form)  # what is read is copied, so it may be what is written
        self.assertEqual(numpy.triu(form).tobytes(), numpy.triu(vectors).tobytes())

    def test_columns(self):
        for order in "FC":
            sheet = self.sheet(9, 9, order)
            part = sheet[2:8, 3:9]
            part[:] = numpy.arange(36).reshape(6, 6)
            self.assertEqual(vx.column(part, 4).tolist(), part[:, 4].tolist())
            vx.column(part, 4)[1] = 77
            self.assertEqual(sheet[3, 7], 77)
            sheet.setflags(write=False)
            self.assertTrue(vx.column(sheet[2:8, 3:9], 4).readonly)
        self.refused(2, lambda sheet: vx.column(sheet[:65, :65], 65), self.sheet(129, 65))
        self.refused(17, lambda sheet: vx.column(sheet[:6, :6], 6), self.sheet(129, 6))
        self.refused(4, lambda sheet: vx.column(sheet[:6, :5], 6), self.sheet(128, 6))
        self.refused(7, lambda sheet: vx.column(sheet[:6, :6], 6), self.sheet(128, 6))

    def test_strides_refused(self):
        def move(sheet, other=None):
            return vx.reorder_schur(sheet[:6, :6], None if other is None else other[:6, :6], 0, 1)

        far, near = self.sheet(129, 7), self.sheet(128, 7)
        far[:6, :6], near[:6, :6] = self.six(), self.six()
        self.assertEqual(move(near).swaps, 1)
        self.assertIn("the form t has a stride of 129", self.refused(17, move, far))
        self.assertIn("the factor u has a stride of 129", self.refused(17, move, near, far))
        self.refused(17, move, far, near)
        self.refused(17, lambda v: vx.evd_from_real_schur(self.six(), v[:6, :6]), far)
        self.refused(2, lambda t: vx.schur_swap(t[:65, :65], None, 0, 1, 1), self.sheet(129, 66))
        self.refused(3, lambda t: vx.schur_swap(t[:6, :5], None, 0, 1, 1), far)
        self.refused(4, lambda t, u: vx.schur_swap(t[:6, :6], u[:6, :5], 0, 1, 1), near, self.sheet(7, 7))
        for below in (0, 8, 40):  # columns that overlap
            part = numpy.lib.stride_tricks.as_strided(near, (6, 6), (8, below))
            self.refused(17, lambda _: vx.reorder_schur(part, None, 0, 1), near)
            self.refused(17, lambda _: vx.reorder_schur(self.six(), part, 0, 1), near)
        with self.assertRaisesRegex(TypeError, "the form t of two has its own"):
            vx.reorder_schur(near[:6, :6], None, 0, 1, stride=128)

    def test_layouts_refused(self):
        sheet = self.sheet(12, 12)
        sheet[:] = 0
        wrong = [sheet[:12:2, :6], sheet[5::-1, :6], sheet[:6, 5::-1], sheet[:6, :6].T]
        wrong += [self.sheet(12, 12, "C")[:6, :6], numpy.broadcast_to(sheet[0, :6], (6, 6))]
        wrong += [sheet.astype(kind)[:6, :6] for kind in ("f4", ">f8", "c16")]
        still = sheet[:6, :6]
        still.setflags(write=False)
        before = sheet.tobytes()
        for part in (*wrong, still):
            for call in (
                lambda: vx.reorder_schur(part, None, 0, 1),
                lambda: vx.schur_swap(self.six(), part, 0, 1, 1),
                lambda: vx.evd_from_real_schur(SIX, part),
            ):
                with self.assertRaises(TypeError):
                    call()
        with self.assertRaisesRegex(TypeError, "Fortran order or a part of an array in that order"):
            vx.reorder_schur(wrong[0], None, 0, 1)
        self.assertEqual(sheet.tobytes(), before)

    def test_one_row(self):
        """A single number has no stride."""
        sheet = self.sheet(300, 3)
        sheet[299, 2] = 5
        self.assertEqual(vx.reorder_schur(sheet[299:, 2:], None, 0, 0), (0, 0, 0))
        self.assertEqual(vx.column(sheet[299:, 2:], 0).tolist(), [5])

    def test_any_two_parts(self):
        """Moves on random parts of one array or two, beside the same without gaps."""
        random = numpy.random.default_rng(1)

        def form(n):
            t, j = numpy.triu(random.standard_normal((n, n))), 0
            while j + 1 < n:
                if random.random() < 0.4:
                    t[j + 1, j] = -t[j, j + 1]
                    t[j + 1, j + 1] = t[j, j]
                    j += 1
                j += 1
            return t

        shared = 0
        for _ in range(600):
            n = int(random.integers(1, 7))
            sheets = [self.sheet(*map(int, random.integers(n, 2 * n + 3, 2))) for _ in range(2)]
            if random.random() < 0.6:
                sheets[1] = sheets[0]
            parts = [
                self.square(*(int(random.integers(0, size - n + 1)) for size in sheet.shape), n) for sheet in sheets
            ]
            (first, second), (t, u) = sheets, parts
            second[u] = random.standard_normal((n, n))
            first[t] = form(n)
            before = first.tobytes(), second.tobytes()
            small_t, small_u = (numpy.array(sheet[part], order="F") for sheet, part in zip(sheets, parts))
            from_, to = map(int, random.integers(0, n, 2))
            if numpy.shares_memory(first[t], second[u]):
                shared += 1
                with self.assertRaisesRegex(ValueError, "overlap"):
                    vx.reorder_schur(first[t], second[u], from_, to)
                self.assertEqual((first.tobytes(), second.tobytes()), before)
                continue
            self.refused(7, lambda first, second: vx.reorder_schur(first[t], second[u], n, to), first, second)
            expected = [sheet.copy() for sheet in sheets]
            if first is second:
                expected[1] = expected[0]
            answer = vx.reorder_schur(small_t, small_u, from_, to)
            expected[0][t], expected[1][u] = small_t, small_u
            with self.lends("reorder_schur", *sheets):
                self.assertEqual(vx.reorder_schur(first[t], second[u], from_, to), answer)
            self.assertEqual([sheet.tobytes() for sheet in sheets], [sheet.tobytes() for sheet in expected])
        self.assertTrue(100 < shared < 400, shared)


if __name__ == "__main__":
    unittest.main()
