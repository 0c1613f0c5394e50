"""The slow modes of a generator to the front, with SciPy's Schur form and the proved moves.

    PYTHONPATH=bindings/python python3 examples/slow_modes.py

A book moves between ten states at the rates of a generator Q: row i, column j is the rate from state
i to state j, and each row adds up to zero. Q = Z T Z', T quasi-triangular, has one mode for each
block of T. SciPy gives them in the order in which they were found; here the slow ones, of the least
decay, are moved to the front one by one. The first columns of Z then span the slow part of the book
by themselves. Ends with 1 if a residual is too large. Needs python3-numpy and python3-scipy.
"""

import sys

import numpy
import scipy.linalg
import volmeixi

STATES, SLOW, BOUND = 10, 4, 1e-13


def generator():
    """Two rings, so that some modes turn, with rare jumps between them."""
    rates = numpy.zeros((STATES, STATES))
    half = STATES // 2
    for i in range(STATES):
        ring = i // half * half
        rates[i, ring + (i + 1) % half] = 0.5 if ring else 4
        rates[i, (i + half) % STATES] = 0.02
    return rates - numpy.diag(rates.sum(axis=1))


def blocks(t):
    """First row, size, value of each block in order."""
    re, im = volmeixi.block_values(t)
    found, j = [], 0
    while j < len(t):
        size = 2 if j + 1 < len(t) and t[j + 1, j] != 0 else 1
        found.append((j, size, complex(re[j], im[j])))
        j += size
    return found


def slow_to_front(t, z, count):
    """The slowest of the blocks that are left goes behind those that were moved."""
    goal = swaps = 0
    for _ in range(count):
        row, size, _ = min(
            (block for block in blocks(t) if block[0] >= goal), key=lambda block: -block[2].real
        )
        moved = volmeixi.reorder_schur(t, z, row, goal)
        assert moved.declined == 0 and moved.landed == goal
        goal, swaps = goal + size, swaps + moved.swaps
    return goal, swaps


def show(title, found):
    print(title)
    for row, size, value in found:
        turns = f", period {2 * numpy.pi / value.imag:.4f}" if size == 2 else ""
        print(f"  row {row}: decay {abs(round(value.real, 4)):.4f}{turns}")  # no mode of a generator grows


def main():
    q = generator()
    t, z = (numpy.asfortranarray(part) for part in scipy.linalg.schur(q, output="real"))
    before = blocks(t)
    show("as SciPy has them", before)
    front, swaps = slow_to_front(t, z, SLOW)
    after = blocks(t)
    show(f"the {SLOW} slowest in front, {swaps} swaps", after)

    size = numpy.linalg.norm(q)
    slow = z[:, :front]
    residuals = {
        "Q Z - Z T, over Q": numpy.linalg.norm(q @ z - z @ t) / size,
        "Z' Z - 1": numpy.linalg.norm(z.T @ z - numpy.eye(STATES)),
        "Q on the slow columns alone, over Q": numpy.linalg.norm(q @ slow - slow @ t[:front, :front]) / size,
        "values before and after": max(min(abs(a[2] - b[2]) for b in after) for a in before),
    }
    good = True
    for name, value in residuals.items():
        good &= bool(value < BOUND * STATES)
        print(f"{name}: {'below' if value < BOUND * STATES else 'NOT below'} {BOUND * STATES:.0e}")
    decays = [0 - value.real for _, _, value in after]
    ordered = decays[:SLOW] == sorted(decays)[:SLOW]
    print(f"slowest first: {'yes' if ordered else 'NO'}")
    return 0 if good and ordered else 1


if __name__ == "__main__":
    sys.exit(main())
