"""The modes of a form, by the proved calls vx_standardised_values and vx_evd_from_real_schur.

A mode goes as exp(value * time). A 1-block is one mode. A 2-block is read off a copy that is
standardised first: it is one mode, a pair of conjugate values, or two with real values.
"""

import math
from typing import NamedTuple

from .texts import Complaint


class Block(NamedTuple):
    """A block's first row and size, and its columns of the vectors of the form as it stands: a
    1-block's vector, or a 2-block's real and imaginary part.

    standard is False for a 2-block whose diagonal numbers differ or whose other two do not have
    unlike signs: its columns need not be vectors of its modes, nor those of the blocks below it.
    """

    row: int
    size: int
    columns: list
    standard: bool

    @property
    def rows(self):
        return str(self.row) if self.size == 1 else f"{self.row}, {self.row + 1}"


class Mode(NamedTuple):
    """A block, and its value re + i im. Where im is not 0 (above it, or a NaN) the mode is a pair,
    and has the conjugate too."""

    block: Block
    re: float
    im: float

    @property
    def pair(self):
        return not self.im == 0

    @property
    def decay(self):
        return 0.0 - self.re

    @property
    def half_life(self):
        """ln 2 over the decay, None unless the mode decays."""
        return math.log(2) / self.decay if self.decay > 0 else None

    @property
    def doubling(self):
        """The time in which a growing mode doubles, None unless it grows."""
        return math.log(2) / self.re if self.re > 0 else None

    @property
    def period(self):
        """2 pi over the imaginary part, None where it does not turn."""
        return 2 * math.pi / self.im if self.im > 0 else None


def calls():
    """The Python module of the calls, or a complaint that says how to build its library."""
    try:
        import volmeixi
    except (ImportError, OSError) as error:
        raise Complaint(
            f"the shared library cannot be loaded ({error}): run 'tools/build volmeixi', then bindings/python/build"
        ) from None
    return volmeixi


def _standard(n, form, j):
    upper, lower = form[j + n * (j + 1)], form[j + 1 + n * j]
    return form[j + n * j] == form[j + 1 + n * (j + 1)] and (upper < 0 < lower or lower < 0 < upper)


def first_row(n, form, row):
    """The first row of the block that a row is in."""
    return row - 1 if row > 0 and not form[row + n * (row - 1)] == 0 else row


def modes_of(n, form):
    """The modes of an accepted form, in the order in which they stand; a block's, as they come out."""
    vx = calls()
    re, im = vx.standardised_values(form)
    v = vx.evd_from_real_schur(form)
    modes, j = [], 0
    while j < n:
        size = 2 if j + 1 < n and not form[j + 1 + n * j] == 0 else 1
        columns = [list(v[n * k : n * k + n]) for k in range(j, j + size)]
        block = Block(j, size, columns, size == 1 or _standard(n, form, j))
        own = [Mode(block, re[k], im[k]) for k in range(j, j + size)]
        modes += own[:1] if own[0].pair else own
        j += size
    return modes


def blocks_of(modes):
    """The blocks of modes in order, each with the numbers of its modes, counted from 1."""
    found = {}
    for k, mode in enumerate(modes, 1):
        found.setdefault(mode.block.row, (mode.block, []))[1].append(k)
    return list(found.values())


def through(n, factor, vector):
    """The factor times a vector, in plain float arithmetic."""
    return [sum(factor[i + n * k] * vector[k] for k in range(n)) for i in range(n)]
