"""The calls of libvolmeixi for Python: reordering of real Schur forms, and its parts.

A form is n rows by n columns of float, n 1 to 64. It is an array of two dimensions, of shape (n, n),
or one of n * n numbers, column after column: row i, column j stands at i + n * j. Rows and columns
count from 0. A 2-block stands where the entry just below the diagonal, at (j + 1, j), is not zero (a
NaN is not zero, minus zero is); all other rows are 1-blocks. A factor and vectors have the same
layout.

A buffer that a call writes is an array('d') or anything with the same kind of memory, such as a
NumPy array of float64; one of two dimensions must be in Fortran order, or a part of one that is.
What a call only reads may also be a list, read-only, in C order or with gaps. Arrays that a call
makes have no gaps; they are NumPy's where the form is, and array('d') otherwise. A call that is
turned away raises Refusal and has changed no buffer.

What a call gives back can be sent to any call again: after any moves and exchanges an accepted form
is still accepted, so that a later call is turned away for its own arguments alone. The form and the
results are the same with a factor of any content and with none.

A form, factor or vectors may stand in the corner of a larger array. What stands beside them has no
say in a result and stays as it is.

* A part of a NumPy array in Fortran order, such as a[2:8, 2:8], brings its stride: the number of
  rows of a, which must be 128 at most.
* One dimension has a stride where it is given: row i, column j then stands at i + stride * j, and
  there are stride * n numbers, with stride from n to 128.

    >>> from array import array
    >>> import volmeixi
    >>> sheet = array("d", [7] * 25)  # five rows; the form stands in rows and columns 1 and 2
    >>> sheet[6], sheet[7], sheet[11], sheet[12] = 1, 0, 0, 2
    >>> volmeixi.reorder_schur(memoryview(sheet)[6:16], None, 0, 1, stride=5)
    Moved(landed=1, swaps=1, declined=0)
    >>> sheet[6], sheet[12], sheet[8]
    (2.0, 1.0, 7.0)

A call works in place, and at one stride: the form's, or that of vectors which are lent. What cannot
be lent at this stride is lent as a copy, which is written back once the call is carried out: a
factor of another stride, or one that stands in the rows beside the form; and a part with fewer than
stride * n numbers from its first on, since it begins below row 0 and ends in the last column of its
array. Nothing outside an array is lent.

A stride below n or above 128 is refused with 17 where a part is to be written; what is only read is
copied, whatever its stride. A buffer to be written raises TypeError if it is read-only, has another
kind of numbers, or has those of a column not one after the other (C order, every second row, rows or
columns backwards), and ValueError if it shares a number with another.

The shared library, made by bindings/python/build, is VOLMEIXI_LIBRARY, or libvolmeixi.so beside
this file, or the one in the repository's target/bindings.

`python3 -m volmeixi` is the command of volmeixi_desk: sheets in decimals.
"""

if __name__ == "__main__":  # before the library is asked for: the command says itself what is missing
    import volmeixi_desk.command

    raise SystemExit(volmeixi_desk.command.main())

import contextlib
import ctypes
import math
import operator
import os
import pathlib
import sys
from array import array
from typing import NamedTuple

__all__ = [
    "Exchanged",
    "Moved",
    "Reflection",
    "Refusal",
    "Rotation",
    "RotationWith",
    "Standardised",
    "StoppingMove",
    "Sylvester",
    "abs1",
    "abs2",
    "abs_",
    "adjoint",
    "apply",
    "block_values",
    "column",
    "evd_from_real_schur",
    "fmax",
    "fmin",
    "hypot",
    "lahqr_schur22",
    "lasy2",
    "make_householder_in_place",
    "mul_pow2",
    "norm_l2",
    "recip",
    "reorder_schur",
    "reorder_schur_list",
    "reorder_schur_stopping",
    "rotg",
    "schur_swap",
    "sqrt",
    "standardised_values",
]

_MESSAGES = {
    12: "the list of moves has an odd length or more than 64 pairs, or the results lack four places a pair",
    2: "the number of rows n is 0 or above 64",
    17: "the stride is below n or above 128",
    3: "the form's length is not the stride times n",
    4: "the length of a further buffer is wrong: a factor needs the stride times n numbers or none, "
    "vectors the stride times n, each part of block values n",
    5: "the form has an entry more than one row below the diagonal that is not zero",
    6: "the form has two neighbouring entries just below the diagonal that are both not zero",
    7: "a position or column number is not below n",
    8: "a block size of the exchange is not 1 or 2",
    9: "the rows of the exchange run past the last row of the form",
    10: "a 2-block lies across the upper edge, the middle or the lower edge of the exchange",
    11: "the tail of a reflection has not 1 to 64 numbers",
}


class Refusal(ValueError):
    """Why a call was turned away; number is that of the first line that applies: 12, 2, 17, 3 to 11.

    Of lines 17, 3 and 4 the message names the buffer and what it is. A list of moves has one, not
    raised, as the result of each pair that was turned away.
    """

    def __init__(self, number, message=None):
        unknown = f"turned away with number {number}, which is not known here"
        super().__init__(message or _MESSAGES.get(number, unknown))
        self.number = number


class Moved(NamedTuple):
    """The row landed on, the number of swaps, and how many of these declined.

    A swap of two 2-blocks that declines leaves them in place, only standardised, and the move goes
    on as if they had been exchanged: the row landed on need not hold the moved block then.
    """

    landed: int
    swaps: int
    declined: int


class StoppingMove(NamedTuple):
    """Whether a test has failed, so that the move stopped there; the row that the block came to; the
    number of swaps; and how many of these declined: 1 if it stopped, else 0.

    Where it stopped, here is the row in which the block stood as that step began, and the failed try
    counts in swaps too.
    """

    stopped: bool
    here: int
    swaps: int
    declined: int


class Exchanged(NamedTuple):
    """The number of swaps, and how many of these declined."""

    swaps: int
    declined: int


class Rotation(NamedTuple):
    """The rotation of cosine c and sine s."""

    c: float
    s: float


class RotationWith(NamedTuple):
    """A rotation, with the r that it makes of p and q."""

    rot: Rotation
    r: float


class Reflection(NamedTuple):
    """What a reflection gives beside the tail."""

    head: float
    tau: float
    head_with_beta_inv: float
    norm: float


class Standardised(NamedTuple):
    """A block of rows (a, b) and (c, d), its rotation, and its two values as complex numbers.

    They are truly complex where c is not zero.
    """

    a: float
    b: float
    c: float
    d: float
    cs: float
    sn: float
    values: tuple


class Sylvester(NamedTuple):
    """A solution x, column after column, and its scale."""

    x: tuple
    scale: float


# ---- The library

_FLOAT = ctypes.c_double
_SIZE = ctypes.c_size_t
_MARK = ctypes.c_bool
_TO_FLOAT = ctypes.POINTER(_FLOAT)
_TO_SIZE = ctypes.POINTER(_SIZE)
_TO_MARK = ctypes.POINTER(_MARK)
_FLOATS = (_TO_FLOAT, _SIZE)
_SIZES = (_TO_SIZE, _SIZE)

# What each call gives, and what it is given: a buffer is its first place and its length, a single
# result or a matrix of two rows its first place alone.
_GIVEN = {
    "abs": (_FLOAT, _FLOAT),
    "abs1": (_FLOAT, _FLOAT),
    "abs2": (_FLOAT, _FLOAT),
    "recip": (_FLOAT, _FLOAT),
    "mul_pow2": (_FLOAT, _FLOAT, _FLOAT),
    "fmax": (_FLOAT, _FLOAT, _FLOAT),
    "fmin": (_FLOAT, _FLOAT, _FLOAT),
    "sqrt": (_FLOAT, _FLOAT),
    "hypot": (_FLOAT, _FLOAT, _FLOAT),
    "norm_l2": (_FLOAT, *_FLOATS),
    "rotg": (None, *[_FLOAT] * 2, *[_TO_FLOAT] * 3),
    "adjoint": (None, *[_FLOAT] * 2, *[_TO_FLOAT] * 2),
    "apply": (None, *[_FLOAT] * 4, *[_TO_FLOAT] * 2),
    "make_householder_in_place": (_SIZE, _FLOAT, *_FLOATS, *[_TO_FLOAT] * 4),
    "lahqr_schur22": (_SIZE, *[_FLOAT] * 4, *[_TO_FLOAT] * 10),
    "lasy2": (None, *[_TO_FLOAT] * 5),
    "schur_swap": (_SIZE, *[_SIZE] * 2, *_FLOATS, *_FLOATS, *[_SIZE] * 3, *[_TO_SIZE] * 2),
    "reorder_schur": (_SIZE, *[_SIZE] * 2, *_FLOATS, *_FLOATS, *[_SIZE] * 2, *[_TO_SIZE] * 3),
    "reorder_schur_stopping": (
        *(_SIZE, *[_SIZE] * 2, *_FLOATS, *_FLOATS, *[_SIZE] * 2),
        *(_TO_MARK, *[_TO_SIZE] * 3),
    ),
    "reorder_schur_list": (_SIZE, *[_SIZE] * 2, *_FLOATS, *_FLOATS, *_SIZES, *_SIZES),
    "block_values": (_SIZE, *[_SIZE] * 2, *_FLOATS, *_FLOATS, *_FLOATS),
    "standardised_values": (_SIZE, *[_SIZE] * 2, *_FLOATS, *_FLOATS, *_FLOATS),
    "evd_from_real_schur": (_SIZE, *[_SIZE] * 2, *_FLOATS, *_FLOATS),
}


def _load():
    here = pathlib.Path(__file__).resolve().parent
    places = [here / "libvolmeixi.so", here.parent.parent / "target" / "bindings" / "libvolmeixi.so"]
    if os.environ.get("VOLMEIXI_LIBRARY"):
        places = [pathlib.Path(os.environ["VOLMEIXI_LIBRARY"]).resolve()]
    for place in places:
        if place.exists():
            return ctypes.CDLL(str(place))
    raise ImportError(f"no {' or '.join(map(str, places))}: make it by bindings/python/build")


def _calls(library):
    calls = {}
    for name, (gives, *given) in _GIVEN.items():
        call = calls[name] = getattr(library, "vx_" + name)
        call.restype = gives
        call.argtypes = given
    return calls


_CALLS = _calls(_load())
_LARGEST = _SIZE(-1).value


class _Buffer(NamedTuple):
    """Memory of floats, column after column, and the shape that it came in.

    stride is how far the next column is, and None where there is no gap. The memory begins with the
    first number and has stride * n, or fewer where the array ends; held is what keeps it.
    """

    memory: ctypes.Array
    shape: tuple
    stride: int = None
    held: object = None


def _flat(given):
    """What C is given: a buffer passes as its first place and length."""
    for part in given:
        yield from (part.memory, len(part.memory)) if isinstance(part, _Buffer) else (part,)


def _run(name, *given):
    """A call that may be turned away: its number becomes a Refusal."""
    number = _CALLS[name](*_flat(given))
    if number:
        raise Refusal(number)


def _several(name, *given, kinds):
    """The results of a call that gives several, each of its kind, to its last parameters."""
    results = [kind() for kind in kinds]
    _run(name, *given, *map(ctypes.byref, results))
    return [result.value for result in results]


def _size(k):
    """A whole number that C cannot be given counts as the largest: every line refuses it."""
    k = operator.index(k)
    return k if 0 <= k <= _LARGEST else _LARGEST


# ---- Buffers


def _view(x):
    view = memoryview(x)
    if view.format != "d":
        raise TypeError(f"a buffer must hold float64, format 'd', not '{view.format}'")
    return view


def _stride(view):
    """How far the next column is, where there are gaps between columns and none inside them."""
    gaps = view.ndim == 2 and not view.f_contiguous
    return view.strides[1] // 8 if gaps and view.strides[0] == 8 and view.strides[1] >= 0 else None


def _array(x):
    """x of two dimensions, as NumPy's over the same memory."""
    numpy = sys.modules.get("numpy")
    if numpy is None:
        raise TypeError("a buffer of two dimensions must be a NumPy array")
    return numpy.asarray(x)


def _room(x):
    """How many numbers there are from the first of x to the end of the array that owns its memory."""
    owner = x
    while isinstance(owner.base, type(x)):
        owner = owner.base
    last = sum(max(0, step * (size - 1)) for size, step in zip(owner.shape, owner.strides))
    return (owner.ctypes.data + last + owner.itemsize - x.ctypes.data) // 8


def _lent(x):
    """The memory of x itself, to be written."""
    view = _view(x)
    if view.readonly:
        raise TypeError("a buffer that is written must not be read-only")
    if view.f_contiguous:
        memory = (_FLOAT * (view.nbytes // 8)).from_buffer(x if view.c_contiguous else _array(x).T)
        return _Buffer(memory, view.shape)
    stride = _stride(view)
    if stride is None:
        raise TypeError(
            "a buffer that is written must be without gaps, and of two dimensions in Fortran order or a part "
            "of an array in that order"
        )
    x = _array(x)
    memory = (_FLOAT * min(stride * view.shape[1], _room(x))).from_address(x.ctypes.data)
    return _Buffer(memory, view.shape, stride, x)


def _given(x):
    """A copy of x, to be read: of any order, read-only, with gaps, or a list."""
    try:
        memoryview(x)
    except TypeError:
        x = array("d", x)
    view = _view(x)
    return _Buffer((_FLOAT * (view.nbytes // 8)).from_buffer_copy(view.tobytes(order="F")), view.shape)


def _new(like, *shape):
    """Zeros, as a NumPy array where like is one."""
    numpy = sys.modules.get("numpy")
    if numpy is not None and isinstance(like, numpy.ndarray):
        return numpy.zeros(shape, order="F")
    return array("d", bytes(8 * math.prod(shape)))


def _said(shape):
    return f"{shape[0]} number{'s' * (shape[0] != 1)}" if len(shape) == 1 else f"shape {shape}"


def _fits(buffer, what, *shapes):
    """Line 4: the buffer has one of the shapes."""
    if buffer.shape not in shapes:
        raise Refusal(4, f"{what} has {_said(buffer.shape)}: it needs {' or '.join(map(_said, shapes))}")


def _reaches(n, stride, what):
    """Line 17: the stride is n to 128."""
    if not n <= stride <= 128:
        raise Refusal(17, f"{what} has a stride of {stride}: it must be from n, here {n}, to 128")


def _rows(buffer, stride, line, what):
    """n, and the buffer with its stride: in one dimension the one given, or n. Lines 2 and 17, and the
    line for a buffer that has no n."""
    size = math.prod(buffer.shape)
    if stride is None:
        n = math.isqrt(size)
        if buffer.shape not in ((n, n), (n * n,)):
            raise Refusal(line, f"{what} has {_said(buffer.shape)}: it needs n times n, or shape (n, n)")
        stride = n if buffer.stride is None else buffer.stride
    elif len(buffer.shape) == 1:
        stride = operator.index(stride)
        n = size // stride if stride > 0 else 1
    else:
        raise TypeError(f"a stride goes with one dimension: {what} of two has its own")
    if not 1 <= n <= 64:
        raise Refusal(2)
    _reaches(n, stride, what)
    if len(buffer.shape) == 1 and size != stride * n:
        raise Refusal(line, f"{what} has {_said(buffer.shape)}: it needs {stride} times n")
    return n, buffer._replace(stride=stride)


def _beside(n, stride, buffer, what):
    """A factor or vectors beside a form of n rows, with their stride as in _rows. Lines 17 and 4."""
    flat = n if stride is None else stride
    own = flat if len(buffer.shape) == 1 else n if buffer.stride is None else buffer.stride
    _reaches(n, own, what)
    _fits(buffer, what, (flat * n,), (n, n))
    return buffer._replace(stride=own)


# ---- Memory


def _overlap(x, y):
    """Whether a byte belongs to the memory of both."""
    start, other = ctypes.addressof(x.memory), ctypes.addressof(y.memory)
    return start < other + ctypes.sizeof(y.memory) and other < start + ctypes.sizeof(x.memory)


def _columns(n, buffer):
    """Where each column begins."""
    return [ctypes.addressof(buffer.memory) + 8 * buffer.stride * j for j in range(n)]


def _apart(x, y, n=None):
    """Two buffers that are written must not share a number; of n rows, they may what stands beside these."""
    shared = _overlap(x, y)
    if shared and n is not None:
        shared = any(abs(p - q) < 8 * n for p in _columns(n, x) for q in _columns(n, y))
    if shared:
        raise ValueError("two buffers of one call overlap")


def _copy(n, source, target):
    """The n rows of one buffer to another."""
    for start, goal in zip(_columns(n, source), _columns(n, target)):
        ctypes.memmove(goal, start, 8 * n)


@contextlib.contextmanager
def _at_one_stride(n, *buffers):
    """The stride of the first buffer that can be lent in place, and all buffers as they are lent at it:
    in place or, where that cannot be, as copies, written back unless the call is turned away."""
    whole = [buffer.stride for buffer in buffers if buffer.memory and len(buffer.memory) == buffer.stride * n]
    stride = whole[0] if whole else n
    lent, copies = [], []
    for buffer in buffers:
        fits = buffer.stride == stride and len(buffer.memory) == stride * n
        if buffer.memory and (not fits or any(_overlap(buffer, other) for other in lent)):
            copy = _Buffer((_FLOAT * (stride * n))(), buffer.shape, stride)
            _copy(n, buffer, copy)
            copies.append((copy, buffer))
            buffer = copy
        lent.append(buffer)
    yield (stride, *lent)
    for copy, buffer in copies:
        _copy(n, copy, buffer)


# ---- Moves


def _changed(name, t, u, stride, *sizes, buffers=(), kinds=()):
    """The results of a call that changes form and factor."""
    t, u = _lent(t), _lent(array("d") if u is None else u)
    n, t = _rows(t, stride, 3, "the form t")
    if math.prod(u.shape):
        u = _beside(n, stride, u, "the factor u")
        _apart(t, u, n)
    with _at_one_stride(n, t, u) as (stride, t, u):
        return _several(name, n, stride, t, u, *map(_size, sizes), *buffers, kinds=kinds)


def reorder_schur(t, u, from_, to, *, stride=None):
    """Moves the block in row from_ of the form t to row to; the factor u, or None, goes along.

    Both are changed in place. A position inside a 2-block means the block's first row. stride is that
    of one dimension, if it is not n. Gives Moved.
    """
    return Moved(*_changed("reorder_schur", t, u, stride, from_, to, kinds=[_SIZE] * 3))


def reorder_schur_stopping(t, u, from_, to, *, stride=None):
    """Moves the block as LAPACK's dtrexc and dlaexc do it, by the swaps of reorder_schur.

    An exchange with a 2-block in it is tried on a copy first, by dlaexc's tests, and the move stops at
    the first that fails. Form and factor then hold the earlier exchanges, standardised, and nothing of
    the failed one. On a triangular form it does what reorder_schur does, and all that is given is as
    there. Gives StoppingMove.

    >>> reorder_schur_stopping(array("d", [1, 0, 0, 2]), None, 0, 1)
    StoppingMove(stopped=False, here=1, swaps=1, declined=0)
    """
    kinds = [_MARK, *[_SIZE] * 3]
    return StoppingMove(*_changed("reorder_schur_stopping", t, u, stride, from_, to, kinds=kinds))


def _pair(move):
    """The positions of one move of a list."""
    try:
        from_, to = move[:]  # not of a set, which has no order
    except (LookupError, TypeError, ValueError):
        raise TypeError(f"each move of a list must be a pair of positions, from and to, not {move!r}") from None
    return _size(from_), _size(to)


def reorder_schur_list(t, u, moves, *, stride=None):
    """Makes a list of moves over one form: moves has up to 64 pairs, each of from and to.

    The form is checked once and not for each pair. Form and factor are what reorder_schur leaves, called
    for each pair in turn, and so are the results. Gives a list with one for each pair: Moved, or where
    this pair was turned away a Refusal. That is not raised: the pair changes nothing, and the next goes
    on. What is wrong with form, factor or stride turns all of them away, so that each has that Refusal.
    Raised is Refusal 12 alone, of more than 64 pairs.

    >>> t = array("d", [1, 0, 0, 2])
    >>> reorder_schur_list(t, None, [(0, 1), (2, 0)])
    [Moved(landed=1, swaps=1, declined=0), Refusal('a position or column number is not below n')]
    >>> t[0], t[3]
    (2.0, 1.0)
    """
    pairs = [_pair(move) for move in moves]
    if len(pairs) > 64:
        raise Refusal(12)
    places = [position for pair in pairs for position in pair]
    given, results = (_SIZE * len(places))(*places), (_SIZE * (2 * len(places)))()
    try:
        _changed("reorder_schur_list", t, u, stride, buffers=(given, len(given), results, len(results)))
    except Refusal as refusal:  # seen before the call, which would write the same number for each pair
        return [refusal.with_traceback(None)] * len(pairs)
    fours = (results[k : k + 4] for k in range(0, len(results), 4))
    return [Refusal(number) if number else Moved(*moved) for number, *moved in fours]


def schur_swap(t, u, j0, n1, n2, *, stride=None):
    """Exchanges the n1 rows from row j0 on with the n2 rows below them. Gives Exchanged.

    swaps is 1 to 4, and 4 exactly when n1 and n2 are 2, each with a zero inside. Form, factor and
    stride are as in reorder_schur.
    """
    return Exchanged(*_changed("schur_swap", t, u, stride, j0, n1, n2, kinds=[_SIZE] * 2))


# ---- Values and vectors


def _values(name, t, re, im, stride):
    """The two parts that a call for the values of a form's blocks writes."""
    n, form = _rows(_given(t), stride, 3, "the form t")
    re, im = (_new(t, n) if part is None else part for part in (re, im))
    lent_re, lent_im = _lent(re), _lent(im)
    _fits(lent_re, "re", (n,))
    _fits(lent_im, "im", (n,))
    _apart(lent_re, lent_im)
    _run(name, n, form.stride, form, lent_re, lent_im)
    return re, im


def block_values(t, re=None, im=None, *, stride=None):
    """The values of the form's blocks: their real and imaginary parts, n numbers each.

    A 1-block gives its diagonal number and +0; a 2-block its first diagonal number twice, with m
    and then -m, where m is the root of the lower entry's magnitude times that of the upper's. That
    is the 2-block's spectrum only where it is standardised: its diagonal numbers are equal, the
    other two have unlike signs. Use standardised_values where one may not be.
    Written to re and im where they are lent, else to new arrays. stride is that of a form of one
    dimension, if it is not n. Gives both.
    """
    return _values("block_values", t, re, im, stride)


def standardised_values(t, re=None, im=None, *, stride=None):
    """The values of the form's blocks, of each 2-block those of a copy that is standardised first.

    A 1-block gives its diagonal number and +0. The copy, standardised by lahqr_schur22, gives a real
    pair in the order in which it comes out, with +0 beside each, or, where it ends with c not zero,
    its two diagonal numbers, with the size and then its negative. The form is not written. re, im
    and stride are as in block_values.

    >>> standardised_values([1, 5, 0, 2])  # the 2-block of rows (1, 0) and (5, 2)
    (array('d', [2.0, 1.0]), array('d', [0.0, 0.0]))
    """
    return _values("standardised_values", t, re, im, stride)


def evd_from_real_schur(t, v=None, *, stride=None):
    """The vectors of the form, n by n numbers, a column each.

    A 1-block's column is its vector; a 2-block's two columns are the real and the imaginary part.
    A column is written from row 0 to the last row of its block; the rest stays as it was. A 2-block
    is read as it stands: where it is not standardised, its columns and those of the blocks below it
    need not be vectors of the form. Written to v where it is lent, else to a new array, where the
    rest is zeros. stride is that of one dimension, if it is not n. Gives v.
    """
    n, form = _rows(_given(t), stride, 3, "the form t")
    if v is None:
        v, stride = _new(t, n, n), None
    lent = _beside(n, stride, _lent(v), "v")
    with _at_one_stride(n, lent, form) as (stride, lent, form):
        _run("evd_from_real_schur", n, stride, form, lent)
    return v


def column(v, col, *, stride=None):
    """Column col of the vectors v, in any layout, as a memoryview of n numbers, a part of v itself.

    stride is that of one dimension, if it is not n.
    """
    view = _view(v)
    n, vectors = _rows(_Buffer(None, view.shape, _stride(view)), stride, 4, "v")
    col = _size(col)
    if n <= col:
        raise Refusal(7)
    if view.ndim == 1:
        return view[vectors.stride * col : vectors.stride * col + n]
    return view.cast("B").cast("d")[col::n] if view.c_contiguous else memoryview(_array(v)[:, col])


# ---- Blocks of two rows


def lahqr_schur22(a, b, c, d):
    """Standardises the block of rows (a, b) and (c, d). Gives Standardised."""
    a, b, c, d, re1, im1, re2, im2, cs, sn = _several("lahqr_schur22", a, b, c, d, kinds=[_FLOAT] * 10)
    return Standardised(a, b, c, d, cs, sn, (complex(re1, im1), complex(re2, im2)))


def _two_by_two(x, what):
    x = _given(x)
    if x.shape not in ((2, 2), (4,)):
        raise ValueError(f"{what} has {_said(x.shape)}: it needs 4 numbers or shape (2, 2)")
    return x.memory


def lasy2(tl, tr, b):
    """Solves tl * x - x * tr = scale * b for x, all of two rows. Gives Sylvester."""
    tl, tr, b = _two_by_two(tl, "tl"), _two_by_two(tr, "tr"), _two_by_two(b, "b")
    x = (_FLOAT * 4)()
    (scale,) = _several("lasy2", tl, tr, b, x, kinds=[_FLOAT])
    return Sylvester(tuple(x), scale)


# ---- Rotations and reflections


def rotg(p, q):
    """The rotation with c * p - s * q = r and s * p + c * q = 0, up to rounding."""
    c, s, r = _several("rotg", p, q, kinds=[_FLOAT] * 3)
    return RotationWith(Rotation(c, s), r)


def adjoint(rot):
    """The rotation back: s negated, a zero's sign too."""
    return Rotation(*_several("adjoint", *rot, kinds=[_FLOAT] * 2))


def apply(rot, x, y):
    """The pair c * x + s * y, c * y - s * x."""
    return tuple(_several("apply", *rot, x, y, kinds=[_FLOAT] * 2))


def make_householder_in_place(head, tail):
    """The reflection that takes head and tail, 1 to 64 numbers, to a new head and zeros.

    The tail is multiplied by head_with_beta_inv and becomes the reflection's own; if its norm,
    from left to right, is below 2**-1022 it stays, and tau is infinite. Gives Reflection.
    """
    tail = _lent(tail)
    if len(tail.shape) != 1:
        raise TypeError("a tail has one dimension")
    return Reflection(*_several("make_householder_in_place", head, tail, kinds=[_FLOAT] * 4))


# ---- Arithmetic: nothing is turned away


def abs_(x):
    """The magnitude."""
    return _CALLS["abs"](x)


def abs1(x):
    """The same, under the name that faer has for it."""
    return _CALLS["abs1"](x)


def abs2(x):
    """x * x."""
    return _CALLS["abs2"](x)


def recip(x):
    """1 / x, also of zero."""
    return _CALLS["recip"](x)


def mul_pow2(x, p):
    """x * p."""
    return _CALLS["mul_pow2"](x, p)


def fmax(p, q):
    """p where p > q or q is a NaN, else q."""
    return _CALLS["fmax"](p, q)


def fmin(p, q):
    """p where p < q or q is a NaN, else q."""
    return _CALLS["fmin"](p, q)


def sqrt(x):
    """The square root of IEEE 754, also of numbers below zero: NaN."""
    return _CALLS["sqrt"](x)


def hypot(p, q):
    """Infinity if either is infinite; else NaN if either is; else the float nearest to the exact
    root of p * p + q * q, ties to even: +0 of two zeros, infinity where the root is at least
    (2^54 - 1) * 2^970."""
    return _CALLS["hypot"](p, q)


def norm_l2(x):
    """The magnitude of the first number, then hypot with each next; of no number, +0."""
    return _CALLS["norm_l2"](*_flat([_given(x)]))
