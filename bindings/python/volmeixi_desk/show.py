"""Requests and sheets as text in decimals: the form with its blocks marked, the modes, the vectors."""

from .modes import blocks_of, first_row, modes_of, through
from .texts import ANSWERS, Sheet, count

WIDTH = 100  # characters of a line, beyond which a matrix goes on below

NOTE = (
    "A mode goes as exp(value x time): decay = -real, half-life = ln 2 / decay, period = 2 pi / imaginary.\n"
    "A growing mode has a decay below 0 and its doubling time; one of decay 0 stays."
)


def decimal(x, digits):
    return format(x, f".{digits}g")


def _table(heads, rows, aligned):
    """Lines of columns, each as wide as its widest cell, two spaces between."""
    widths = [max(map(len, column)) for column in zip(heads, *rows)]
    lines = []
    for row in [heads, *rows]:
        cells = [
            cell.ljust(w) if side == "<" else cell.rjust(w) for cell, w, side in zip(row, widths, aligned)
        ]
        lines.append("  ".join(cells).rstrip())
    return lines


def _panels(cells, heads, rows):
    """A matrix of cells with its rows numbered, cut into as many columns as a line holds."""
    wide = max(len(cell) for line in [heads, *cells] for cell in line)
    side = max(len(row) for row in rows)
    fits = max(1, (WIDTH - side - 1) // (wide + 1))
    panels = []
    for first in range(0, len(heads), fits):
        part = slice(first, first + fits)
        lines = [" " * side + " " + " ".join(head.rjust(wide) for head in heads[part])]
        lines += [
            row.rjust(side) + " " + " ".join(cell.rjust(wide) for cell in line[part])
            for row, line in zip(rows, cells)
        ]
        panels.append([line.rstrip() for line in lines])
    return [line for k, panel in enumerate(panels) for line in ([""] if k else []) + panel]


def form_lines(n, form, blocks, digits):
    """The form as a matrix: a block stands in brackets, a zero below the diagonal is a dot."""
    first, last = {}, {}
    for block in blocks:
        for row in range(block.row, block.row + block.size):
            first[row], last[row] = block.row, block.row + block.size - 1
    shown = [[decimal(form[i + n * j], digits) for j in range(n)] for i in range(n)]
    wide = max(len(shown[i][j]) for i in range(n) for j in range(n))
    cells = []
    for i in range(n):
        line = []
        for j in range(n):
            mark = "[" if j == first[i] else " ", "]" if j == last[i] else " "
            line.append(mark[0] + (shown[i][j] if j >= first[i] else ".").rjust(wide) + mark[1])
        cells.append(line)
    return _panels(cells, [f"{j} " for j in range(n)], [str(i) for i in range(n)])


def matrix_lines(n, numbers, digits):
    cells = [[decimal(numbers[i + n * j], digits) for j in range(n)] for i in range(n)]
    return _panels(cells, [str(j) for j in range(n)], [str(i) for i in range(n)])


def _pace(mode, digits):
    if mode.half_life is not None:
        return decimal(mode.half_life, digits)
    return (
        f"doubles in {decimal(mode.doubling, digits)}"
        if mode.doubling is not None
        else "stays"
        if mode.re == 0
        else "-"
    )


def mode_lines(modes, moved, digits):
    rows = []
    for k, mode in enumerate(modes, 1):
        imaginary = "+-" + decimal(mode.im, digits) if mode.pair else "0"
        period = "-" if mode.period is None else decimal(mode.period, digits)
        mark = "*" if mode.block.row == moved else ""
        rows.append(
            [
                str(k) + mark,
                mode.block.rows,
                decimal(mode.re, digits),
                imaginary,
                decimal(mode.decay, digits),
                _pace(mode, digits),
                period,
            ]
        )
    return _table(["mode", "rows", "real", "imaginary", "decay", "half-life", "period"], rows, "<<>>>>>")


def raw_lines(modes):
    """What is said of values and vectors where a 2-block is not standardised."""
    raw = [(block, numbers) for block, numbers in blocks_of(modes) if not block.standard]
    lines = [
        f"The 2-block in rows {block.rows} is not standardised (its diagonal numbers differ, or its other "
        "two do not have unlike signs): its values are those of a copy that is standardised first."
        for block, _ in raw
    ]
    if raw:
        lines.append(
            f"The vectors are those of the form as it stands: from mode {raw[0][1][0]} on they need not be "
            "vectors of these modes. A move that exchanges a 2-block with a neighbour standardises it."
        )
    return lines


def vector_lines(n, modes, factor, digits):
    """A column for each row: a 2-block has two, real and imaginary part. Below its block, dots."""
    heads, columns = [], []
    for block, numbers in blocks_of(modes):
        own = ", ".join(map(str, numbers))
        heads += [own] if block.size == 1 else [f"{own} re", f"{own} im"]
        for vector in block.columns:
            if factor is None:
                last = block.row + block.size
                columns.append([decimal(x, digits) for x in vector[:last]] + ["."] * (n - last))
            else:
                columns.append([decimal(x, digits) for x in through(n, factor, vector)])
    return _panels([list(line) for line in zip(*columns)], heads, [str(i) for i in range(n)])


def part_lines(part, digits, with_factor, through_factor):
    """A request or a sheet."""
    if isinstance(part, Sheet):
        if part.answer:
            return [
                f"Turned away with answer {part.answer}: {ANSWERS.get(part.answer, 'no answer of a move')}."
            ]
        moved = part.landed if part.declined == 0 else None
        lines = [
            f"Sheet of {count(part.n, 'row')}: answer 0, landed in row {part.landed}, "
            f"{count(part.swaps, 'swap')}, {part.declined} declined."
        ]
    else:
        moved = first_row(part.n, part.form, part.start)
        lines = [
            f"Request of {count(part.n, 'row')}: move the block in row {part.start} to row {part.goal}, "
            f"{'with a' if part.factor else 'without'} factor."
        ]
    modes = modes_of(part.n, part.form)
    blocks = [block for block, _ in blocks_of(modes)]
    lines += ["", "Form (blocks in brackets):", ""] + form_lines(part.n, part.form, blocks, digits)
    if with_factor and part.factor:
        lines += ["", "Factor:", ""] + matrix_lines(part.n, part.factor, digits)
    star = "; * is the moved block" if moved is not None else ""
    lines += ["", f"Modes, in their order{star}:", ""] + mode_lines(modes, moved, digits)
    lines += raw_lines(modes)
    factor = part.factor if through_factor and part.factor else None
    head = "Vectors, of the form" if factor is None else "Vectors, the factor times that of the form"
    pair = (
        " (a pair's: real and imaginary part, for +imaginary)"
        if any(block.size == 2 for block in blocks)
        else ""
    )
    return lines + ["", f"{head}{pair}:", ""] + vector_lines(part.n, modes, factor, digits)


def text_of(parts, digits=6, with_factor=False, through_factor=False):
    """What `show` prints: the parts one after the other, and what the columns mean."""
    lines = []
    for k, part in enumerate(parts):
        lines += ([""] if k else []) + part_lines(part, digits, with_factor, through_factor)
    if any(not (isinstance(part, Sheet) and part.answer) for part in parts):
        lines += ["", *NOTE.split("\n")]
    return "\n".join(lines) + "\n"
