"""The command line: `sheet`, `show`, `plot`. Bad input is one sentence on standard error, status 2."""

import argparse
import os
import sys

from . import plot, show
from .modes import first_row, modes_of
from .texts import (
    MOST_ROWS,
    Complaint,
    Request,
    Sheet,
    accepted,
    called,
    check_form,
    count,
    csv_of,
    parse,
    parse_sheet,
    read_matrix,
    read_text,
    request_text,
    run,
    square,
    write_text,
)


class Parser(argparse.ArgumentParser):
    """One sentence in place of argparse's usage."""

    def error(self, message):
        raise Complaint(f"{message} (see '{self.prog} --help')")


# ---- sheet


def _factor(given, n):
    if given is None:
        return []
    if given == "unit":
        return [float(i == j) for j in range(n) for i in range(n)]
    rows = read_matrix(given)
    if len(rows) != n:
        raise Complaint(f"{called(given)} has {count(len(rows), 'row')}, and the form has {n}")
    return square(rows, called(given))


def request_of(given):
    """The request that the arguments of `sheet` make, checked."""
    rows, name = read_matrix(given.matrix), called(given.matrix)
    n = len(rows)
    if n > MOST_ROWS:
        raise Complaint(f"{name} has {n} rows, and the program takes {MOST_ROWS} at most")
    form = square(rows, name)
    check_form(n, form, name)
    for key, position in (("--from", given.start), ("--to", given.goal)):
        if not 0 <= position < n:
            raise Complaint(f"{key} {position} is no row of {name}: rows are 0 to {n - 1}")
    return Request(n, given.start, given.goal, form, _factor(given.factor, n))


def sheet(given):
    text = request_text(request_of(given))
    if given.request:
        write_text(given.request, text)
    out = run(text)
    accepted(parse_sheet(out, "the request"), "the request")
    if given.output:
        write_text(given.output, out)
    else:
        sys.stdout.write(out)


# ---- show and plot


def parts_of(names):
    """At most one request and one sheet, the request first."""
    parts = sorted(
        ((parse(read_text(name), called(name)), called(name)) for name in names),
        key=lambda part: isinstance(part[0], Sheet),
    )
    if len(parts) > 2 or len({type(part) for part, _ in parts}) < len(parts):
        raise Complaint("give one request, one sheet, or one of each")
    if len(parts) == 2:
        (before, first), (after, second) = parts
        if not after.answer and before.n != after.n:
            raise Complaint(
                f"{first} has {count(before.n, 'row')} and {second} {after.n}: they do not belong together"
            )
    return parts


def shown(given):
    parts = parts_of(given.file)
    if given.csv:
        part, name = parts[-1]
        numbers = getattr(accepted(part, name) if isinstance(part, Sheet) else part, given.csv)
        if not numbers:
            raise Complaint(f"{name} has no factor")
        sys.stdout.write(csv_of(part.n, numbers))
    else:
        sys.stdout.write(
            show.text_of([part for part, _ in parts], given.digits, given.factor, given.through_factor)
        )


def plotted(given):
    parts = parts_of(given.file)
    if len(parts) == 1 and isinstance(parts[0][0], Request):
        request, name = parts[0]
        parts.append((parse_sheet(run(request_text(request)), name), name))
    planes = []
    for part, name in parts:
        if isinstance(part, Sheet):
            accepted(part, name)
            after = (
                f"after: landed in row {part.landed}, {count(part.swaps, 'swap')}, {part.declined} declined"
            )
            planes.append((after, modes_of(part.n, part.form), part.landed if part.declined == 0 else None))
        else:
            before = f"before: row {part.start} is to go to row {part.goal}"
            planes.append((before, modes_of(part.n, part.form), first_row(part.n, part.form, part.start)))
    title = given.title or f"Modes of {os.path.basename(parts[0][1])}, {count(parts[0][0].n, 'row')}"
    write_text(given.output, plot.svg_of(planes, title))


# ---- The command line


def _digits(word):
    digits = int(word)
    if not 1 <= digits <= 17:
        raise ValueError
    return digits


def parser():
    top = Parser(
        prog="python3 -m volmeixi",
        description="Sheets for people: moves of blocks of real Schur forms, in decimals.",
    )
    top.set_defaults(run=None)
    of = top.add_subparsers(title="commands", metavar="COMMAND")

    one = of.add_parser("sheet", help="move a block of a matrix in decimals, and print the sheet")
    one.add_argument(
        "matrix",
        metavar="MATRIX",
        help="a quasi-triangular matrix, CSV or whitespace; decimals or hex floats; # begins a comment; "
        "- is standard input",
    )
    one.add_argument(
        "--from",
        dest="start",
        type=int,
        required=True,
        metavar="I",
        help="the row of the block to move, counted from 0",
    )
    one.add_argument("--to", dest="goal", type=int, required=True, metavar="J", help="the row to move it to")
    one.add_argument(
        "--factor", metavar="FILE", help="a matrix that goes along, or the word unit; none if not given"
    )
    one.add_argument("--request", metavar="FILE", help="keep the request's text too")
    one.add_argument(
        "-o", dest="output", metavar="FILE", help="where the sheet goes, if not to standard output"
    )
    one.set_defaults(run=sheet)

    two = of.add_parser("show", help="print a sheet, a request, or both in decimals")
    two.add_argument(
        "file", nargs="+", metavar="SHEET", help="a sheet, a request, or both; - is standard input"
    )
    two.add_argument(
        "--digits",
        type=_digits,
        default=6,
        help="significant digits, 1 to 17; 17 give each number back exactly",
    )
    two.add_argument("--factor", action="store_true", help="print the factor too")
    two.add_argument(
        "--through-factor",
        action="store_true",
        help="print the factor times each vector, worked out in plain floats",
    )
    two.add_argument(
        "--csv",
        choices=("form", "factor"),
        help="print only this matrix (the sheet's, where both are given), exactly, as CSV",
    )
    two.set_defaults(run=shown)

    three = of.add_parser("plot", help="draw the modes in the complex plane, before and after")
    three.add_argument(
        "file",
        nargs="+",
        metavar="SHEET",
        help="a request (which is run) or a request and its sheet; a sheet alone has no before",
    )
    three.add_argument("-o", dest="output", required=True, metavar="FILE.svg", help="where the picture goes")
    three.add_argument("--title", help="the picture's title")
    three.set_defaults(run=plotted)
    return top


def main(words=None):
    """Runs the command; gives the exit status."""
    try:
        top = parser()
        given = top.parse_args(words)
        if given.run is None:
            raise Complaint("no command is given: sheet, show or plot (see 'python3 -m volmeixi --help')")
        given.run(given)
        sys.stdout.flush()
    except Complaint as complaint:
        print(f"volmeixi: {complaint}", file=sys.stderr)
        return 2
    except BrokenPipeError:
        os.dup2(os.open(os.devnull, os.O_WRONLY), sys.stdout.fileno())
        return 1
    return 0
