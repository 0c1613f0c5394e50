"""Matrices in decimals, requests and sheets: reading, checking, writing, and the program's run.

A matrix is held as a form is lent, column after column. What cannot be read raises Complaint, a
sentence for the user.
"""

import math
import os
import pathlib
import re
import struct
import subprocess
import sys
from typing import NamedTuple

MOST_ROWS = 32  # of the program; the calls take 64
ROOT = pathlib.Path(__file__).resolve().parents[3]

# What each answer says, as in README.md.
ANSWERS = {
    0: "carried out",
    1: "the text is not laid out as a request",
    2: "the number of rows is 0, or above 64 (above 32 in the program)",
    17: "the stride is below n, or above 128 (in the program it is n)",
    3: "the form has not n times n numbers",
    4: "a further buffer has the wrong length: a factor needs n times n numbers, or none",
    5: "an entry more than one row below the diagonal is not zero",
    6: "two neighbouring entries just below the diagonal are both not zero",
    7: "a position is not below n",
}


class Complaint(Exception):
    """One sentence that says what is wrong with what the user gave."""


class Request(NamedTuple):
    """What the program is asked: the rows, the two positions, the form and the factor, or []."""

    n: int
    start: int
    goal: int
    form: list
    factor: list


class Sheet(NamedTuple):
    """What the program printed; where the answer is not 0 the rest is None."""

    answer: int
    n: int = None
    landed: int = None
    swaps: int = None
    declined: int = None
    form: list = None
    factor: list = None


# ---- Files


def called(name):
    """What a file is called in a complaint."""
    return "standard input" if name == "-" else name


def read_text(name):
    """The text of a file, or of standard input for `-`."""
    try:
        data = sys.stdin.buffer.read() if name == "-" else pathlib.Path(name).read_bytes()
    except FileNotFoundError:
        raise Complaint(f"{name} is not there") from None
    except OSError as error:
        raise Complaint(f"{name} cannot be read: {error.strerror}") from None
    try:
        return data.decode("utf-8-sig")
    except UnicodeDecodeError:
        raise Complaint(f"{called(name)} is not a text") from None


def write_text(name, text):
    try:
        pathlib.Path(name).write_text(text, encoding="utf-8")
    except OSError as error:
        raise Complaint(f"{name} cannot be written: {error.strerror}") from None


# ---- Numbers

_DECIMAL = re.compile(r"[+-]?(\d+\.?\d*|\.\d+)([eE][+-]?\d+)?", re.ASCII)
_NAMED = re.compile(r"[+-]?(inf|infinity|nan)", re.IGNORECASE)
_HEX = re.compile(r"[+-]?0x([0-9a-f]+\.?[0-9a-f]*|\.[0-9a-f]+)(p[+-]?\d+)?", re.IGNORECASE | re.ASCII)


def number(word, where):
    """The float of a decimal or hexadecimal word, nearest where it has more digits."""
    if _NAMED.fullmatch(word):
        return float(word)
    try:
        if _HEX.fullmatch(word):
            return float.fromhex(word)
        if _DECIMAL.fullmatch(word) and math.isfinite(float(word)):
            return float(word)
    except OverflowError:
        pass
    if _HEX.fullmatch(word) or _DECIMAL.fullmatch(word):
        raise Complaint(f"{where}: {word} is too large for a float of 64 bits")
    raise Complaint(f"{where}: {word!r} is not a number" if word else f"{where}: a cell is empty")


def word_of(x):
    """The 16 hexadecimal digits of a float's bits."""
    return struct.pack(">d", x).hex()


def float_of(word):
    return struct.unpack(">d", bytes.fromhex(word))[0]


# ---- Matrices in decimals


def _cells(line):
    return [cell.strip() for cell in line.split(",")] if "," in line else line.split()


def read_matrix(name):
    """The rows of a CSV or whitespace file; `#` begins a comment, blank lines are skipped."""
    rows = []
    for k, line in enumerate(read_text(name).splitlines(), 1):
        line = line.split("#", 1)[0].strip()
        if line:
            rows.append([number(word, f"{called(name)}, line {k}") for word in _cells(line)])
    if not rows:
        raise Complaint(f"{called(name)} has no numbers")
    return rows


def square(rows, name):
    """The rows as a form is lent, if they are as long as there are rows."""
    n = len(rows)
    for i, row in enumerate(rows):
        if len(row) != n:
            raise Complaint(
                f"{name} is not square: it has {count(n, 'row')}, and row {i} has {count(len(row), 'number')}"
            )
    return [rows[i][j] for j in range(n) for i in range(n)]


def count(n, what):
    return f"{n} {what}" if n == 1 else f"{n} {what}s"


def check_form(n, form, name):
    """Complains of the first entry that keeps a form from being quasi-triangular."""
    for j in range(n):
        for i in range(j + 2, n):
            if not form[i + n * j] == 0:
                raise Complaint(
                    f"{name} is not quasi-triangular: the entry in row {i}, column {j} is {form[i + n * j]!r}, "
                    "and more than one row below the diagonal all must be zero"
                )
    for j in range(n - 2):
        if not (form[j + 1 + n * j] == 0 or form[j + 2 + n * (j + 1)] == 0):
            raise Complaint(
                f"{name} is not quasi-triangular: the entries in row {j + 1}, column {j} and row {j + 2}, "
                f"column {j + 1} are both not zero, so two 2-blocks would overlap"
            )


def csv_of(n, numbers):
    """A matrix as CSV, each number by the fewest digits that give it back exactly (17 at most)."""
    return "".join(",".join(repr(numbers[i + n * j]) for j in range(n)) + "\n" for i in range(n))


# ---- Requests and sheets


def request_text(request):
    """The five lines that the program reads."""
    return (
        f"n={request.n}\nfrom={request.start}\nto={request.goal}\n"
        f"t={' '.join(map(word_of, request.form))}\nu={' '.join(map(word_of, request.factor))}\n"
    )


_WORDS = r"((?:[0-9a-f]{16}(?: [0-9a-f]{16})*)?)"
_NUMBER = r"(0|[1-9][0-9]*)"
_REQUEST = [
    ("n", r"(0|[1-9][0-9]{0,3})"),
    ("from", r"(0|[1-9][0-9]{0,3})"),
    ("to", r"(0|[1-9][0-9]{0,3})"),
    ("t", _WORDS),
    ("u", _WORDS),
]
_ACCEPTED = [
    ("answer", _NUMBER),
    ("landed", _NUMBER),
    ("swaps", _NUMBER),
    ("declined", _NUMBER),
    ("t", _WORDS),
    ("u", _WORDS),
]


def _lines(text, layout, name, kind):
    lines = text.split("\n")
    if len(lines) != len(layout) + 1 or lines[-1]:
        raise Complaint(f"{name}: a {kind} has {count(len(layout), 'line')}, each ending in a newline")
    found = []
    for k, (line, (key, pattern)) in enumerate(zip(lines, layout), 1):
        match = re.fullmatch(f"{key}={pattern}", line)
        if not match:
            shown = line if len(line) <= 30 else line[:27] + "..."
            raise Complaint(f"{name}, line {k}: {shown!r} is not the line {key}= of a {kind}")
        found.append(match.group(1))
    return found


def _floats(words):
    return [float_of(word) for word in words.split()]


def _fits(n, numbers, name, what, none=False):
    if len(numbers) != n * n and not (none and not numbers):
        raise Complaint(
            f"{name}: the {what} has {count(len(numbers), 'number')}, and {n} times {n} are {n * n}"
        )


def parse_request(text, name):
    n, start, goal, form, factor = _lines(text, _REQUEST, name, "request")
    n, form, factor = int(n), _floats(form), _floats(factor)
    if not 1 <= n <= 64:
        raise Complaint(
            f"{name} asks for {count(n, 'row')}: a form has 1 to 64, in the program 1 to {MOST_ROWS}"
        )
    _fits(n, form, name, "form")
    _fits(n, factor, name, "factor", none=True)
    check_form(n, form, name)
    for key, position in (("from", start), ("to", goal)):
        if int(position) >= n:
            raise Complaint(f"{name}: {key}={position} is no row, rows are 0 to {n - 1}")
    return Request(n, int(start), int(goal), form, factor)


def parse_sheet(text, name):
    refused = re.fullmatch(r"answer=([1-9][0-9]*)\n", text)
    if refused:
        return Sheet(int(refused.group(1)))
    answer, landed, swaps, declined, form, factor = _lines(text, _ACCEPTED, name, "sheet")
    if answer != "0":
        raise Complaint(f"{name}: a sheet with answer {answer} has no further line")
    form, factor = _floats(form), _floats(factor)
    n = math.isqrt(len(form))
    if not 1 <= n <= 64:
        raise Complaint(
            f"{name}: the form has {count(len(form), 'number')}, which is not n times n for n of 1 to 64"
        )
    _fits(n, form, name, "form")
    _fits(n, factor, name, "factor", none=True)
    check_form(n, form, name)
    return Sheet(0, n, int(landed), int(swaps), int(declined), form, factor)


def parse(text, name):
    """A request or a sheet, told apart by the first line."""
    if text.startswith("answer="):
        return parse_sheet(text, name)
    if text.startswith("n="):
        return parse_request(text, name)
    raise Complaint(
        f"{name} is neither a sheet, which begins with answer=, nor a request, which begins with n="
    )


# ---- The program


def program():
    """Where the proved program is: VOLMEIXI_SHEET, or target/bin/sheet of the repository."""
    return pathlib.Path(os.environ.get("VOLMEIXI_SHEET") or ROOT / "target" / "bin" / "sheet")


def run(text):
    """What the proved program prints for a text."""
    place = program()
    try:
        done = subprocess.run([str(place)], input=text.encode(), stdout=subprocess.PIPE, check=False)
    except FileNotFoundError:
        raise Complaint(
            f"{place} is not built: run 'tools/build sheet' in {ROOT}, or set VOLMEIXI_SHEET"
        ) from None
    except OSError as error:
        raise Complaint(f"{place} cannot be run: {error.strerror}") from None
    if done.returncode != 0:
        raise Complaint(f"{place} ended with status {done.returncode}")
    return done.stdout.decode()


def accepted(sheet, name):
    """A sheet that was turned away is a complaint where its form is needed."""
    if sheet.answer:
        raise Complaint(
            f"{name} was turned away with answer {sheet.answer}: {ANSWERS.get(sheet.answer, 'no answer of a move')}"
        )
    return sheet
