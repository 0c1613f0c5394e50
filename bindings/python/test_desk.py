"""The test of `python3 -m volmeixi`: each command on its own and through the proved program, what it
says to bad input, and that decimals come back exactly."""

import contextlib
import io
import itertools
import math
import os
import pathlib
import subprocess
import sys
import tempfile
import unittest
import xml.etree.ElementTree
from unittest import mock

HERE = pathlib.Path(__file__).resolve().parent
EXAMPLES = HERE.parents[1] / "examples"
sys.path.insert(0, str(HERE))

from volmeixi_desk import command, modes, plot, texts  # noqa: E402

SVG = "{http://www.w3.org/2000/svg}"
EDGES = [
    0.1,
    -1 / 3,
    math.pi,
    5e-324,
    2.2250738585072014e-308,
    1.7976931348623157e308,
    -0.0,
    2.0**53 + 2,
    1e23,
]

# what is shown of a form with a standardised 2-block, but for the last two lines
STANDARD = """\
Request of 3 rows: move the block in row 0 to row 0, without factor.

Form (blocks in brackets):

    0    1    2
0 [-1    2]   3
1 [-3   -1]   4
2   .    .  [ 5]

Modes, in their order; * is the moved block:

mode  rows  real  imaginary  decay            half-life  period
1*    0, 1    -1  +-2.44949      1             0.693147  2.5651
2     2        5          0     -5  doubles in 0.138629       -

Vectors, of the form (a pair's: real and imaginary part, for +imaginary):

      1 re     1 im        2
0 0.816497        0 0.619048
1        0        1 0.357143
2        .        .        1
"""


class Desk(unittest.TestCase):
    def setUp(self):
        self.room = tempfile.TemporaryDirectory()
        self.addCleanup(self.room.cleanup)
        self.at = pathlib.Path(self.room.name)

    def file(self, name, text):
        place = self.at / name
        place.write_bytes(text) if isinstance(text, bytes) else place.write_text(text)
        return str(place)

    def matrix(self, rows, name="m.csv"):
        return self.file(name, "".join(",".join(map(repr, row)) + "\n" for row in rows))

    def request(self, rows, start=0):
        """A file with the request to leave the block of a row where it is."""
        form = texts.square(rows, "")
        return self.file("r", texts.request_text(texts.Request(len(rows), start, start, form, [])))

    def run_whole(self, *words, given="", **changed):
        """Status, output and errors of the command in a process of its own."""
        env = {**os.environ, "PYTHONPATH": str(HERE), "PYTHONDONTWRITEBYTECODE": "1", **changed}
        done = subprocess.run(
            [sys.executable, "-m", "volmeixi", *words],
            input=given,
            env=env,
            cwd=self.at,
            capture_output=True,
            text=True,
            check=False,
        )
        return done.returncode, done.stdout, done.stderr

    def run_here(self, *words, given=""):
        """The same in this process, which is quicker."""
        old, stdin = os.getcwd(), io.TextIOWrapper(io.BytesIO(given.encode()))
        os.chdir(self.at)
        try:
            with contextlib.redirect_stdout(io.StringIO()) as out, contextlib.redirect_stderr(
                io.StringIO()
            ) as err, mock.patch("sys.stdin", stdin):
                status = command.main(list(words))
        finally:
            os.chdir(old)
        return status, out.getvalue(), err.getvalue()

    def good(self, *words, whole=False, **more):
        status, out, err = (self.run_whole if whole else self.run_here)(*words, **more)
        self.assertEqual((status, err), (0, ""))
        return out

    def bad(self, said, *words, whole=False, **more):
        """Status 2, nothing printed, and one sentence on standard error in which this is said."""
        status, out, err = (self.run_whole if whole else self.run_here)(*words, **more)
        self.assertEqual((status, out), (2, ""), err)
        self.assertRegex(err, r"\Avolmeixi: [^\n]+\n\Z")
        self.assertIn(said, err)


class Whole(Desk):
    """As `python3 -m volmeixi`, in a process of its own."""

    def test_each_command(self):
        name = self.matrix([[1, 0], [0, 2]])
        out = self.good("sheet", name, "--from", "0", "--to", "1", "--factor", "unit", whole=True)
        self.assertEqual(out, (EXAMPLES / "two-rows.sheet").read_text())
        shown = self.good("show", "-", given=out, whole=True)
        self.assertEqual(shown, self.good("show", str(EXAMPLES / "two-rows.sheet")))
        self.good("plot", str(EXAMPLES / "two-rows.txt"), "-o", "p.svg", whole=True)
        self.assertTrue((self.at / "p.svg").read_text().endswith("</svg>\n"))
        self.bad("'x' is not a number", "sheet", "-", "--from", "0", "--to", "0", given="x\n", whole=True)
        self.bad("no command", whole=True)
        self.assertIn("plot", self.good("--help", whole=True))

    def test_closed_pipe(self):
        """A reader that has enough is no error that shows."""
        line = f"{sys.executable} -m volmeixi show {EXAMPLES / 'slow-mode.sheet'} --digits 17 | head -n 1"
        env = {**os.environ, "PYTHONPATH": str(HERE), "PYTHONDONTWRITEBYTECODE": "1"}
        done = subprocess.run(["bash", "-c", line], env=env, capture_output=True, text=True, check=True)
        self.assertEqual((done.stdout.count("\n"), done.stderr), (1, ""))


class SheetCommand(Desk):
    def test_two_rows(self):
        name = self.matrix([[1, 0], [0, 2]])
        out = self.good("sheet", name, "--from", "0", "--to", "1", "--factor", "unit")
        self.assertEqual(out, (EXAMPLES / "two-rows.sheet").read_text())

    def test_six_rows_with_request_and_output(self):
        request = texts.parse_request((EXAMPLES / "slow-mode.txt").read_text(), "slow-mode.txt")
        name = self.file("m.txt", texts.csv_of(6, request.form).replace(",", "  "))
        unit = self.matrix([[float(i == j) for j in range(6)] for i in range(6)], "u.csv")
        words = ["sheet", name, "--from", "5", "--to", "0", "--factor", unit]
        self.assertEqual(self.good(*words, "--request", "r", "-o", "s"), "")
        self.assertEqual((self.at / "r").read_text(), (EXAMPLES / "slow-mode.txt").read_text())
        self.assertEqual((self.at / "s").read_text(), (EXAMPLES / "slow-mode.sheet").read_text())

    def test_without_a_factor(self):
        out = self.good("sheet", self.matrix([[1, 0], [0, 2]]), "--from", "0", "--to", "1")
        self.assertTrue(out.endswith("\nu=\n"))

    def test_layouts_are_one(self):
        kinds = [
            "1,2\n0,3\n",
            "1 2\n0 3\n",
            "# a comment\n\n 1.0 ,\t2 # two\n0, 0.3e1\n",
            "0x1p0 0x1.0p+1\n0x0p0 0x1.8p1",
            "\ufeff1,2\r\n0,3\r\n",
        ]
        outs = {
            self.good("sheet", self.file(f"{k}", kind), "--from", "0", "--to", "1")
            for k, kind in enumerate(kinds)
        }
        self.assertEqual(len(outs), 1)
        self.assertEqual(outs, {self.good("sheet", "-", "--from", "0", "--to", "1", given=kinds[0])})

    def test_numbers_come_back_exactly(self):
        for shown in (repr, lambda x: format(x, ".17g"), float.hex):
            rows = [[x if i == 0 else 0.0 for x in EDGES] for i in range(len(EDGES))]
            name = self.file("m.csv", "\n".join(",".join(map(shown, row)) for row in rows))
            self.good("sheet", name, "--from", "0", "--to", "0", "--request", "r")
            request = texts.parse_request((self.at / "r").read_text(), "r")
            self.assertEqual(
                [texts.word_of(request.form[len(EDGES) * j]) for j in range(len(EDGES))],
                list(map(texts.word_of, EDGES)),
            )

    def test_nan_and_infinity_are_worked_with(self):
        out = self.good("sheet", self.matrix([[1.0, math.nan], [0.0, -math.inf]]), "--from", "0", "--to", "1")
        self.assertIn("answer=0\n", out)

    def test_32_rows_pass_and_33_do_not(self):
        for n in (32, 33):
            name = self.matrix(
                [[float(i + 1) if i == j else 0.0 for j in range(n)] for i in range(n)], f"{n}"
            )
            words = ["sheet", name, "--from", str(n - 1), "--to", "0", "--factor", "unit"]
            if n == 32:
                self.assertIn("landed=0\nswaps=31\n", self.good(*words))
            else:
                self.bad("has 33 rows, and the program takes 32 at most", *words)

    def test_bad_matrices(self):
        ask = ("--from", "0", "--to", "1")
        for text, said in [
            ("1 2\n0\n", "is not square: it has 2 rows, and row 1 has 1 number\n"),
            ("1 2 3\n0 1 2\n", "is not square: it has 2 rows, and row 0 has 3 numbers"),
            ("", "has no numbers"),
            ("# nothing\n\n", "has no numbers"),
            ("1 2\n0 x\n", "line 2: 'x' is not a number"),
            ("1_0 2\n0 1\n", "line 1: '1_0' is not a number"),
            ('"1",2\n0,1\n', "line 1: '\"1\"' is not a number"),
            ("1,,2\n", "line 1: a cell is empty"),
            ("1 2\n0 1e999\n", "line 2: 1e999 is too large"),
            ("1 2\n0 0x1p5000\n", "line 2: 0x1p5000 is too large"),
            ("1 2 3\n0 1 2\n1e-300 0 1\n", "the entry in row 2, column 0 is 1e-300"),
            ("1 2 3\n0 1 2\nnan 0 1\n", "the entry in row 2, column 0 is nan"),
            ("1 2 3\n1 1 2\n0 1 1\n", "the entries in row 1, column 0 and row 2, column 1 are both not zero"),
            (b"\xff\xfe\x00", "is not a text"),
        ]:
            with self.subTest(text=text):
                self.bad(said, "sheet", self.file("m", text), *ask)
        self.bad("is not there", "sheet", "nothing.csv", *ask)
        self.bad("cannot be read", "sheet", str(self.at), *ask)

    def test_bad_words(self):
        name = self.matrix([[1, 0], [0, 2]])
        self.bad("--from 2 is no row", "sheet", name, "--from", "2", "--to", "0")
        self.bad("--to -1 is no row", "sheet", name, "--from", "0", "--to", "-1")
        self.bad("--from", "sheet", name, "--from", "x", "--to", "0")
        self.bad("--to", "sheet", name, "--from", "0")
        self.bad("no command")
        self.bad("invalid choice", "sheets")
        self.bad(
            "has 1 row, and the form has 2",
            "sheet",
            name,
            "--from",
            "0",
            "--to",
            "1",
            "--factor",
            self.matrix([[1]], "u"),
        )
        self.bad(
            "is not square",
            "sheet",
            name,
            "--from",
            "0",
            "--to",
            "1",
            "--factor",
            self.matrix([[1], [1]], "u"),
        )
        self.bad("cannot be written", "sheet", name, "--from", "0", "--to", "1", "-o", "none/s")

    def test_program_is_missing(self):
        self.bad(
            "run 'tools/build sheet'",
            "sheet",
            self.matrix([[1]]),
            "--from",
            "0",
            "--to",
            "0",
            whole=True,
            VOLMEIXI_SHEET=str(self.at / "none"),
        )


class ShowCommand(Desk):
    def test_sheet(self):
        lines = self.good("show", str(EXAMPLES / "slow-mode.sheet")).split("\n")
        self.assertEqual(lines[0], "Sheet of 6 rows: answer 0, landed in row 0, 4 swaps, 0 declined.")
        self.assertEqual(
            lines[5].split(),
            ["0", "[", "-0.0625]", "-0.0666289", "-0.388918", "0.157328", "0.593692", "-0.421029"],
        )
        self.assertEqual(lines[7].split(), ["2", ".", ".", "[", "-0.5", "-1.53012]", "0.569554", "0.853053"])
        self.assertEqual(lines[8].split(), ["3", ".", ".", "[", "1.96062", "-0.5]", "0.528605", "-0.644453"])
        self.assertEqual(lines[15].split(), ["1*", "0", "-0.0625", "0", "0.0625", "11.0904", "-"])
        self.assertEqual(lines[17].split(), ["3", "2,", "3", "-0.5", "+-1.73205", "0.5", "1.38629", "3.6276"])

    def test_vectors_of_a_sheet(self):
        lines = self.good("show", str(EXAMPLES / "slow-mode.sheet")).split("Vectors")[1].split("\n")
        self.assertEqual(lines[2].split(), ["1", "2", "3", "re", "3", "im", "4", "5"])
        self.assertEqual(lines[5].split(), ["2", ".", ".", "-0.883418", "0", "-0.346946", "0.108592"])
        self.assertEqual(lines[6].split(), ["3", ".", ".", "0", "1", "0.20217", "0.470681"])
        self.assertEqual(lines[8].split(), ["5", ".", ".", ".", ".", ".", "1"])

    def test_request_and_both(self):
        names = [str(EXAMPLES / "slow-mode.txt"), str(EXAMPLES / "slow-mode.sheet")]
        one, two, both = (self.good("show", *some) for some in (names[:1], names[1:], names))
        note = both[both.index("\nA mode goes as") :]
        self.assertIn("Request of 6 rows: move the block in row 5 to row 0, with a factor.", one)
        self.assertEqual(both, one.replace(note, "\n") + two)
        self.assertEqual(both, self.good("show", *reversed(names)))

    def test_values_are_told(self):
        """A growing, a neutral, a decaying mode, and a pair."""
        rows = [[0.25, 0, 0, 0, 0], [0, 0, 0, 0, 0], [0, 0, -0.5, 0, 0], [0, 0, 0, -1, 2], [0, 0, 0, -2, -1]]
        self.good("sheet", self.matrix(rows), "--from", "0", "--to", "0", "-o", "s")
        out = self.good("show", "s").split("Modes")[1].split("\n")[3:7]
        self.assertEqual(out[0].split(), ["1*", "0", "0.25", "0", "-0.25", "doubles", "in", "2.77259", "-"])
        self.assertEqual(out[1].split(), ["2", "1", "0", "0", "0", "stays", "-"])
        self.assertEqual(out[2].split(), ["3", "2", "-0.5", "0", "0.5", "1.38629", "-"])
        self.assertEqual(out[3].split(), ["4", "3,", "4", "-1", "+-2", "1", "0.693147", "3.14159"])

    def modes_shown(self, rows, start=0):
        """The cells of the table of modes, and the lines below it."""
        out = self.good("show", self.request(rows, start))
        lines = out.split("Modes")[1].split("Vectors, ")[0].rstrip("\n").split("\n")[3:]
        below = [line for line in lines if line.startswith("The ")]
        return [line.split() for line in lines[: len(lines) - len(below)]], below

    def test_block_that_is_not_standardised(self):
        for block, told in [
            ([[1, 2], [-3, 4]], True),
            ([[1, 2], [3, 1]], True),
            ([[1, 0], [5, 1]], True),
            ([[1, 2], [-3, 1]], False),
            ([[1, 0], [0, 4]], False),
        ]:
            out = self.good("show", self.request(block))
            self.assertEqual("The 2-block in rows 0, 1 is not standardised" in out, told, block)
            self.assertEqual("from mode 1 on they need not be vectors of these modes" in out, told, block)

    def test_values_of_a_block_that_is_not_standardised(self):
        """They are those of a copy that is standardised first: unequal diagonal numbers, one sign, b zero,
        and a copy whose imaginary size is 0."""
        for block, pairs in [
            (
                [[1, 2], [-3, 4]],
                [["1*", "0,", "1", "2.5", "+-1.93649", "-2.5", "doubles", "in", "0.277259", "3.24462"]],
            ),
            (
                [[1, 2], [3, 1]],
                [
                    ["1*", "0,", "1", "3.44949", "0", "-3.44949", "doubles", "in", "0.200942", "-"],
                    ["2*", "0,", "1", "-1.44949", "0", "1.44949", "0.478201", "-"],
                ],
            ),
            (
                [[1, 0], [5, 2]],
                [
                    ["1*", "0,", "1", "2", "0", "-2", "doubles", "in", "0.346574", "-"],
                    ["2*", "0,", "1", "1", "0", "-1", "doubles", "in", "0.693147", "-"],
                ],
            ),
            (
                [[-4, -1], [1, -2]],
                [
                    ["1*", "0,", "1", "-3", "0", "3", "0.231049", "-"],
                    ["2*", "0,", "1", "-3", "0", "3", "0.231049", "-"],
                ],
            ),
        ]:
            shown, below = self.modes_shown(block)
            self.assertEqual(shown, pairs)
            self.assertEqual(len(below), 2)

    def test_real_pair_among_rows(self):
        """It has two numbers, one pair of brackets, two columns; what is above it is not in doubt."""
        rows = [[-3, 0.5, 0.5, 1], [0, 1, 2, 1], [0, 3, 1, 0.5], [0, 0, 0, -2]]
        shown, below = self.modes_shown(rows, 2)
        self.assertEqual([cells[0] for cells in shown], ["1", "2*", "3*", "4"])
        self.assertEqual(shown[1][1:4], ["1,", "2", "3.44949"])
        self.assertEqual(shown[2][1:4], ["1,", "2", "-1.44949"])
        self.assertEqual(len(below), 2)
        self.assertIn("The 2-block in rows 1, 2", below[0])
        self.assertIn("from mode 2 on", below[1])
        form, vectors = self.good("show", self.request(rows)).split("Modes")
        self.assertEqual((form.count("["), form.count("]")), (4, 4))
        self.assertEqual(form.split("\n")[6].split(), ["1", ".", "[", "1", "2]", "1"])
        heads = vectors.split("Vectors")[1].split("\n")[2]
        self.assertEqual(heads.split(), ["1", "2,", "3", "re", "2,", "3", "im", "4"])

    def test_standardised_block(self):
        out = self.good("show", self.request([[-1, 2, 3], [-3, -1, 4], [0, 0, 5]]))
        self.assertEqual(out[: out.index("\nA mode goes as")], STANDARD)

    def test_nan_in_a_block(self):
        nan = math.nan
        for a, b, c, d in itertools.product([nan, 1.0], [nan, 0.0, 2.0], [nan, -3.0], [nan, 1.0]):
            name = self.request([[a, b], [c, d]])
            self.assertIn("mode  rows", self.good("show", name))
            self.good("plot", name, "-o", "p.svg")
        self.assertEqual(self.modes_shown([[1, 2], [nan, 1]])[0][0][3:5], ["1", "+-nan"])

    def are_vectors(self, n, form, found, factor=None):
        """The form times each mode's vector, through the factor if there is one, is its value times it."""
        for mode in found:
            parts = [*mode.block.columns, [0.0] * n][:2]
            if factor is not None:
                parts = [modes.through(n, factor, part) for part in parts]
            vector = [complex(*pair) for pair in zip(*parts)]
            for i in range(n):
                left = sum(form[i + n * j] * vector[j] for j in range(n))
                self.assertAlmostEqual(left, complex(mode.re, mode.im) * vector[i], places=13)

    def test_vectors_are_vectors(self):
        before = texts.parse_request((EXAMPLES / "slow-mode.txt").read_text(), "")
        after = texts.parse_sheet((EXAMPLES / "slow-mode.sheet").read_text(), "")
        for form, factor in ((before.form, None), (after.form, None), (before.form, after.factor)):
            self.are_vectors(6, form, modes.modes_of(6, form if factor is None else after.form), factor)

    def test_an_exchange_standardises(self):
        """The way out that is told: after it the vectors, through the factor, are those of the old form."""
        for block in ([[1, 2], [-3, 4]], [[1, 2], [3, 1]], [[1, 0], [5, 2]]):
            rows = [[-3, 0.5, 0.75], [0, *block[0]], [0, *block[1]]]
            words = ["--from", "0", "--to", "2", "--factor", "unit", "-o", "s"]
            self.good("sheet", self.matrix(rows), *words)
            self.assertNotIn("standardised", self.good("show", "s"))
            after = texts.parse_sheet((self.at / "s").read_text(), "s")
            self.are_vectors(3, texts.square(rows, ""), modes.modes_of(3, after.form), after.factor)

    def test_csv_comes_back_exactly(self):
        for kind in ("form", "factor"):
            out = self.good("show", str(EXAMPLES / "slow-mode.sheet"), "--csv", kind)
            self.good(
                "sheet",
                self.file("m", self.good("show", str(EXAMPLES / "slow-mode.sheet"), "--csv", "form")),
                "--from",
                "0",
                "--to",
                "0",
                "--factor",
                self.file("u", out),
                "-o",
                "s",
            )
            again = texts.parse_sheet((self.at / "s").read_text(), "s")
            first = texts.parse_sheet((EXAMPLES / "slow-mode.sheet").read_text(), "")
            self.assertEqual(
                list(map(texts.word_of, again.factor)), list(map(texts.word_of, getattr(first, kind)))
            )
        self.bad(
            "has no factor",
            "show",
            self.file("s", "answer=0\nlanded=0\nswaps=0\ndeclined=0\nt=0000000000000000\nu=\n"),
            "--csv",
            "factor",
        )

    def test_csv_of_both_is_the_sheet(self):
        names = [str(EXAMPLES / "slow-mode.txt"), str(EXAMPLES / "slow-mode.sheet")]
        self.assertEqual(
            self.good("show", *names, "--csv", "form"), self.good("show", names[1], "--csv", "form")
        )

    def test_digits_and_factor(self):
        out = self.good(
            "show", str(EXAMPLES / "slow-mode.sheet"), "--digits", "17", "--factor", "--through-factor"
        )
        self.assertIn("-0.062500000000000042", out)
        self.assertIn("\nFactor:\n", out)
        self.assertIn("the factor times that of the form", out)
        for word in ("0", "18", "x"):
            self.bad("--digits", "show", str(EXAMPLES / "slow-mode.sheet"), "--digits", word)

    def test_wide_forms_go_on_below(self):
        self.good(
            "sheet",
            self.matrix([[1 / 3] * 32 if i == 0 else [0.0] * 32 for i in range(32)]),
            "--from",
            "0",
            "--to",
            "0",
            "-o",
            "s",
        )
        self.assertTrue(all(len(line) <= 110 for line in self.good("show", "s").split("\n")))

    def test_turned_away(self):
        out = self.good("show", str(EXAMPLES / "refused.sheet"))
        self.assertEqual(
            out, "Turned away with answer 5: an entry more than one row below the diagonal is not zero.\n"
        )
        self.bad("the entry in row 3, column 1 is 0.5", "show", str(EXAMPLES / "refused.txt"))
        for answer, said in ((17, "the stride is below n, or above 128"), (99, "no answer of a move")):
            out = self.good("show", self.file("s", f"answer={answer}\n"))
            self.assertIn(f"Turned away with answer {answer}: {said}", out)

    def test_bad_texts(self):
        form = "3ff0000000000000"
        for text, said in [
            ("hello\n", "neither a sheet"),
            ("", "neither a sheet"),
            (f"n=1\nfrom=0\nto=0\nt={form}\n", "a request has 5 lines"),
            (f"n=1\nfrom=0\nto=0\nt={form}\nu=", "each ending in a newline"),
            (f"n=01\nfrom=0\nto=0\nt={form}\nu=\n", "line 1: 'n=01' is not the line n="),
            (f"n=1\nfrom=0\nto=0\nt={form.upper()}\nu=\n", "line 4"),
            (f"n=1\nfrom=0\nto=0\nt={form}0\nu=\n", "line 4"),
            (f"n=2\nfrom=0\nto=0\nt={form}\nu=\n", "the form has 1 number, and 2 times 2 are 4"),
            (
                f"n=1\nfrom=0\nto=0\nt={form}\nu={form} {form}\n",
                "the factor has 2 numbers, and 1 times 1 are 1",
            ),
            (f"n=1\nfrom=1\nto=0\nt={form}\nu=\n", "from=1 is no row, rows are 0 to 0"),
            ("n=0\nfrom=0\nto=0\nt=\nu=\n", "asks for 0 rows"),
            ("n=65\nfrom=0\nto=0\nt=\nu=\n", "asks for 65 rows"),
            (
                f"answer=0\nlanded=0\nswaps=0\ndeclined=0\nt={form} {form}\nu=\n",
                "the form has 2 numbers, and 1 times 1 are 1",
            ),
            ("answer=0\n", "a sheet has 6 lines"),
            (f"answer=5\nlanded=0\nswaps=0\ndeclined=0\nt={form}\nu=\n", "answer 5 has no further line"),
        ]:
            with self.subTest(text=text):
                self.bad(said, "show", self.file("s", text))
        both = [str(EXAMPLES / name) for name in ("slow-mode.txt", "two-rows.sheet")]
        self.bad("do not belong together", "show", *both)
        self.bad("one of each", "show", both[0], both[0])

    def test_library_is_missing(self):
        self.bad(
            "bindings/python/build",
            "show",
            str(EXAMPLES / "two-rows.sheet"),
            whole=True,
            VOLMEIXI_LIBRARY=str(self.at / "none"),
        )
        self.bad(
            "bindings/python/build",
            "show",
            str(EXAMPLES / "two-rows.sheet"),
            whole=True,
            VOLMEIXI_LIBRARY=self.file("x.so", "no library"),
        )


class PlotCommand(Desk):
    def picture(self, *names):
        self.assertEqual(self.good("plot", *names, "-o", "p.svg"), "")
        return xml.etree.ElementTree.parse(self.at / "p.svg").getroot()

    def test_before_and_after(self):
        names = [str(EXAMPLES / "slow-mode.txt"), str(EXAMPLES / "slow-mode.sheet")]
        root = self.picture(*names)
        self.assertEqual(len(root.findall(f"{SVG}circle")), 12)  # 4 single rows and a pair, twice
        words = [text.text for text in root.findall(f"{SVG}text")]
        self.assertIn("before: row 5 is to go to row 0", words)
        self.assertIn("after: landed in row 0, 4 swaps, 0 declined", words)
        first = (self.at / "p.svg").read_bytes()
        self.picture(names[0])  # the request alone is run
        self.assertEqual((self.at / "p.svg").read_bytes(), first)

    def test_places_and_marks(self):
        """In both planes the moved mode is the orange point next to zero; it is 5, then 1."""
        root = self.picture(str(EXAMPLES / "slow-mode.txt"))
        orange = [
            float(dot.get("cx")) for dot in root.findall(f"{SVG}circle") if dot.get("fill") == plot.MOVED
        ]
        self.assertEqual(len(orange), 2)
        bold = [
            text.text
            for text in root.findall(f"{SVG}text")
            if text.get("fill") == plot.MOVED and text.get("stroke")
        ]
        self.assertEqual(bold, ["5", "1"])
        for left, x in zip((plot.LEFT, plot.LEFT + plot.PANEL + plot.GAP), orange):
            others = [
                float(dot.get("cx"))
                for dot in root.findall(f"{SVG}circle")
                if left <= float(dot.get("cx")) <= left + plot.PANEL
            ]
            self.assertEqual(x, max(others))

    def test_a_sheet_alone_and_equal_values(self):
        self.good("sheet", self.matrix([[-1, 0], [0, -1]]), "--from", "0", "--to", "0", "-o", "s")
        root = self.picture("s")
        self.assertEqual(len(root.findall(f"{SVG}circle")), 1)
        self.assertIn("1, 2", [text.text for text in root.findall(f"{SVG}text")])

    def test_real_pair(self):
        """Both values of a 2-block of one sign are drawn, numbered and named."""
        self.good("sheet", self.matrix([[1, 2], [3, 1]]), "--from", "0", "--to", "0", "-o", "s")
        root = self.picture("s")
        circles = root.findall(f"{SVG}circle")
        self.assertEqual([dot.get("fill") for dot in circles], [plot.MOVED] * 2)
        self.assertEqual(circles[0].get("cy"), circles[1].get("cy"))
        self.assertLess(float(circles[1].get("cx")), float(circles[0].get("cx")))
        texts_of = root.findall(f"{SVG}text")
        self.assertEqual([text.text for text in texts_of if text.get("stroke")], ["1", "2"])
        words = [text.text for text in texts_of]
        self.assertIn("rows 0\u20131: 3.449", words)
        self.assertIn("rows 0\u20131: \u22121.449", words)

    def test_what_is_not_finite_is_named(self):
        self.good("sheet", self.matrix([[math.nan, 0], [0, -1]]), "--from", "0", "--to", "0", "-o", "s")
        root = self.picture("s")
        self.assertEqual(len(root.findall(f"{SVG}circle")), 1)
        self.assertIn("row 0: nan (not drawn)", [text.text for text in root.findall(f"{SVG}text")])

    def test_all_sizes_of_numbers(self):
        """From the least to the greatest float, and nothing but zeros."""
        for numbers, drawn in [
            ([5e-324, -5e-324], 2),
            ([1.7e308, -1e-300], 1),
            ([1e300, -1e300], 2),
            ([0.0, 0.0], 1),
        ]:
            self.good(
                "sheet",
                self.matrix([[numbers[0], 0.0], [0.0, numbers[1]]]),
                "--from",
                "0",
                "--to",
                "0",
                "-o",
                "s",
            )
            root = self.picture("s")
            circles = root.findall(f"{SVG}circle")
            self.assertEqual(len(circles), drawn, numbers)
            for dot in circles:
                self.assertTrue(plot.LEFT < float(dot.get("cx")) < plot.LEFT + plot.PANEL)

    def test_labels_keep_clear(self):
        """32 modes: no label lies on another, or on a point."""
        spread = [plot.Panel(0, (-4.0, 1.0), (-3.0, 3.0))]
        dots = [(-0.11 * k, 0.0) for k in range(16)] + [(-0.2 * k, 0.3 * (k % 5) - 0.6) for k in range(16)]
        panel = spread[0]
        for re, im in dots:
            panel.taken.append((panel.x(re) - 6, panel.y(im) - 6, panel.x(re) + 6, panel.y(im) + 6))
        for k, (re, im) in enumerate(dots):
            panel.spot(panel.x(re), panel.y(im), str(k + 1))
        labels, rest = panel.taken[2 + len(dots) :], panel.taken[: 2 + len(dots)]
        for k, (a, b, c, d) in enumerate(labels):
            for e, f, g, h in labels[:k] + rest:
                self.assertFalse(a < g and e < c and b < h and f < d)

    def test_up_is_up(self):
        panel = plot.Panel(0, (-1.0, 1.0), (-1.0, 3.0))
        self.assertEqual((panel.x(-1.0), panel.x(1.0)), (0, plot.PANEL))
        self.assertEqual((panel.y(3.0), panel.y(-1.0)), (plot.TOP, plot.TOP + plot.PANEL))

    def test_ticks(self):
        self.assertEqual(plot.ticks(-3.4, 0.4), [-3.0, -2.0, -1.0, 0.0])
        self.assertEqual(len(plot.ticks(-1e-300, 1e-300)), 5)
        for low, high in [(-1, 1), (0, 7e9), (-2e-9, 3e-9)]:
            self.assertTrue(3 <= len(plot.ticks(low, high)) <= 8)

    def test_bad(self):
        self.bad("the entry in row 3, column 1", "plot", str(EXAMPLES / "refused.txt"), "-o", "p.svg")
        self.bad("turned away with answer 5", "plot", str(EXAMPLES / "refused.sheet"), "-o", "p.svg")
        self.bad("-o", "plot", str(EXAMPLES / "slow-mode.txt"))
        self.bad("cannot be written", "plot", str(EXAMPLES / "slow-mode.txt"), "-o", "none/p.svg")


if __name__ == "__main__":
    unittest.main()
