"""The compiler of examples/python/flatten: its programs beside their plain forms, programs at random as vector calls and as
scripts beside Python, the lines of errors, and what it refuses. It runs where the package is installed; CVL_PROGRAM names the
program `cvl`, else it is that of the checkout. With a number it compares so many programs at random.

    python3 -m unittest test_flatten
    python3 test_flatten.py 100000
"""

import doctest
import linecache
import os
import pathlib
import random
import re
import shutil
import subprocess
import sys
import tempfile
import threading
import traceback
import unittest

import cvl

TOP = pathlib.Path(__file__).resolve().parents[3]
sys.path.insert(0, str(TOP / "examples/python"))

from flatten import Refused, kinds, nested, programs, random_programs
from test_cvl import Limited

PROGRAM = os.environ.get("CVL_PROGRAM") or str(TOP / "crates/cvl/out/cvl")


def numbers(drawn, count, below, least=0):
    return [drawn.randrange(least, below) for _ in range(count)]


def graph(drawn, many, most):
    return [numbers(drawn, drawn.randrange(most), many) for _ in range(many)]


def both_ways(edges):
    found = [list(row) for row in edges]
    for vertex, row in enumerate(edges):
        for end in row:
            found[end].append(vertex)
    return found


def inputs(drawn, n):
    """The thirteen programs, each with arguments at random: the second number is about how long they are."""
    entries, row_count = numbers(drawn, n, n + 1), n // 3
    rows = [numbers(drawn, drawn.randrange(4), n) if n else [] for _ in range(row_count)]
    yield programs.sparse_product, rows, entries, entries, numbers(drawn, n + 1, 99, -99)
    yield programs.matrix_product, [numbers(drawn, 4, 99, -99) for _ in range(n // 4)], [numbers(drawn, 3, 99) for _ in range(4)]
    yield programs.quicksort, numbers(drawn, n, 50, -50)
    yield programs.mergesort, numbers(drawn, n, 50, -50)
    yield programs.primes, n
    yield programs.histogram, numbers(drawn, n, 9), 9
    yield programs.distances, graph(drawn, n + 1, 3), drawn.randrange(n + 1)
    yield programs.parts, both_ways(graph(drawn, n, 2))
    yield programs.hull, [tuple(numbers(drawn, 2, 20)) for _ in range(n)]
    yield programs.queens, min(n, 6)
    yield programs.visible, numbers(drawn, n, 1000)
    yield programs.words, [drawn.choice(b"  ab") for _ in range(n)]
    yield programs.closure, graph(drawn, n // 2, 3)


class Programs(Limited):
    def test_beside_their_plain_forms(self):
        drawn = random.Random(1)
        for n in (0, 1, 2, 3, 5, 20, 60):
            for program, *given in inputs(drawn, n):
                wanted = program.plain(*given)
                self.assertEqual(program(*given), wanted, (program.name, given))

    def test_what_they_compute(self):
        self.assertEqual(programs.sparse_product([[0, 1], [], [2, 3]], [0, 2, 1, 2], [2, 1, 3, 4], [1, 2, 3]), [5, 0, 18])
        self.assertEqual(programs.matrix_product([[1, 2], [3, 4]], [[5, 6], [7, 8]]), [[19, 22], [43, 50]])
        self.assertEqual(programs.primes(30), [2, 3, 5, 7, 11, 13, 17, 19, 23, 29])
        self.assertEqual(programs.distances([[1], [2], [0], [0]], 0), [0, 1, 2, -1])
        self.assertEqual(programs.parts([[2], [], [0], [4], [3]]), [0, 1, 0, 3, 3])
        self.assertEqual(programs.hull([(0, 0), (2, 2), (0, 4), (4, 4), (4, 0)]), [(0, 0), (0, 4), (4, 4), (4, 0)])
        self.assertEqual(list(map(len, map(programs.queens, range(1, 7)))), [1, 0, 0, 2, 10, 4])
        self.assertEqual(programs.visible([0, 1, 1, 5, 2]), [False, True, False, True, False])
        self.assertEqual(bytes(programs.words(list(b" to  be"))[1]), b"be")
        self.assertEqual(programs.closure([[1], [2], []]), [[1, 2], [2], []])

    def test_on_threads(self):
        drawn = random.Random(2)
        n = 300_000
        rows, columns = [list(range(k, k + 3)) for k in range(0, n, 3)], numbers(drawn, n, 1000)
        given = rows, columns, numbers(drawn, n, 99), numbers(drawn, 1000, 99)
        with cvl.threads(4):
            self.assertEqual(programs.sparse_product(*given), programs.sparse_product.plain(*given))

    def test_as_scripts(self):
        drawn = random.Random(3)
        for n in (0, 1, 5, 20):
            for program, *given in inputs(drawn, n):
                if program in (programs.sparse_product, programs.words):
                    script = program.script(*given)
                    printed, stopped = script.run(PROGRAM)
                    self.assertEqual(stopped, "")
                    self.assertEqual(program.value(given, script.vectors(printed)), program.plain(*given), program.name)
                elif program is programs.quicksort:
                    self.assertRaisesRegex(ValueError, "quicksort calls itself", program.script, *given)


class RandomPrograms(Limited):
    LIMIT = 240

    def test_against_python(self):
        for seed in range(300):
            random_programs.compare(seed)

    def test_scripts_against_python(self):
        for seed in range(60):
            random_programs.compare(seed, lambda script: script.run(PROGRAM))


def made(text):
    """The function f of a text, whose lines are found."""
    file = f"<{text}>"
    linecache.cache[file] = len(text), None, text.splitlines(True), file
    names = {}
    exec(compile(text, file, "exec"), names)
    return names["f"]


@nested
def inverse(rows):
    return [
        [100 // x
         for x in row]
        for row in rows
    ]  # fmt: skip


@nested
def later(v):
    first = [100 // x for x in v]
    return [x[5] for x in [first]]


@nested
def counted(n):
    return 0 if n == 0 else 1 + counted(n - 1)


@nested
def for_ever(x):
    return for_ever(x)


@nested
def with_last(rows):
    return [[100 // x + row[-1] for x in row] for row in rows]


@nested
def third(x):
    return [5, 6, 7][x]


@nested
def thirds(a, b, x):
    return third(a) + 9 // x + third(b)


@nested
def slices(v, ends):
    return [(v[a:b], v[a:], v[:b], v[::-1], v[: len(v) // 2]) for a, b in ends]


@nested
def slices_of_slices(rows, ends):
    return [[sum(row[a:b][-2:]) for row in rows] for a, b in ends]


@nested
def in_a_branch(x):
    a = 9 // (x - 5) if x > 4 else 0
    return [1, 2, 3][x] + a


@nested
def in_branches(v):
    return [in_a_branch(x) for x in v]


@nested
def in_a_row(row):
    quotients = [9 // x for x in row]
    return quotients[1]


@nested
def in_rows(rows):
    return [in_a_row(row) for row in rows]


@nested
def of_each(v):
    return [(100 // x) + [5, 7][x] for x in v]


class Errors(Limited):
    def stops(self, kind, line, function, *given, inside=None):
        try:
            function(*given)
        except kind as error:
            frame = traceback.extract_tb(error.__traceback__)[-1]
        function = inside or function
        code = function.plain.__code__
        self.assertEqual(
            (frame.lineno - code.co_firstlineno, frame.filename, frame.name), (line, code.co_filename, function.name)
        )

    def test_lines(self):
        self.stops(ZeroDivisionError, 3, inverse, [[1], [2, 0], [0]])
        self.stops(ZeroDivisionError, 2, later, [1, 0])
        self.stops(IndexError, 3, later, [1, 2])

    def test_first_iteration(self):
        """In the order of the elements, whatever fails first in all of them together."""
        self.stops(IndexError, 2, of_each, [1, 2, 0])
        self.stops(ZeroDivisionError, 2, of_each, [1, 0, 2])
        self.stops(ZeroDivisionError, 2, with_last, [[1, 2], [3, 4, 0, 5]])

    def test_calls_side_by_side(self):
        """They are made together unless something between them may fail."""
        self.assertEqual(programs.mergesort.listing([1]).count(" = mergesort("), 2)
        self.assertEqual(thirds(0, 1, 2), 15)
        self.stops(ZeroDivisionError, 2, thirds, 0, 5, 0)
        self.stops(IndexError, 2, thirds, 5, 0, 0, inside=third)

    def test_slices(self):
        ends = [(a, b) for a in range(-5, 6) for b in range(-5, 6)]
        for v in ([], [1], [1, 2, 3, 4]):
            self.assertEqual(slices(v, ends), slices.plain(v, ends))
        rows = [[], [7], [1, 2, 3, 4, 5]]
        self.assertEqual(slices_of_slices(rows, ends), slices_of_slices.plain(rows, ends))

    def test_iterations_of_blocks(self):
        """The iteration around a block that fails is that to which the element or the flag belongs."""
        self.stops(IndexError, 3, in_branches, [0, 3, 1, 5], inside=in_a_branch)
        self.stops(IndexError, 3, in_rows, [[1, 1], [1], [0]], inside=in_a_row)
        self.stops(ZeroDivisionError, 2, in_branches, [0, 1, 5, 4], inside=in_a_branch)
        self.stops(ZeroDivisionError, 2, in_rows, [[1, 1], [1, 0], [5]], inside=in_a_row)

    def test_deep_recursion(self):
        before = sys.getrecursionlimit()
        found = []
        threads = [threading.Thread(target=lambda: found.append(counted(300))) for _ in range(8)]
        for thread in threads:
            thread.start()
        for thread in threads:
            thread.join()
        self.assertEqual((found, sys.getrecursionlimit()), ([300] * 8, before))
        self.assertRaises(RecursionError, for_ever, 1)
        self.assertEqual(sys.getrecursionlimit(), before)

    def test_wrong_arguments(self):
        for given in ([1.5], "ab", [[1], 2], None, [(1,), (1, 2)]):
            self.assertRaises(TypeError, programs.quicksort, given)
        self.assertRaises(TypeError, programs.quicksort)
        self.assertRaises(TypeError, programs.quicksort, [1], [2])
        self.assertRaisesRegex(Refused, "len takes a list: int and", programs.matrix_product, [1], [2])
        self.assertRaisesRegex(OSError, "write it into a file", exec, "@nested\ndef f(v): return v", {"nested": nested})

    def test_examples(self):
        self.assertEqual(doctest.testmod(kinds).failed, 0)

    def test_numbers_of_32_bits(self):
        least, greatest = -(2**31), 2**31 - 1
        values = 0, 1, -1, 2, -2, 3, 46341, -46341, 65536, -65536
        values += (*range(least, least + 9), *range(greatest - 8, greatest + 1))
        of_one = "-a", "a + 7", "-7 - a", "a * 3", "a * -3", "a // -1", "a % -5"
        for op in ("a + b", "a - b", "a * b", "a // b", "a % b", "sum([a, b])", *of_one):
            text = f"def f(a, b):\n    return {op}\n"
            checked, wraps, plainly = nested(made(text)), nested(made(text), wraps=True), made(text)
            for a in values:
                for b in values[1:] if op in ("a // b", "a % b") else values:
                    wanted = plainly(a, b)
                    self.assertEqual(wraps(a, b), (wanted + 2**31) % 2**32 - 2**31, (op, a, b))
                    if least <= wanted <= greatest:
                        self.assertEqual(checked(a, b), wanted, (op, a, b))
                    else:
                        self.assertRaises(OverflowError, checked, a, b)
        self.assertRaises(OverflowError, programs.quicksort, [2**31])


REFUSED = (
    ("    while v: pass\n    return v", 2, 5, "While is not in the language; write a recursion"),
    ("    return [x / 2 for x in v]", 2, 13, "Div is not in the language; write // for a whole quotient"),
    ("    v.append(1)\n    return v", 2, 5, "Expr is not in the language; a statement has to assign or to return"),
    ("    return 1.5", 2, 12, "float is not in the language; write integers, booleans, lists and tuples"),
    ("    return 2147483648", 2, 12, "2147483648 does not fit 32 bits; write a number from -2147483648 to 2147483647"),
    ("    return 3 in v", 2, 12, "In is not in the language; write any([y == x for y in v])"),
    ("    w = zip(v, v)\n    return 1", 2, 9, "this can be walked only once; write list(..) or [..]"),
    ("    if len(v) > 1: return v", 2, 5, "the function may end here without a value; end each way with a return"),
    ("    return v[::2]", 2, 14, "a slice has a step; write [::-1], or a comprehension over a range"),
    ("    return v + 1", 2, 12, "a list is joined with something else: [int] and int; make them the same"),
    ("    return sum(v) and True", 2, 12, "a condition has another type: int and bool; make them the same"),
    ("    return w", 2, 12, "w has no value on each way to here; give it one before, or as an argument"),
    ("    if len(v) > 1: w = 1\n    return w", 3, 12, "w has no value on each way to here; give it one before"),
    ("    return print(v)", 2, 12, "print is no nested function; decorate it, or call one of len, sorted, "),
    ("    return any(1 // x > 0 for x in v)", 2, 12, "any may stop before an element that fails; compute all of them: put the"),
    ("    v += [1]\n    return v", 2, 5, "+= changes a list that may have other names; write x = x + .."),
    ("    return [v, 1]", 2, 16, "elements of a list differ: int and [int]; make them the same"),
)


class Refusals(Limited):
    def test_line_and_column(self):
        for body, line, column, said in REFUSED:
            text = f"def f(v):\n{body}\n"
            function = made(text)
            with self.assertRaises(Refused, msg=body) as caught:
                nested(function)([1, 2])
            found = caught.exception
            self.assertEqual((found.lineno, found.offset, found.msg[: len(said)]), (line, column, said), body)
            self.assertEqual(found.text, text.splitlines(True)[line - 1])


BY_THE_PAGE = """
from flatten import nested

@nested
def parts(rows, by):
    return [[divmod(x, by) for x in row] for row in rows]

given = [[7, -7], [], [9]], -4
assert parts(*given) == parts.plain(*given), parts(*given)
for wrong, kind in ((0, ZeroDivisionError), (-1, OverflowError)):
    try:
        parts([[-(2**31)]], wrong)
    except kind:
        continue
    raise AssertionError(wrong)
"""


class Page(Limited):
    def test_divmod(self):
        """What the page says adds a function to the compiler."""
        page = (TOP / "docs/user/flattening.md").read_text()
        blocks = re.findall(r"^   ```python\n(.*?)^   ```", page, re.M | re.S)
        infer, functions = (re.sub("^   ", "", block, flags=re.M) for block in blocks)
        with tempfile.TemporaryDirectory() as folder:
            copy = pathlib.Path(shutil.copytree(TOP / "examples/python/flatten", pathlib.Path(folder, "flatten")))
            language = (copy / "language.py").read_text()
            (copy / "language.py").write_text(language.replace("BUILTINS = (", 'BUILTINS = ("divmod", '))
            for name, block in (("infer", infer), ("functions", functions)):
                with open(copy / f"{name}.py", "a") as file:
                    file.write(f"\n{block}")
            pathlib.Path(folder, "by_the_page.py").write_text(BY_THE_PAGE)
            done = subprocess.run([sys.executable, pathlib.Path(folder, "by_the_page.py")], capture_output=True, text=True)
        self.assertEqual((done.returncode, done.stderr), (0, ""))


if __name__ == "__main__":
    random_programs.main(sys.argv[1], 0, PROGRAM) if sys.argv[1:] else unittest.main()
