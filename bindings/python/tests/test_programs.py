"""The programs of the examples beside plain readings, on graphs, groups, tables, matrices and texts at random. It runs where the package is
installed; the examples are those of the repository. With the word times it prints how long each takes beside pandas, scipy and `re`, as
far as these are there, in milliseconds.

    python3 -m unittest test_programs
    python3 test_programs.py times
"""

import collections
import itertools
import pathlib
import random
import re
import statistics
import sys
import timeit
import unittest

import numpy

import cvl

sys.path.insert(0, str(pathlib.Path(__file__).resolve().parents[3] / "examples/python"))

from breadth_first import breadth_first
from connected_parts import connected_parts
from dictionary import columns_of, encode, sums_of
from groups import Groups, sort_groups
from join import join
from matrix_product import matrix_product
from tokens import tokens_of
from test_cvl import Limited


def graph(edges):
    """Edges of each vertex, as segments and the vertices at their ends."""
    ends = [end for row in edges for end in row]
    return cvl.Segments([len(row) for row in edges]), numpy.array(ends, numpy.int32)


def graphs():
    """Graphs of few vertices, and some that take many rounds: none, one, ways in both orders, stars, rings, and any."""
    drawn = random.Random(1)
    yield []
    yield [[]]
    yield [[0]]
    for many in (2, 5, 40):
        yield [[v + 1] for v in range(many - 1)] + [[]]
        yield [[]] + [[v] for v in range(many - 1)]
        yield [[(v + 1) % many] for v in range(many)]
        yield [list(range(many))] + [[] for _ in range(many - 1)]
        yield [[] for _ in range(many - 1)] + [list(range(many))]
    for _ in range(150):
        many = drawn.randrange(1, 30)
        yield [[drawn.randrange(many) for _ in range(drawn.choice((0, 0, 1, 1, 3)))] for _ in range(many)]


def levels_plainly(edges, source):
    levels, queue = {source: 0}, collections.deque([source])
    while queue:
        vertex = queue.popleft()
        for end in edges[vertex]:
            if end not in levels:
                levels[end] = levels[vertex] + 1
                queue.append(end)
    return [levels.get(vertex, -1) for vertex in range(len(edges))]


def parts_plainly(edges):
    both = [list(row) for row in edges]
    for vertex, row in enumerate(edges):
        for end in row:
            both[end].append(vertex)
    parts, count = [-1] * len(edges), 0
    for vertex in range(len(edges)):
        if parts[vertex] < 0:
            for other, level in enumerate(levels_plainly(both, vertex)):
                parts[other] = count if level >= 0 else parts[other]
            count += 1
    return parts


def matrix(drawn, many, width):
    """A matrix at random, as a dictionary of each row, and as its rows, columns and values."""
    counts = [drawn.choice((0, 1, 3)) if width else 0 for _ in range(many)]
    rows = [{drawn.randrange(width): drawn.randrange(-9, 9) for _ in range(count)} for count in counts]
    columns, values = [[part for row in rows for part in kind(row)] for kind in (dict.keys, dict.values)]
    return rows, (cvl.Segments([len(row) for row in rows]), cvl.as_ints(columns), cvl.as_ints(values))


def product_plainly(rows, others):
    """Each row of the product, as the sum of each column."""
    for row in rows:
        found = {}
        for column, value in row.items():
            for other, factor in others[column].items():
                found[other] = found.get(other, 0) + value * factor
        yield dict(sorted(found.items()))


TOKEN = re.compile(rb"#[^\n]*|[A-Za-z_\x80-\xff0-9]+|[^ \t\n\v\f\r]", re.DOTALL)


def tokens_plainly(text):
    """The tokens of a text, each with its start and its class."""
    for found in TOKEN.finditer(text):
        token = found.group()
        if token[:1] != b"#":
            yield found.start(), len(token), 2 if token[:1].isdigit() else 3 if re.match(rb"[A-Za-z_\x80-\xff]", token) else 1


class Programs(Limited):
    def test_searches_by_breadth(self):
        for edges in graphs():
            for source in range(min(len(edges), 3)):
                levels, before = breadth_first(*graph(edges), source)
                self.assertEqual(levels.tolist(), levels_plainly(edges, source), edges)
                for vertex, (level, other) in enumerate(zip(levels, before)):
                    if level > 0:
                        self.assertEqual((levels[other], vertex in edges[other]), (level - 1, True), edges)
                    else:
                        self.assertEqual(other, -1, edges)

    def test_connected_parts(self):
        for edges in graphs():
            self.assertEqual(connected_parts(*graph(edges)).tolist(), parts_plainly(edges), edges)

    def test_groups(self):
        drawn = random.Random(2)
        for many in (1, 2, 7, 40):
            groups, all_of = Groups(many), [[] for _ in range(many)]
            for n in (0, 1, 3, 100):
                keys, values = [drawn.randrange(many) for _ in range(n)], [drawn.randrange(-99, 99) for _ in range(n)]
                groups.add_up(cvl.as_ints(keys), cvl.as_ints(values))
                for key, value in zip(keys, values):
                    all_of[key].append(value)
            self.assertEqual(groups.counts.tolist(), list(map(len, all_of)))
            self.assertEqual(groups.sums.tolist(), list(map(sum, all_of)))
            self.assertEqual(groups.least.tolist(), [min(found, default=2**31 - 1) for found in all_of])
            self.assertEqual(groups.greatest.tolist(), [max(found, default=-(2**31)) for found in all_of])

    def test_a_key_that_is_no_group(self):
        groups = Groups(3)
        groups.add_up(cvl.as_ints([0, 2]), cvl.as_ints([5, 6]))
        with self.assertRaises(cvl.Fault):
            groups.add_up(cvl.as_ints([0, 3]), cvl.as_ints([7, 8]))
        self.assertEqual((groups.counts.tolist(), groups.sums.tolist()), ([1, 0, 1], [5, 0, 6]))

    def test_groups_of_any_keys(self):
        drawn = random.Random(3)
        for n in (0, 1, 2, 3, 50, 300):
            keys, values = [drawn.randrange(-9, 9) for _ in range(n)], [drawn.randrange(-(2**31), 2**31) for _ in range(n)]
            found = [part.tolist() for part in sort_groups(cvl.as_ints(keys), cvl.as_ints(values))]
            all_of = {key: sorted(value for other, value in zip(keys, values) if other == key) for key in sorted(set(keys))}
            wanted = [[*all_of], *([*map(what, all_of.values())] for what in (len, sum, statistics.median_low))]
            self.assertEqual(found, wanted)

    def test_joins(self):
        drawn = random.Random(4)
        for n, m, apart in itertools.product((0, 1, 3, 40), (0, 3, 60), (1, 1 << 27)):
            left, right = ([drawn.randrange(-9, 9) * apart for _ in range(count)] for count in (n, m))
            found = join(cvl.as_ints(left), cvl.as_ints(right))
            wanted = [(j, k) for j in range(n) for k in range(m) if left[j] == right[k]]
            self.assertEqual([*zip(*(rows.tolist() for rows in found))], wanted)

    def test_dictionaries(self):
        drawn = random.Random(5)
        for n in (0, 1, 2, 7, 200):
            words = [bytes(drawn.choice(b"ab\xff") for _ in range(drawn.choice((1, 2, 3, 4, 5, 9)))) for _ in range(n)]
            lengths = [len(word) for word in words]
            starts = [sum(lengths[:k]) for k in range(n)]
            numbers, first = encode(*columns_of(b"".join(words), cvl.as_ints(starts), cvl.as_ints(lengths)))
            self.assertEqual([words[row] for row in first[numbers]], words)
            self.assertEqual([words.index(words[row]) for row in first], first.tolist())
            self.assertEqual(len(first), len(set(words)))
            values = [drawn.randrange(99) for _ in range(n)]
            sums = sums_of(numbers, cvl.as_ints(values), len(first)).tolist()
            self.assertEqual(sums, [sum(value for word, value in zip(words, values) if word == words[row]) for row in first])

    def test_keys_of_several_columns(self):
        drawn = random.Random(6)
        columns = [[drawn.randrange(-2, 2) for _ in range(100)] for _ in range(3)]
        rows = [*zip(*columns)]
        numbers, first = encode(*map(cvl.as_ints, columns))
        self.assertEqual([sorted(set(rows)).index(row) for row in rows], numbers.tolist())
        self.assertEqual([rows.index(row) for row in sorted(set(rows))], first.tolist())

    def test_products_of_matrices(self):
        drawn = random.Random(7)
        for many, inner, width in ((0, 0, 0), (1, 1, 1), (3, 0, 2), (3, 2, 0), (9, 8, 7), (40, 30, 20)):
            (rows, a), (others, b) = matrix(drawn, many, inner), matrix(drawn, inner, width)
            found, columns, values = matrix_product(*a, *b)
            wanted = [*product_plainly(rows, others)]
            self.assertEqual(found.lengths.tolist(), [*map(len, wanted)])
            self.assertEqual(columns.tolist(), [column for row in wanted for column in row])
            self.assertEqual(values.tolist(), [value for row in wanted for value in row.values()])

    def test_a_column_that_is_no_row(self):
        rows, columns, values = cvl.Segments([2]), cvl.as_ints([0, 1]), cvl.as_ints([1, 1])
        with self.assertRaises(cvl.Fault) as caught:
            matrix_product(rows, columns, values, rows, columns, values)
        self.assertEqual((caught.exception.number, caught.exception.place), (cvl.faults.INDEX_OUT_OF_RANGE, 1))

    def test_tokens(self):
        drawn = random.Random(8)
        for n in (0, 1, 2, 3, 30, 300, 300, 300):
            text = bytes(drawn.choice(b"ab_Z09 \t\n\n#.(\x01\x7f\xc3\xa9") for _ in range(n))
            *found, wrong = tokens_of(text)
            wanted = [*tokens_plainly(text)]
            self.assertEqual([*zip(*(part.tolist() for part in found))], wanted, text)
            places = [start for start, length, kind in wanted if kind == 1 and text[start : start + length] in b"\x01\x7f"]
            self.assertEqual(wrong, min(places, default=-1), text)

    def test_a_vertex_that_is_not_there(self):
        rows, ends = graph([[1], [2]])
        for search in (breadth_first, 0), (breadth_first, 2), (connected_parts,):
            with self.assertRaises(cvl.Fault) as caught:
                search[0](rows, ends, *search[1:])
            self.assertEqual(caught.exception.number, cvl.faults.INDEX_OUT_OF_RANGE)


def measured(name, program, *others):
    """Prints the time of a program by one thread and by four, and what others take, each with its name, in turn."""
    runs = [("1 thread", 1, program), ("4 threads", 4, program), *((other, 4, work) for other, work in others)]
    best = {}
    for _ in range(3):
        for column, threads, work in runs:
            with cvl.threads(threads):
                best[column] = min(best.get(column, float("inf")), timeit.timeit(work, number=1) * 1000)
    print(f"{name}: " + ", ".join(f"{column} {best[column]:.1f}" for column, _, _ in runs), flush=True)


def graph_times(said, rows, ends):
    try:
        from scipy.sparse import csgraph, csr_matrix
    except ImportError:
        return
    matrix = csr_matrix((numpy.ones(len(ends)), ends, numpy.array(rows.offsets)), shape=(len(rows), len(rows)))
    measured(
        f"breadth_first.py, {said}",
        lambda: breadth_first(rows, ends, 0),
        ("scipy", lambda: csgraph.breadth_first_order(matrix, 0)),
    )
    others = ("scipy", lambda: csgraph.connected_components(matrix, directed=False))
    measured(f"connected_parts.py, {said}", lambda: connected_parts(rows, ends), others)


def graphs_times(rng, many=1 << 20, degree=8, side=1000):
    """On a graph at random, and on a grid, each of whose edges is there both ways."""
    ends = rng.integers(0, many, many * degree, dtype=numpy.int32)
    graph_times("a graph at random", cvl.Segments(numpy.full(many, degree)), ends)
    grid = numpy.arange(side * side, dtype=numpy.int32).reshape(side, side)
    pairs = [numpy.stack([a.ravel(), b.ravel()]) for a, b in ((grid[:, :-1], grid[:, 1:]), (grid[:-1], grid[1:]))]
    both = numpy.concatenate([*pairs, *(pair[::-1] for pair in pairs)], axis=1)
    both = both[:, numpy.argsort(both[0], kind="stable")]
    graph_times("a grid", cvl.Segments(numpy.bincount(both[0])), numpy.ascontiguousarray(both[1]))


def tables_times(rng, n=1 << 22, many=1 << 16):
    """Sums of groups, numbers of keys, and joins, beside pandas."""
    try:
        import pandas
    except ImportError:
        return
    few, any_keys, values = (rng.integers(0, limit, n, dtype=numpy.int32) for limit in (many, n, 1000))
    table = pandas.DataFrame({"few": few, "any": any_keys, "value": values})
    said = "4,194,304 values"
    measured(
        f"groups.py, sums of {said} in 65,536 groups",
        lambda: sums_of(few, values, many),
        ("pandas", lambda: table.groupby("few").value.sum()),
    )
    everything = ["count", "sum", "min", "max"]
    measured(
        f"groups.py, counts, sums and bounds of {said} in 65,536 groups",
        lambda: Groups(many).add_up(few, values),
        ("pandas", lambda: table.groupby("few").value.agg(everything)),
    )
    measured(
        f"groups.py, sums and medians of {said} by any keys",
        lambda: sort_groups(any_keys, values),
        ("pandas", lambda: table.groupby("any").value.agg(["count", "sum", "median"])),
    )
    measured(
        f"dictionary.py, numbers for {said}",
        lambda: encode(any_keys),
        ("pandas", lambda: pandas.factorize(any_keys, sort=True)),
        ("numpy", lambda: numpy.unique(any_keys, return_inverse=True)),
    )
    half = n // 4
    for said, factor in (("that lie close together", 1), ("of any size", 2654435761)):
        keys = ((any_keys[: 2 * half] // 4).astype(numpy.int64) * factor).astype(numpy.uint32).view(numpy.int32)
        left, right = keys[:half], keys[half:]
        tables = [
            pandas.DataFrame({"key": side, name: numpy.arange(half, dtype=numpy.int32)})
            for side, name in ((left, "left"), (right, "right"))
        ]
        measured(
            f"join.py, 1,048,576 rows on either side, keys {said}",
            lambda: join(left, right),
            ("pandas", lambda: tables[0].merge(tables[1], on="key")),
        )


def matrices_times(rng, many=1 << 16, degree=8):
    try:
        from scipy.sparse import csr_matrix
    except ImportError:
        return
    columns, values = rng.integers(0, many, many * degree, dtype=numpy.int32), rng.integers(
        0, 1000, many * degree, dtype=numpy.int32
    )
    rows = cvl.Segments(numpy.full(many, degree))
    matrix = csr_matrix((values, columns, numpy.array(rows.offsets)), shape=(many, many))

    def product():
        found = matrix @ matrix
        found.sort_indices()
        return found

    measured(
        "matrix_product.py, 65,536 rows with 8 entries each, squared",
        lambda: matrix_product(rows, columns, values, rows, columns, values),
        ("scipy with sorted columns", product),
        ("scipy", lambda: matrix @ matrix),
    )


def texts_times(rng, n=1 << 18):
    words = [b"add ", b"x ", b"y1 ", b"sum_of ", b"= ", b"(", b", ", b")\n", b" 40 ", b"# a comment\n", b"write ", b"\n"]
    text = b"".join(words[k] for k in rng.integers(0, len(words), n * 4))
    measured(f"tokens.py, a text of {len(text):,} bytes", lambda: tokens_of(text), ("re", lambda: [*TOKEN.finditer(text)]))
    starts, lengths, classes, _ = tokens_of(text)
    names = classes == 3
    starts, lengths = cvl.pck_luz(starts, names), cvl.pck_luz(lengths, names)

    def by_dict():
        numbers = {}
        slices = (text[start : start + length] for start, length in zip(starts.tolist(), lengths.tolist()))
        return [numbers.setdefault(word, len(numbers)) for word in slices]

    measured(
        f"dictionary.py, numbers for {len(starts):,} words",
        lambda: encode(*columns_of(text, starts, lengths)),
        ("a dict", by_dict),
    )


def times():
    """How long each takes, in milliseconds."""
    rng = numpy.random.default_rng(1)
    for what in tables_times, matrices_times, texts_times, graphs_times:
        what(rng)


if __name__ == "__main__":
    times() if sys.argv[1:] == ["times"] else unittest.main()
