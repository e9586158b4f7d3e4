"""`cvl.Ragged` beside numpy, row by row, on random rows of depth 1 to 3.

    python3 -m unittest test_ragged_cases      2,000 cases, always the same
    python3 test_ragged_cases.py CASES SEED    so many others
"""

import operator
import sys
import unittest

import numpy

import cvl

INT = numpy.int32
EXTREMES = numpy.array([0, 1, -1, 2, 7, 31, 2**31 - 1, -(2**31), -(2**31) + 1, 2**16, -(2**16)], INT)
ARITHMETIC = ("add", "subtract", "multiply", "floor_divide", "remainder", "left_shift", "right_shift")
OPERATIONS = (
    *ARITHMETIC, "bitwise_and", "bitwise_or", "bitwise_xor", "equal", "not_equal", "less", "less_equal", "greater", "greater_equal", "minimum",
    "maximum", "logical_and", "logical_or", "logical_xor",
)  # fmt: skip
QUOTIENTS, SHIFTS = ("floor_divide", "remainder"), ("left_shift", "right_shift")
NO_BOOLEANS = ("subtract", *QUOTIENTS, *SHIFTS)
SIGNS = {
    "add": operator.add, "subtract": operator.sub, "multiply": operator.mul, "floor_divide": operator.floordiv, "remainder": operator.mod,
    "bitwise_and": operator.and_, "bitwise_or": operator.or_, "bitwise_xor": operator.xor, "left_shift": operator.lshift,
    "right_shift": operator.rshift, "equal": operator.eq, "not_equal": operator.ne, "less": operator.lt, "less_equal": operator.le,
    "greater": operator.gt, "greater_equal": operator.ge,
}  # fmt: skip
JOINED = ("add", "multiply", "minimum", "maximum", "bitwise_and", "bitwise_or", "bitwise_xor")


def numbers(rng, count, kind):
    """Integers small and large, or booleans."""
    if kind == bool:
        return rng.random(count) < 0.5
    small = rng.integers(-9, 10, count, INT)
    return numpy.where(rng.random(count) < 0.2, EXTREMES[rng.integers(0, len(EXTREMES), count)], small).astype(INT)


def shape(rng, depth):
    """Lengths of rows, of which many are 0, as deep as this."""
    count = int(rng.integers(0, 6))
    if depth == 1:
        return [int(length) for length in rng.integers(0, 7, count) * (rng.random(count) < 0.7)]
    return [shape(rng, depth - 1) for _ in range(count)]


def filled(lengths, make):
    """Rows of such lengths, by a function that makes one of a length."""
    return [filled(one, make) if isinstance(one, list) else make(one) for one in lengths]


def mapped(function, *nested):
    """What a function of arrays gives of each innermost row, and of what stands beside it: rows, or a number for it."""
    return [mapped(function, *row) if isinstance(row[0], list) else function(*row) for row in zip(*nested)]


def levels(lengths, depth):
    """How many rows there are at each level, so that empty ones have their depth."""
    found, rows = [], lengths
    for level in range(depth):
        found.append([len(row) if isinstance(row, list) else row for row in rows])
        rows = [one for row in rows if isinstance(row, list) for one in row]
    return found


def leaves(nested):
    """The innermost rows, one after another."""
    return [leaf for row in nested for leaf in (leaves(row) if isinstance(row, list) else [row])]


def joined(rows, kind):
    """The numbers of rows, one behind the other."""
    return numpy.concatenate([numpy.zeros(0, kind), *rows]).astype(kind)


def ragged(lengths, depth, nested, kind):
    """The `Ragged` of rows, by their parts."""
    found = cvl.Ragged((joined(leaves(nested), kind), numpy.array(levels(lengths, depth)[-1], INT)))
    for counts in reversed(levels(lengths, depth)[:-1]):
        found = cvl.Ragged((found, numpy.array(counts, INT)))
    return found


def plain(nested):
    """As lists."""
    return [plain(row) if isinstance(row, list) else row.tolist() if hasattr(row, "tolist") else row for row in nested]


class Case:
    """Rows at random, of which three of seven groups of methods are compared."""

    def __init__(self, seed, number):
        self.rng = rng = numpy.random.default_rng([seed, number])
        self.depth = int(rng.integers(1, 4))
        self.kind = (INT, bool)[int(rng.random() < 0.3)]
        self.lengths = shape(rng, self.depth)
        self.rows = filled(self.lengths, lambda length: numbers(rng, length, self.kind))
        self.r = ragged(self.lengths, self.depth, self.rows, self.kind)
        self.failed = []

    def like(self, make, kind):
        """Other rows of the same lengths."""
        rows = filled(self.lengths, make)
        return rows, ragged(self.lengths, self.depth, rows, kind)

    def compare(self, name, found, wanted):
        found = found if isinstance(found, (list, bool, int)) else found.tolist()
        # as texts, since True is equal to 1
        if repr(found) != repr(plain(wanted)):
            self.failed.append(f"{name} of {plain(self.rows)}: {found}, and numpy {plain(wanted)}")

    # ---- elementwise ----

    def operations(self):
        rng, kind = self.rng, (INT, bool)[int(self.rng.random() < 0.3)]
        name = OPERATIONS[int(rng.integers(len(OPERATIONS)))]
        if self.kind == bool and kind == bool and name in NO_BOOLEANS:
            return

        def make(length):
            if name in SHIFTS:
                return rng.integers(0, 32, length, INT)
            found = numbers(rng, length, kind if name not in QUOTIENTS else INT)
            return found + (found == 0) if name in QUOTIENTS else found

        kind = INT if name in NO_BOOLEANS[1:] else kind
        ufunc = getattr(numpy, name)

        def wanted(a, b):
            with numpy.errstate(all="ignore"):
                found = ufunc(a, b)
            return found.astype(INT) if found.dtype != bool else found

        other, s = self.like(make, kind)
        self.compare(name, ufunc(self.r, s), mapped(wanted, self.rows, other))
        number = make(1)[0]
        self.compare(f"{name} {number}", ufunc(self.r, number), mapped(lambda a: wanted(a, number), self.rows))
        each = make(len(self.rows))

        def beside(rows, number):
            return [beside(row, number) if isinstance(row, list) else wanted(row, number) for row in rows]

        wide = [beside(row, number) if isinstance(row, list) else wanted(row, number) for row, number in zip(self.rows, each)]
        self.compare(f"{name} each", ufunc(self.r, each), wide)
        if name in SIGNS:
            self.compare(f"{name} sign", SIGNS[name](self.r, s), mapped(wanted, self.rows, other))
            self.compare(f"{name} list", SIGNS[name](self.r, each.tolist()), wide)
        if name not in NO_BOOLEANS[1:]:
            turned = [self.turned(wanted, row, number) for row, number in zip(self.rows, each)]
            self.compare(f"{name} swapped", ufunc(each, self.r), turned)

    def turned(self, wanted, rows, number):
        return [self.turned(wanted, row, number) for row in rows] if isinstance(rows, list) else wanted(number, rows)

    def on_one(self):
        for name in ("invert", "absolute", "logical_not", *(("negative", "positive") if self.kind == INT else ())):
            with numpy.errstate(all="ignore"):
                self.compare(name, getattr(numpy, name)(self.r), mapped(getattr(numpy, name), self.rows))

    # ---- rows ----

    def of_each(self):
        r, rows = self.r, self.rows
        self.compare("sum", r.sum(), mapped(lambda a: a.sum(dtype=INT), rows))
        if self.depth == 1:
            self.compare("exact sum", r.sum(exact=True), mapped(lambda a: a.sum(dtype=numpy.int64), rows))
        self.compare("prod", r.prod(), mapped(lambda a: a.prod(dtype=INT), rows))
        for name in ("min", "max"):
            self.compare(name, getattr(r, name)(initial=3), mapped(lambda a: getattr(a.astype(INT), name)(initial=3), rows))
        self.compare("any", r.any(), mapped(lambda a: a.any(), rows))
        self.compare("all", r.all(), mapped(lambda a: a.all(), rows))
        self.compare("count_nonzero", r.count_nonzero(), mapped(numpy.count_nonzero, rows))
        self.compare("first_true", r.first_true(), mapped(lambda a: int((a != 0).argmax()) if a.any() else -1, rows))
        full, s = self.like(lambda length: numbers(self.rng, length, self.kind), self.kind)
        if all(len(leaf) for leaf in leaves(full)):
            for name in ("min", "max", "argmin", "argmax"):
                self.compare(name, getattr(s, name)(), mapped(lambda a: getattr(a, name)(), full))

    def along(self):
        r, rows = self.r, self.rows
        self.compare("cumsum", r.cumsum(), mapped(lambda a: a.cumsum(dtype=INT), rows))
        before = mapped(lambda a: numpy.append(INT(0), a.cumsum(dtype=INT))[: len(a)], rows)
        self.compare("exclusive_cumsum", r.exclusive_cumsum(), before)
        self.compare("cummax", r.cummax(), mapped(numpy.maximum.accumulate, rows))
        self.compare("cummin", r.cummin(), mapped(numpy.minimum.accumulate, rows))
        self.compare("diff", r.diff(), mapped(numpy.diff, rows))
        self.compare("reverse", r.reverse(), mapped(lambda a: a[::-1], rows))
        self.compare("sort", r.sort(), mapped(numpy.sort, rows))
        self.compare("argsort", r.argsort(), mapped(lambda a: a.argsort(kind="stable"), rows))
        self.compare("rank", r.rank(), mapped(lambda a: a.argsort(kind="stable").argsort(), rows))
        self.compare("unique", r.unique(), mapped(numpy.unique, rows))
        by, fill = int(self.rng.integers(-8, 9)), numbers(self.rng, 1, self.kind)[0].item()

        def moved(a):
            new = [fill] * min(abs(by), len(a))
            return [*new, *a.tolist()][: len(a)] if by >= 0 else [*a.tolist(), *new][len(new) :]

        self.compare(f"shift {by} {fill}", r.shift(by, fill), mapped(moved, rows))

    def taken(self):
        rng, r, rows = self.rng, self.r, self.rows

        def places(a):
            return rng.integers(-len(a), len(a), int(rng.integers(0, 6)), INT) if len(a) else numpy.zeros(0, INT)

        wide = mapped(places, rows)
        lengths = [len(leaf) for leaf in leaves(wide)]
        index = cvl.Ragged((joined(leaves(wide), INT), lengths))
        for counts in reversed(levels(self.lengths, self.depth)[:-1]):
            index = cvl.Ragged((index, numpy.array(counts, INT)))
        self.compare("take", r.take(index), mapped(lambda a, i: a[i], rows, wide))
        mask, m = self.like(lambda length: rng.random(length) < 0.5, bool)
        self.compare("filter", r.filter(m), mapped(lambda a, chosen: a[chosen], rows, mask))
        other, s = self.like(lambda length: numbers(rng, length, self.kind), self.kind)
        self.compare("append", r.append(s), mapped(numpy.append, rows, other))
        self.compare("concat", cvl.Ragged.concat([r, s, r]), mapped(lambda a, b: numpy.concatenate([a, b, a]), rows, other))
        self.compare("where", cvl.Ragged.where(m, r, s), mapped(numpy.where, mask, rows, other))
        self.compare("repeat", r.repeat(3), mapped(lambda a: a.repeat(3), rows))
        counts, c = self.like(lambda length: rng.integers(0, 4, length, INT), INT)
        self.compare("repeat each", r.repeat(c), mapped(lambda a, n: a.repeat(n), rows, counts))
        self.compare("bincount", c.bincount(), mapped(numpy.bincount, counts))
        self.compare("bincount", c.bincount(minlength=3), mapped(lambda a: numpy.bincount(a, minlength=3), counts))
        self.joined(index, wide)

    def joined(self, index, wide):
        name = JOINED[int(self.rng.integers(len(JOINED)))]
        sent = mapped(lambda i: numbers(self.rng, len(i), self.kind), wide)
        values = index._on_rows(lambda rows: rows._with(joined(leaves(sent), self.kind)))
        found = self.r.copy()

        def wanted(a, i, b):
            changed = a.copy()
            getattr(numpy, name).at(changed, i, b)
            return changed

        getattr(numpy, name).at(found, index, values)
        self.compare(f"{name}_at", found, mapped(wanted, self.rows, wide, sent))

    def chosen(self):
        rng, r, rows = self.rng, self.r, self.rows
        count = len(rows)
        self.compare("flatten", r.flatten(), joined(leaves(rows), self.kind).tolist())
        self.compare("rows", [plain([row])[0] for row in r], rows)
        for k in range(-count, count):
            self.compare(f"r[{k}]", r[k], rows[k])
        start, stop, step = (int(part) for part in rng.integers(-7, 8, 3))
        for key in (slice(start, stop), slice(start, None), slice(start, stop, step or 1)):
            self.compare(f"r[{key}]", r[key], rows[key])
        index = rng.integers(-count, count, 4) if count else numpy.zeros(0, int)
        self.compare("r[index]", r[index], [rows[k] for k in index])
        mask = rng.random(count) < 0.5
        self.compare("r[mask]", r[mask], [row for row, is_chosen in zip(rows, mask) if is_chosen])
        self.compare("same", [cvl.Ragged(r).equals(r), r[:].equals(r)], [True, True])

    def grouped(self):
        r, rows = self.r, self.rows
        keys = self.rng.integers(-2, 3, len(rows), INT)
        distinct, groups = r.groupby(keys)
        wanted = numpy.unique(keys).tolist()
        self.compare("keys", distinct, wanted)
        self.compare("groupby", groups, [[row for row, key in zip(rows, keys) if key == one] for one in wanted])
        numbers_of, values = r.explode()
        self.compare("explode", numbers_of, [k for k, row in enumerate(rows) for _ in row])
        self.compare("implode", cvl.Ragged.implode(numbers_of, values, len(rows)), rows)
        places = self.rng.permutation(len(numbers_of)).astype(INT)
        other = values[places] if isinstance(values, cvl.Ragged) else values[places]
        items = [item for row in rows for item in row]
        turned = [[items[k] for k in places if numbers_of[k] == row] for row in range(len(rows))]
        self.compare("implode", cvl.Ragged.implode(numbers_of[places], other, len(rows)), turned)

    def run(self):
        parts = self.operations, self.on_one, self.of_each, self.along, self.taken, self.chosen, self.grouped
        for k in self.rng.permutation(len(parts))[:3]:
            parts[k]()
        return self.failed


class Cases(unittest.TestCase):
    def test_cases(self):
        for number in range(2000):
            self.assertEqual(Case(1, number).run(), [], number)


def main(words):
    cases, seed = map(int, words)
    failed = 0
    for number in range(cases):
        told = Case(seed, number).run()
        failed += bool(told)
        for line in told:
            print(f"case {number}: {line}")
    print(f"{cases} cases, {failed} differ")
    sys.exit(failed > 0)


if __name__ == "__main__":
    main(sys.argv[1:])
