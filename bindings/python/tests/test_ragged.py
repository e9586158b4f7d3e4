"""What `cvl.Ragged` is made of and gives back, what it refuses and says then, and how it is shown. `test_ragged_cases` compares
its methods with numpy."""

import copy
import doctest
import gc
import importlib
import inspect
import pickle
import sys
import threading
import unittest
import weakref

import numpy

import cvl

sys.dont_write_bytecode = True
from arrow_by_hand import Consumer, Node, Producer, bits

Ragged = cvl.Ragged
ROWS = [[3, 1], [], [4, 1, 5]]
DEEP = [[[1, 2], []], [], [[3]]]


def ints(*numbers):
    return numpy.array(numbers, dtype=numpy.int32)


class Refusing(unittest.TestCase):
    def refused(self, error, said, call, *arguments, **more):
        with self.assertRaises(error) as caught:
            call(*arguments, **more)
        self.assertIn(said, str(caught.exception))
        return caught.exception


class Made(Refusing):
    def test_of_lists(self):
        for rows in (ROWS, DEEP, [], [[]], [[[]], []], [[True], [False, True]], [[[[1], []], [[2, 3]]], [[]]]):
            self.assertEqual(Ragged(rows).tolist(), rows)
        self.assertEqual((Ragged(ROWS).depth, Ragged(DEEP).depth, Ragged([]).depth, Ragged([[], [[]]]).depth), (1, 2, 1, 2))
        self.assertEqual((Ragged(ROWS).dtype, Ragged([[True]]).dtype, Ragged([[]]).dtype), (numpy.int32, bool, numpy.int32))
        self.assertEqual(Ragged([[1.0], (2,), ints(3)]).tolist(), [[1], [2], [3]])
        self.assertEqual(Ragged([[], []], dtype=bool).dtype, bool)

    def test_of_parts(self):
        values = ints(3, 1, 4)
        r = Ragged((values, [2, 0, 1]))
        self.assertIs(r.values, values)
        self.assertEqual(r.tolist(), [[3, 1], [], [4]])
        rows = cvl.Segments([2, 0, 1])
        self.assertIs(Ragged((values, rows)).segments, rows)
        self.assertEqual(Ragged((r, [1, 2])).tolist(), [[[3, 1]], [[], [4]]])
        self.assertEqual(Ragged.from_offsets(values, [0, 2, 2, 3]).tolist(), r.tolist())
        self.assertEqual(Ragged.from_rows([numpy.arange(2), ints(), ints(7)]).tolist(), [[0, 1], [], [7]])
        self.assertEqual(Ragged.from_rows(numpy.zeros(0, bool) for _ in range(2)).dtype, bool)

    def test_of_arrays_and_columns(self):
        self.assertEqual(Ragged(numpy.arange(6).reshape(2, 3)).tolist(), [[0, 1, 2], [3, 4, 5]])
        cube = numpy.arange(24).reshape(2, 3, 4)
        self.assertEqual(Ragged(cube).tolist(), cube.tolist())
        self.assertEqual(Ragged(numpy.zeros((2, 0), bool)).tolist(), [[], []])

        class Column:  # as a pandas column of lists
            def __init__(self, rows):
                self.rows = rows

            def tolist(self):
                return self.rows

        self.assertEqual(Ragged(Column([[1], [], ints(2, 3)])).tolist(), [[1], [], [2, 3]])
        self.refused(TypeError, "rows[1] is nan, and has to be a list of numbers", Ragged, Column([[1], float("nan")]))

    def test_refused(self):
        for error, said, data in (
            (TypeError, "rows[1] is 3, and has to be a list of numbers, as others are", [[1], 3]),
            (TypeError, "rows[0][1] is 2, and has to be a list", [[[1], 2]]),
            (TypeError, "rows[1][0] is 2, and has to be a list", [[[1]], [2]]),
            (ValueError, "rows[2][1] is 1.5, and has to be a whole number", [[1], [], [2, 1.5]]),
            (OverflowError, "rows[1][0][0] is 2147483648, which does not fit 32 bits", [[[1]], [[2**31]]]),
            (TypeError, "which are no numbers", [["a"]]),
            (TypeError, "which are no numbers", [[None]]),
            (TypeError, "an array of 1 dimensions has no rows; write cvl.Ragged([a])", ints(1, 2)),
            (TypeError, "a tuple is (values, lengths); rows are a list", ([1], [2], [3])),
            (cvl.Fault, "fault 7 LengthMismatch: the lengths add up to 3, and there are 2 values", (ints(1, 2), [3])),
            (cvl.Fault, "fault 12 NegativeLength at 1: lengths[1] is -1", (ints(1), [2, -1])),
            (TypeError, "and not of a int", 5),
            (TypeError, "and not of a dict", {}),
            (TypeError, "elements are int32 or bool, and not float64", None),
        ):
            self.refused(error, said, Ragged, *([data] if data is not None else [[[1]], float]))
        self.refused(TypeError, "has a mask", Ragged, (numpy.ma.array([1], mask=[True]), [1]))
        self.refused(cvl.Fault, "fault 12 NegativeLength at 1", Ragged.from_offsets, ints(1), [0, 2, 1])

    def test_other_numbers(self):
        shifted = numpy.zeros(9, numpy.uint8)[1:].view(numpy.int32)
        for values in (numpy.array([7, 8], ">i4"), numpy.array([7, 8]), numpy.array([7, 0, 8])[::2], numpy.array([7.0, 8.0])):
            self.assertEqual(Ragged((values, [1, 1])).sort().tolist(), [[7], [8]])
        self.assertEqual(Ragged((shifted, [2])).sum().tolist(), [0])

    def test_scipy(self):
        try:
            from scipy.sparse import csc_matrix, csr_matrix
        except ImportError:
            self.skipTest("there is no scipy")
        matrix = csr_matrix(numpy.array([[0, 2, 1], [0, 0, 0], [3, 0, 0]], numpy.int32))
        columns, data = Ragged.from_scipy(matrix)
        self.assertEqual((columns.tolist(), data.tolist()), ([[1, 2], [], [0]], [[2, 1], [], [3]]))
        self.assertTrue(numpy.shares_memory(data.values, matrix.data) and numpy.shares_memory(columns.values, matrix.indices))
        self.assertEqual(data.to_scipy(columns, 3).toarray().tolist(), matrix.toarray().tolist())
        self.assertEqual(data.to_scipy(columns).shape, (3, 3))
        self.refused(TypeError, "write matrix.tocsr()", Ragged.from_scipy, csc_matrix(matrix))
        self.refused(TypeError, "write columns, data = cvl.Ragged.from_scipy(matrix)", Ragged, matrix)
        self.refused(TypeError, "a matrix has rows of numbers", Ragged(DEEP).to_scipy, Ragged(DEEP))


class OfArrow(Refusing):
    """With a producer and a consumer by hand."""

    def of_ints(self, offsets=(0, 2, 2, 5), kind="+l", values=(3, 1, 4, 1, 5), **more):
        numbers, wide = numpy.array(values, numpy.int32), numpy.array(offsets, numpy.int64 if kind == "+L" else numpy.int32)
        buffers = [more.pop("valid", None), wide]
        return Node(kind, more.pop("length", len(offsets) - 1), buffers, [Node("i", len(values), [None, numbers])], **more)

    def test_integers_stay_where_they_are(self):
        node = self.of_ints()
        producer = Producer(node)
        r = Ragged(producer)
        self.assertEqual(r.tolist(), ROWS)
        self.assertEqual(r.values.ctypes.data, node.children[0].buffers[1].ctypes.data)
        self.assertFalse(r.values.flags.writeable)
        self.refused(ValueError, "the memory of r may not be written; write r.copy()", r.add_at, [[0], [], []], 1)
        row = r[2]
        del r
        gc.collect()
        self.assertEqual((producer.released, row.tolist()), ([], [4, 1, 5]))
        del row
        gc.collect()
        self.assertEqual(producer.released, ["array", "schema"])

    def test_offsets_that_do_not_begin_with_0(self):
        self.assertEqual(Ragged(Producer(self.of_ints((2, 2, 4, 5)))).tolist(), [[], [4, 1], [5]])
        self.assertEqual(Ragged(Producer(self.of_ints(offset=1, length=2))).tolist(), [[], [4, 1, 5]])
        node = self.of_ints((0, 1, 3))
        node.children[0].offset, node.children[0].length = 2, 3
        self.assertEqual(Ragged(Producer(node)).tolist(), [[4], [1, 5]])
        self.assertEqual(Ragged(Producer(self.of_ints(kind="+L"))).tolist(), ROWS)
        self.assertEqual(Ragged(Producer(self.of_ints(kind="+L", offset=2, length=1))).tolist(), [[4, 1, 5]])

    def test_booleans_and_rows_of_rows(self):
        flags = [True, False, True, True, False, False, True, False, True, True]
        of_bits = Node("b", 6, [None, bits(flags)], offset=3)
        r = Ragged(Producer(Node("+l", 2, [None, ints(1, 3, 6)], [of_bits])))
        self.assertEqual(r.tolist(), [flags[4:6], flags[6:9]])
        deep = Node("+l", 2, [None, ints(0, 2, 3)], [self.of_ints()])
        self.assertEqual(Ragged(Producer(deep)).tolist(), [ROWS[:2], ROWS[2:]])
        deep = Node("+l", 2, [None, ints(1, 2, 3)], [self.of_ints()])
        self.assertEqual(Ragged(Producer(deep)).tolist(), [ROWS[1:2], ROWS[2:]])

    def test_nothing(self):
        none = Node("+l", 0, [None, None], [Node("i", 0, [None, None])])
        self.assertEqual(Ragged(Producer(none)).tolist(), [])
        self.assertEqual(Ragged(Producer(Node("+l", 1, [None, ints(0, 0)], [Node("b", 0, [None, None])]))).tolist(), [[]])

    def test_nulls(self):
        valid = bits([True, False, True])
        for nulls in (1, -1):
            producer = Producer(self.of_ints(valid=valid, nulls=nulls))
            self.refused(ValueError, "row 1 is null, and a Ragged has no missing values", Ragged, producer)
        self.assertEqual(Ragged(Producer(self.of_ints(valid=valid, nulls=-1, offset=2, length=1))).tolist(), [[4, 1, 5]])
        for offset, length, row in ((1, 2, 0), (0, 2, 1)):
            producer = Producer(self.of_ints(valid=valid, nulls=1, offset=offset, length=length))
            self.refused(ValueError, f"row {row} is null", Ragged, producer)
        self.assertEqual(Ragged(Producer(self.of_ints(valid=bits([True] * 3), nulls=-1))).tolist(), ROWS)
        node = self.of_ints((2, 4, 5))
        node.children[0].buffers[0], node.children[0].nulls = bits([False, True, True, True, False]), 2
        self.refused(ValueError, "element 2 is null", Ragged, Producer(node))
        node.length = 1
        self.assertEqual(Ragged(Producer(node)).tolist(), [[4, 1]])

    def test_refused_and_released(self):
        longer, floats = self.of_ints((0, 2, 9)), Node("g", 1, [None, numpy.ones(1)])
        wide = Node("l", 1, [None, numpy.ones(1, int)])
        coded = Node("i", 1, [None, ints(0)], dictionary=Node("u", 0, []))

        def of_one(child):
            return Node("+l", 1, [None, ints(0, 1)], [child])

        for error, said, node in (
            (TypeError, "an Arrow array of int32 is no list", Node("i", 2, [None, ints(1, 2)])),
            (TypeError, "an Arrow array of text is no list", Node("u", 0, [None, ints(0), None])),
            (TypeError, "the Arrow list has elements of float64, and has to have int32 or bool", of_one(floats)),
            (TypeError, "the Arrow list has elements of int64", of_one(wide)),
            (TypeError, "the Arrow array has a dictionary", of_one(coded)),
            (ValueError, "has offsets 0 to 9, and 5 elements", longer),
            (ValueError, "has offsets -1 to 2", self.of_ints((-1, 2))),
            (cvl.Fault, "fault 12 NegativeLength at 1", self.of_ints((0, 4, 2, 5))),
            (ValueError, "no buffer for its elements", of_one(Node("i", 1, [None, None]))),
            (ValueError, "no buffer for its offsets", Node("+l", 1, [None], [Node("i", 1, [None, ints(1)])])),
        ):
            producer = Producer(node)
            self.refused(error, said, Ragged, producer)
            gc.collect()
            self.assertIn(producer.released, (["array", "schema"], []), said)
        producer = Producer(self.of_ints())
        Ragged(producer)
        self.refused(ValueError, "was released before", Ragged, producer)

    def test_no_capsules(self):
        class Wrong:
            def __arrow_c_array__(self, requested_schema=None):
                return 1, 2

        self.refused(TypeError, "has to give two capsules", Ragged, Wrong())
        turned = type("Turned", (), {"__arrow_c_array__": lambda self: Ragged(ROWS).__arrow_c_array__()[::-1]})
        self.refused(TypeError, "has to give two capsules", Ragged, turned())

    def test_given(self):
        for rows in (ROWS, DEEP, [[True], [], [False] * 9 + [True]], [], [[]], [[[True], []]]):
            r = Ragged(rows)
            consumer = Consumer(r)
            self.assertEqual(consumer.tolist(), rows)
            if r.dtype == numpy.int32 and r.size:
                self.assertEqual(consumer.address(), (r.values if r.depth == 1 else r.values.values).ctypes.data)
            self.assertEqual(Ragged(r).tolist(), rows)
            consumer.release()
            self.assertEqual((consumer.schema.release, consumer.array.release), (None, None))

    def test_given_longer_than_the_rows_are_there(self):
        r = Ragged(ROWS) + 0
        values = weakref.ref(r.values)
        consumer = Consumer(r[1:])
        del r
        gc.collect()
        self.assertIsNotNone(values())
        self.assertEqual(consumer.tolist(), ROWS[1:])
        thread = threading.Thread(target=consumer.release)
        thread.start()
        thread.join()
        gc.collect()
        self.assertIsNone(values())

    def test_capsules_that_nobody_takes(self):
        r = Ragged(ROWS) + 0
        values = weakref.ref(r.values)
        capsules = r.__arrow_c_array__()
        del r
        self.assertIsNotNone(values())
        del capsules
        gc.collect()
        self.assertIsNone(values())
        through = type("Through", (), {"__arrow_c_array__": lambda self: Ragged(DEEP).__arrow_c_array__()})
        self.assertEqual(Ragged(through()).tolist(), DEEP)


class Rows(Refusing):
    def test_views_are_of_the_same_memory(self):
        r = Ragged(ROWS)
        r[0][1] = 9
        self.assertEqual(r.tolist(), [[3, 9], [], [4, 1, 5]])
        self.assertTrue(numpy.shares_memory(r[1:].values, r.values))
        self.assertEqual(Ragged(DEEP)[2].tolist(), [[3]])
        self.assertIsInstance(r[numpy.int64(0)], numpy.ndarray)
        self.assertTrue(5 in r and 7 not in r)

    def test_refused(self):
        r = Ragged(ROWS)
        for error, said, key in (
            (IndexError, "the index is 3, and there are 3 rows", 3),
            (IndexError, "the index is -4, and there are 3 rows", -4),
            (IndexError, "index[1] is 3, and there are 3 rows", [0, 3]),
            (IndexError, "index[0] is -4, and there are 3 rows", [-4]),
            (IndexError, "the mask has 2 elements, and there are 3 rows", [True, False]),
            (IndexError, "and not by float64", [0.5]),
            (TypeError, "write r.filter(mask)", r > 1),
            (TypeError, "write r[i][j]", (0, 1)),
        ):
            self.refused(error, said, r.__getitem__, key)
        with self.assertRaisesRegex(TypeError, "does not support item assignment"):
            r[0] = [1]

    def test_values(self):
        r = Ragged(ROWS)
        self.assertEqual((len(r), r.size, r.lengths.tolist(), r.offsets.tolist()), (3, 5, [2, 0, 3], [0, 2, 2, 5]))
        self.refused(ValueError, "write r.flatten().any()", bool, r)
        self.refused(TypeError, "unhashable", hash, r)
        self.refused(TypeError, "write r.flatten() or r.values", numpy.asarray, r)
        objects = r.to_numpy()
        self.assertEqual((objects.dtype, [row.tolist() for row in objects]), (object, ROWS))
        for other in (pickle.loads(pickle.dumps(r)), copy.copy(r), copy.deepcopy(r), r.copy()):
            self.assertTrue(other.equals(r))
            other[0][0] = 99
            self.assertEqual(r[0][0], 3)
        deep = Ragged(DEEP)
        self.assertTrue(pickle.loads(pickle.dumps(deep)).equals(deep))
        self.assertFalse(deep.equals(r) or r.equals(Ragged([[3, 1, 4], [], [1, 5]])) or r.equals(ROWS))

    def test_segments_are_a_sequence(self):
        rows = cvl.Segments([2, 0, 3])
        self.assertEqual((list(rows), rows[2], rows[-1], rows[:2].tolist(), 0 in rows), ([2, 0, 3], 3, 3, [2, 0], True))
        self.assertEqual((numpy.asarray(rows).tolist(), numpy.asarray(rows).dtype), ([2, 0, 3], numpy.int32))
        self.assertEqual(numpy.array(rows, dtype=numpy.int64).dtype, numpy.int64)
        self.assertFalse(numpy.asarray(rows).flags.writeable)
        self.assertTrue(cvl.Segments(rows) == rows != cvl.Segments([2, 3]))
        self.assertEqual(len({rows, cvl.Segments([2, 0, 3])}), 1)
        self.refused(IndexError, "out of bounds", rows.__getitem__, 3)


class Shown(unittest.TestCase):
    def test_short(self):
        self.assertEqual(repr(Ragged(ROWS)), "Ragged([[3, 1],\n        [],\n        [4, 1, 5]])")
        for rows in (ROWS, DEEP, [], [[]], [[True, False], []]):
            self.assertTrue(eval(repr(Ragged(rows))).equals(Ragged(rows)))
        empty = Ragged([[], []], dtype=bool)
        self.assertEqual((repr(empty), eval(repr(empty)).dtype), ("Ragged([[],\n        []], dtype=bool)", bool))

    def test_long(self):
        long = Ragged((numpy.arange(5000), [1000] * 5))
        lines = repr(long).split("\n")
        self.assertEqual((len(lines), lines[0]), (5, "Ragged([[  0,   1,   2, ..., 997, 998, 999],"))
        self.assertEqual(lines[-1], "        [4000, 4001, 4002, ..., 4997, 4998, 4999]])")
        many = Ragged((numpy.arange(5000), [1] * 5000))
        lines = [line.strip() for line in repr(many).split("\n")]
        self.assertEqual(lines, ["Ragged([[0],", "[1],", "[2],", "...,", "[4997],", "[4998],", "[4999]])"])
        shown = many._repr_html_()
        self.assertIn("<tr><th>2</th><td>[2]</td></tr><tr><th></th><td>...</td></tr><tr><th>4997</th><td>[4997]</td></tr>", shown)
        self.assertIn("<p>5000 rows, 5000 elements of int32</p>", shown)
        pairs = Ragged((numpy.arange(5000), [2] * 2500))._repr_html_()
        self.assertIn("<tr><th></th><td>...</td></tr><tr><th>2497</th><td>[4994, 4995]</td></tr>", pairs)

    def test_described(self):
        for module in ("_methods", "ragged", "named", "segments"):
            found = doctest.testmod(importlib.import_module(f"cvl.{module}"))
            self.assertTrue(found.attempted > 0 and found.failed == 0, module)
        for name, method in inspect.getmembers(Ragged, callable):
            if not name.startswith("_"):
                self.assertTrue(inspect.getdoc(method), name)


class Operators(Refusing):
    def test_what_numpy_does_where_it_is(self):
        r = Ragged(ROWS)
        values = r.values
        r += 1
        r *= Ragged([[1, 2], [], [3, 4, 5]])
        self.assertIs(r.values, values)
        self.assertEqual(r.tolist(), [[4, 4], [], [15, 8, 30]])
        r //= [4, 1, 7]
        self.assertEqual(r.tolist(), [[1, 1], [], [2, 1, 4]])
        r += r
        r -= r[:]
        self.assertEqual((r.tolist(), r.values is values), ([[0, 0], [], [0, 0, 0]], True))
        whole = ints(1, 2, 3, 4)
        first, last = Ragged((whole[:3], [1, 2])), Ragged((whole[1:], [1, 2]))
        first += last
        self.assertEqual(whole.tolist(), [3, 5, 7, 4])
        deep = Ragged(DEEP)
        deep *= [2, 3, 4]
        deep ^= Ragged([[1, 0], [], [1]])
        self.assertEqual(deep.tolist(), [[[3, 5], []], [], [[13]]])
        flags = r == 0
        flags ^= [True, True, False]
        self.assertEqual(flags.tolist(), [[False, False], [], [True, True, True]])
        self.refused(TypeError, "the result is no boolean; write r = r.astype(numpy.int32)", (r > 1).__iadd__, r)
        self.refused(TypeError, "the result is no boolean", (r > 1).__iadd__, 1)
        for divisor in (0, [1, 1, 0]):
            self.refused(cvl.Fault, "fault 8 DivideByZero", r.__ifloordiv__, divisor)
        self.refused(cvl.Fault, "at (2, 0): the shift of place 0 in row 2 is 32", r.__ilshift__, [1, 1, 32])
        frozen = Ragged(ROWS)
        frozen.values.flags.writeable = False
        self.refused(ValueError, "the memory of r may not be written; write r.copy()", frozen.__iadd__, 1)
        deeper = Ragged((Ragged([[1]] * 5), [2, 0, 3]))
        self.refused(TypeError, "r has 1 levels of rows, and 2 stand beside it", r.__iadd__, deeper)

    def test_one_number_a_row(self):
        r = Ragged(ROWS)
        for each in ([10, 20, 30], ints(10, 20, 30), numpy.array([[10], [20], [30]]), numpy.arange(10, 40, 10)):
            self.assertEqual((r + each).tolist(), [[13, 11], [], [34, 31, 35]])
            self.assertEqual((each - r if isinstance(each, numpy.ndarray) else -(r - each)).tolist(), [[7, 9], [], [26, 29, 25]])
        deep = Ragged(DEEP)
        self.assertEqual((deep + [10, 20, 30]).tolist(), [[[11, 12], []], [], [[33]]])
        self.assertEqual((deep + Ragged([[10, 20], [], [30]])).tolist(), [[[11, 12], []], [], [[33]]])
        self.assertEqual((Ragged([[10, 20], [], [30]]) - deep).tolist(), [[[9, 8], []], [], [[27]]])
        self.assertEqual((r + ROWS).tolist(), [[6, 2], [], [8, 2, 10]])

    def test_rounding_is_numpys(self):
        for a in (-7, 7, 2**31 - 1, -(2**31)):
            for b in (-(2**31), -3, -2, -1, 1, 2, 3, 2**31 - 1):
                r = Ragged([[a]])
                wanted = [[(numpy.array([a]) // numpy.array([b])).astype(numpy.int32)[0]]], [[a % b]]
                self.assertEqual(((r // b).tolist(), (r % b).tolist()), wanted)
                self.assertEqual(((r // [b]).tolist(), (r % Ragged([[b]])).tolist()), wanted)

    def test_faults_say_row_and_place(self):
        r, deep = Ragged(ROWS), Ragged(DEEP)
        for said, call in (
            (
                "fault 8 DivideByZero at (2, 1): the divisor of place 1 in row 2 is 0",
                lambda: r // Ragged([[1, 1], [], [1, 0, 1]]),
            ),
            ("fault 8 DivideByZero at (0, 0): the divisor of place 0 in row 0 is 0", lambda: r % 0),
            ("fault 8 DivideByZero at (0, 0): the divisor of place 0 in row 0 is 0", lambda: 5 // (r * 0)),
            ("fault 8 DivideByZero at (2, 0): the divisor of place 0 in row 2 is 0", lambda: r // [1, 0, 0]),
            ("fault 8 DivideByZero at (2, 0, 0): the divisor of place 0 in row [2][0] is 0", lambda: deep // [1, 1, 0]),
            (
                "fault 9 ShiftOutOfRange at (2, 2): the shift of place 2 in row 2 is 32",
                lambda: r << Ragged([[1, 1], [], [1, 0, 32]]),
            ),
            ("fault 9 ShiftOutOfRange at (0, 0): the shift of place 0 in row 0 is -1", lambda: r >> -1),
            ("fault 10 IndexOutOfRange at (2, 1): row 2 has 3 elements, and index[2][1] is 3", lambda: r.take([[0], [], [0, 3]])),
            (
                "fault 10 IndexOutOfRange at (1, 0): row 1 has 0 elements, and index[1][0] is 0",
                lambda: r.take([[0], [0], [0, 3]]),
            ),
            ("fault 10 IndexOutOfRange at (0, 0): row 0 has 2 elements, and index[0][0] is -3", lambda: r.take([[-3], [], []])),
            ("fault 10 IndexOutOfRange at (1, 0): row 1 has 0 elements, and index[1] is 0", lambda: r.take([0, 0, 0])),
            (
                "fault 10 IndexOutOfRange at (0, 1, 0): row [0][1] has 0 elements, and index[0][1][0] is 5",
                lambda: deep.take([[[0], [5]], [], [[]]]),
            ),
            (
                "fault 10 IndexOutOfRange at (2, 0): row 2 has 3 elements, and index[2][0] is 7",
                lambda: r.copy().add_at([[0], [], [7]], 1),
            ),
            (
                "fault 12 NegativeLength at (2, 1): the count of place 1 in row 2 is -2",
                lambda: r.repeat([[1, 1], [], [1, -2, 3]]),
            ),
            ("fault 10 IndexOutOfRange at (0, 1): place 1 in row 0 is -1", lambda: Ragged([[3, -1]]).bincount()),
            ("fault 13 TooLong: the greatest element is 2147483647", lambda: Ragged([[2**31 - 1]]).bincount()),
            ("fault 7 LengthMismatch: row 1 has 0 elements, and row 1 beside it 1", lambda: r + Ragged([[1, 1], [1], [1, 1]])),
            ("fault 7 LengthMismatch: there are 3 rows, and 2 beside them", lambda: r + Ragged([[1, 1], [1]])),
            ("fault 7 LengthMismatch: there are 3 rows, and 2 numbers beside them", lambda: r + [1, 2]),
            ("fault 7 LengthMismatch: there are 3 rows, and 2 beside them", lambda: r.filter(Ragged([[True], [False]]))),
            ("fault 7 LengthMismatch: there are 3 rows, and 2 beside them", lambda: r.take([[-1], [0]])),
            ("fault 7 LengthMismatch: there are 3 rows, and 2 beside them", lambda: r.append([[1], [0]])),
            ("fault 7 LengthMismatch: there are 3 rows, and 2 beside them", lambda: r.add_at([[1], [0]], 1)),
            (
                "fault 7 LengthMismatch: row 1 has 1 elements, and row 1 beside it 0",
                lambda: r.add_at([[1], [0], []], [[1], [], []]),
            ),
            ("fault 7 LengthMismatch: row 0 has 2 elements, and row 0 beside it 1", lambda: deep.take([[[0]], [], [[0]]])),
        ):
            fault = self.refused(cvl.Fault, said, call)
            self.assertEqual(str(fault), said)
            self.assertEqual(str(pickle.loads(pickle.dumps(fault))), said)

    def test_ufuncs_that_have_no_call(self):
        r, a = Ragged(ROWS), ints(1, 2, 3)
        for said, call in (
            ("numpy.sqrt has no call; write numpy.sqrt(r.flatten()), or [numpy.sqrt(row) for row in r]", lambda: numpy.sqrt(r)),
            ("numpy.divide has no call", lambda: numpy.divide(r, r)),
            ("numpy.add.reduce takes no Ragged", lambda: numpy.add.reduce(r)),
            ("numpy.add.accumulate takes no Ragged", lambda: numpy.add.accumulate(r)),
            ("numpy.subtract.at takes no Ragged", lambda: numpy.subtract.at(r, [[0], [], []], 1)),
            ("numpy.add of a Ragged takes no out", lambda: numpy.add(r, r, out=(r,))),
            ("numpy.add of a Ragged takes no where", lambda: numpy.add(r, r, where=r > 1)),
            ("numpy.add of a Ragged takes no out", lambda: exec("a += r", {"a": a, "r": r})),
            ("fractions have no call; write r // s", lambda: r / 2),
            ("fractions have no call; write r // s", lambda: 2 / r),
            ("powers have no call", lambda: r**2),
            ("cvl.sparse_product", lambda: r @ r),
            ("write [numpy.median(row) for row in r]", lambda: numpy.median(r)),
            ("write r.sort(..)", lambda: numpy.sort(r)),
            ("write cvl.Ragged.concat([r, s])", lambda: numpy.concatenate([r, r])),
            ("write cvl.Ragged.where(mask, r, s)", lambda: numpy.where(r > 1, r, r)),
            ("b is no whole number but a float", lambda: r + 1.5),
            ("unsupported operand", lambda: r + "a"),
            ("subtract takes no booleans; write r.astype(numpy.int32)", lambda: (r > 1) - (r > 2)),
            ("negative takes no booleans", lambda: -(r > 1)),
        ):
            self.refused(TypeError, said, call)
        self.refused(OverflowError, "b is 2147483648, which does not fit 32 bits", lambda: r + 2**31)
        self.refused(ValueError, "numbers[0] is 1.5, and has to be a whole number", lambda: r + [1.5, 2, 3])
        self.assertFalse(r == None)  # noqa: E711

    def test_methods_refuse(self):
        r = Ragged(ROWS)
        for error, said, call in (
            (ValueError, "row 1 is empty and has no min; write min(initial=..), or r[r.lengths > 0].min()", r.min),
            (ValueError, "row 1 is empty and has no max", r.max),
            (ValueError, "row 1 is empty and has no argmax; write r[r.lengths > 0].argmax()", r.argmax),
            (ValueError, "row 1 is empty and has no argmin", r.argmin),
            (TypeError, "write r.sum(exact=True) / r.lengths", r.mean),
            (
                TypeError,
                "64 bits are no elements of a Ragged; write r.values.sum(exact=True)",
                lambda: Ragged(DEEP).sum(exact=True),
            ),
            (ValueError, "minlength is -1, and has to be 0 or more", lambda: r.bincount(-1)),
            (ValueError, "minlength is -1, and has to be 0 or more", lambda: cvl.bincount([1], -1)),
            (TypeError, "an index is no boolean; write r.filter(mask)", lambda: r.take(r > 1)),
            (TypeError, "an index is no boolean", lambda: r.add_at([True, False, True], 1)),
            (TypeError, "mask has to be of booleans; write mask != 0", lambda: r.filter(r)),
            (TypeError, "mask has to be of booleans", lambda: r.filter(1)),
            (TypeError, "concat takes a list of Ragged", lambda: Ragged.concat([])),
            (TypeError, "concat takes a list of Ragged", lambda: Ragged.concat([r, ROWS])),
            (TypeError, "where takes a Ragged", lambda: Ragged.where([True], [1], [2])),
            (TypeError, "keys are one a row", lambda: r.groupby(1)),
            (TypeError, "the values are integers, and r has booleans", lambda: (r > 1).add_at([[0], [], []], 5)),
            (TypeError, "'float' object cannot be interpreted as an integer", lambda: r.shift(0.5)),
            (TypeError, "fill is no whole number but a float", lambda: r.shift(1, 0.5)),
            (cvl.Fault, "there are 2 numbers, and 1 values", lambda: Ragged.implode([0, 1], [5])),
            (cvl.Fault, "IndexOutOfRange at 1", lambda: Ragged.implode([0, -1], [5, 6])),
            (cvl.Fault, "IndexOutOfRange at 1", lambda: Ragged.implode([0, 2], [5, 6], 2)),
            (cvl.Fault, "there are 3 rows, and 2 numbers beside them", lambda: r.groupby([1, 2])),
            (TypeError, "elements are int32 or bool, and not int64; write r.flatten().astype('int64')", lambda: r.astype(int)),
        ):
            self.refused(error, said, call)

    def test_each_method_refuses_each_kind_of_bad_input(self):
        r, no_numbers = Ragged(ROWS), (
            "a",
            None,
            1.5,
            {},
            object(),
            2**40,
            -(2**40),
            [0.5] * 3,
            [2**40] * 3,
            ["a"] * 3,
            [None] * 3,
        )
        no_rows = ([1, 2], [[1, 2], [3]], Ragged([[1, 2], [3]]), Ragged([[[1]]]), numpy.ones((2, 2, 2), int))
        masked = numpy.ma.array([1, 2, 3], mask=[True, False, False])
        for name, call in (
            *((sign, getattr(r, f"__{sign}__")) for sign in ("add", "rsub", "mul", "floordiv", "mod", "and", "xor", "lt", "ge", "iadd")),
            *((name, getattr(r, name)) for name in ("take", "filter", "append", "repeat", "groupby")),
            *((f"{name} to", lambda index, name=name: getattr(r, name)(index, 1)) for name in ("add_at", "minimum_at", "xor_at")),
            *((f"{name} of", lambda values, name=name: getattr(r, name)([0, 0, 0], values)) for name in ("add_at", "maximum_at")),
            ("where", lambda other: Ragged.where(r > 1, r, other)),
        ):  # fmt: skip
            for bad in (*no_numbers, *no_rows, masked):
                with self.assertRaises((TypeError, ValueError, OverflowError), msg=f"{name} {bad!r}"):
                    if call(bad) is NotImplemented:
                        raise TypeError
        for call in (r.min, r.max, r.bincount, r.shift, lambda fill: r.shift(1, fill), lambda to: r[to], lambda to: r.astype(to)):
            for bad in ("a", 1.5, {}, object(), [0.5], masked):
                with self.assertRaises((TypeError, ValueError, IndexError), msg=f"{call} {bad!r}"):
                    call(bad)
        self.assertEqual(r.tolist(), ROWS)

    def test_what_is_joined_stays_at_a_fault(self):
        r = Ragged(ROWS)
        with self.assertRaises(cvl.Fault):
            r.add_at([[0, 5], [], []], 1)
        self.assertEqual(r.tolist(), ROWS)
        self.assertEqual(r.add_at(r * 0, r).tolist(), [[7, 1], [], [14, 1, 5]])
        index = Ragged([[0, 1], [], [0]])
        self.assertEqual(index.add_at(index, index).tolist(), [[0, 2], [], [0]])
        self.assertIs(r.maximum_at([[1], [], []], 50), r)
        self.assertEqual(r[0].tolist(), [7, 50])
        self.assertEqual((r > 5).add_at([[0], [], [1]], True).tolist(), [[True, True], [], [True, True, False]])


class Flat(Refusing):
    def test_names(self):
        a = numpy.array([3, 1, 4, 1, 5])
        self.assertEqual(cvl.cumsum(a).tolist(), a.cumsum().tolist())
        self.assertEqual(cvl.cumsum(a > 1).tolist(), (a > 1).cumsum().tolist())
        self.assertEqual(cvl.argsort(a).tolist(), a.argsort(kind="stable").tolist())
        self.assertEqual((cvl.bincount(a).tolist(), cvl.bincount([]).tolist()), ([0, 2, 0, 1, 1, 1], []))
        self.assertEqual(cvl.bincount(a, 9).tolist(), [0, 2, 0, 1, 1, 1, 0, 0, 0])
        self.assertEqual((cvl.take(a, [4, -1, 0]).tolist(), cvl.take(a, []).tolist()), ([5, 5, 3], []))
        self.assertEqual(
            (cvl.take(a > 1, [1, 0]).tolist(), cvl.take(a, Ragged([[4], [], [-1]])).tolist()), ([False, True], [[5], [], [5]])
        )
        self.assertEqual((cvl.compress(a > 2, a).tolist(), cvl.compress([1, 0], [True, True]).tolist()), ([3, 4, 5], [True]))
        sums = ints(0, 0, 0)
        self.assertIs(cvl.add_at(sums, [2, 0, -1], [5, 6, 7]), sums)
        self.assertEqual((sums.tolist(), cvl.add_at(sums, [0, 0], 1).tolist()), ([6, 0, 12], [8, 0, 12]))
        keys, rows = cvl.groupby([5, 6, 7, 8], [2, 0, 2, 1])
        self.assertEqual((keys.tolist(), rows.tolist()), ([0, 1, 2], [[6], [8], [5, 7]]))
        self.assertEqual(cvl.groupby([], [])[1].tolist(), [])
        self.assertEqual(cvl.groupby(Ragged(ROWS), [1, 0, 1])[1].tolist(), [[[]], [[3, 1], [4, 1, 5]]])

    def test_refused(self):
        for error, said, call in (
            (cvl.Fault, "fault 10 IndexOutOfRange at 1: a has 2 elements, and index[1] is 2", lambda: cvl.take([7, 8], [0, 2])),
            (cvl.Fault, "index[0] is -3", lambda: cvl.take([7, 8], [-3])),
            (cvl.Fault, "at (1, 0): a has 2 elements, and index[1][0] is 2", lambda: cvl.take([7, 8], Ragged([[0], [2]]))),
            (TypeError, "an index is no boolean", lambda: cvl.take([7, 8], Ragged([[True]]))),
            (cvl.Fault, "fault 7 LengthMismatch", lambda: cvl.compress([True], [1, 2])),
            (cvl.Fault, "fault 10 IndexOutOfRange at 1", lambda: cvl.bincount([0, -1])),
            (cvl.Fault, "there are 1 keys, and 2 values", lambda: cvl.groupby([5, 6], [2])),
            (cvl.Fault, "IndexOutOfRange at 0", lambda: cvl.add_at(ints(1), [1], 1)),
            (TypeError, "out is no array but a list", lambda: cvl.add_at([0, 0], [0], 1)),
            (TypeError, "an index is no boolean; write cvl.compress(mask, a)", lambda: cvl.take([7], [True])),
            (TypeError, "a has 2 dimensions", lambda: cvl.cumsum([[1, 2], [3, 4]])),
            (ValueError, "a[1] is 0.5, and has to be a whole number", lambda: cvl.argsort([1, 0.5])),
            (OverflowError, "a[0] is 2147483648", lambda: cvl.cumsum([2**31])),
            (TypeError, "which are no numbers", lambda: cvl.cumsum(["a"])),
        ):
            self.refused(error, said, call)


if __name__ == "__main__":
    unittest.main()
