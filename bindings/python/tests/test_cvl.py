"""What the package says to arguments that are not as a call takes them, that nothing is copied, and what each name gives. It runs
where the package is installed, by itself: python3 -m unittest test_cvl."""

import array
import ast
import copy
import doctest
import faulthandler
import importlib
import inspect
import operator
import os
import pathlib
import pickle
import pydoc
import re
import signal
import subprocess
import sys
import tempfile
import threading
import unittest
import warnings

import numpy

import cvl

MOST = cvl.MOST_ELEMENTS


def ints(*numbers):
    return numpy.array(numbers, dtype=numpy.int32)


def flags(*values):
    return numpy.array(values, dtype=bool)


def zeros(count, dtype):
    """An array of so many zeros. Where it is long it has no memory before somebody writes it, but an address for each place."""
    try:
        return numpy.zeros(count, dtype)
    except MemoryError:
        raise unittest.SkipTest("there is no room for long vectors here") from None


class Column:
    """A column as pandas has it whose numbers may be missing, where pandas is not: what numpy makes of it are objects."""

    def __init__(self, items, kind):
        self.items, self.dtype = (
            items,
            type("Dtype", (), {"numpy_dtype": numpy.dtype(bool if kind == "boolean" else kind.lower())})(),
        )

    def isna(self):
        return numpy.array([item is None for item in self.items])

    def to_numpy(self, dtype):
        return numpy.array(self.items, dtype)

    def __array__(self, dtype=None, copy=None):
        return numpy.array(self.items, object)


def columns(items, kind):
    """Columns of these items, of which those that are None are missing: one as pandas has it, and where pandas is its own."""
    found = [Column(items, kind)]
    try:
        import pandas
    except ImportError:
        return found
    return [*found, pandas.Series(items, dtype=kind), pandas.array(items, dtype=kind)]


class Limited(unittest.TestCase):
    """A test that takes longer than its limit ends the process, which tells where each thread is."""

    LIMIT = 60

    def run(self, result=None):
        faulthandler.dump_traceback_later(self.LIMIT, exit=True)
        try:
            return super().run(result)
        finally:
            faulthandler.cancel_dump_traceback_later()


class Arguments(Limited):
    def refused(self, said, call, *arguments, **more):
        with self.assertRaisesRegex(TypeError, said):
            call(*arguments, **more)

    def test_other_elements_are_refused_with_what_to_write(self):
        self.refused(r"a has elements of int64.*write cvl\.as_ints\(a\)", cvl.add_suz, numpy.arange(3))
        self.refused(r"b has elements of float64", cvl.add_wuz, ints(1), numpy.ones(1))
        self.refused(r"a has elements of >i4", cvl.add_suz, numpy.array([1], dtype=">i4"))
        self.refused(r"a has elements of uint32", cvl.add_suz, numpy.array([1], dtype=numpy.uint32))
        self.refused(r"flags has elements of uint8.*write flags != 0", cvl.cnt_lub, numpy.array([1], dtype=numpy.uint8))
        self.refused(r"segments has elements of int64", cvl.add_sez, ints(1), numpy.array([1]))

    def test_lists_are_refused_with_what_to_write(self):
        self.refused(r"a is no array but a list; write cvl\.as_ints\(a\)", cvl.add_suz, [1, 2])

    def taken_as_advised(self, call, **given):
        """What a call gives once it is refused and the argument that its message names is given as that says, in one step."""
        with self.assertRaises(TypeError) as caught:
            call(**given)
        said = re.sub(r", or cvl.*|, and to number .*|; the order .*", "", str(caught.exception))
        name, written = re.search(r"^(?:the elements of )?(\w+).* write (.*)$", said).groups()
        return call(**{**given, name: eval(written, {"cvl": cvl, "numpy": numpy, **given})}).tolist()

    def test_what_is_advised_is_taken_in_one_step(self):
        square = numpy.arange(4).reshape(2, 2)
        shifted = numpy.frombuffer(b"\0" + square.astype(numpy.int32).tobytes(), numpy.uint8)[1:].view(numpy.int32)
        for given in (
            numpy.arange(4), square, square.astype(numpy.int32), square.astype(numpy.int16), square.astype(">i4"), square.astype(float), square + 0.25,
            numpy.arange(4) + 0.25, shifted, shifted.reshape(2, 2), numpy.repeat(square, 2).astype(numpy.int32)[::2], [0, 1, 2, 3], (0, 1, 2, 3), range(4),
            {0, 1, 2, 3}, [[0, 1], [2, 3]], [0.0, 1.25, 2, 3], [[0.0, 1], [2, 3.25]], ["0", "1", "2", "3"], numpy.array([["0", "1"], ["2", "3"]]),
            numpy.array([0, 1, 2, 3], object), "0 1 2 3".split(), numpy.array(b"0 1 2 3".split()),
        ):  # fmt: skip
            self.assertEqual(self.taken_as_advised(cvl.add_suz, a=given), [0, 0, 1, 3], given)
        self.assertEqual(self.taken_as_advised(cvl.add_suz, a="3 1"), [0, 3])
        self.assertEqual(self.taken_as_advised(cvl.add_suz, a=b"\3\1"), [0, 3])
        self.assertEqual(self.taken_as_advised(cvl.add_suz, a=[]), [])
        self.assertEqual(self.taken_as_advised(cvl.add_suz, a=numpy.float64(2.25)), [0])
        for given in (
            square,
            square != 0,
            square + 0.5,
            [[0, 1], [1, 1]],
            [False, True, True, True],
            [0, 1, 2, 3],
            square.astype(numpy.uint8),
        ):
            wanted = numpy.ravel(given).astype(bool).tolist()
            self.assertEqual(self.taken_as_advised(cvl.not_wub, a=given), [not flag for flag in wanted], given)
        for given in (square, square.astype(float), [0, 1, 2, 3], [[0, 1], [2, 3]], "\0\1\2\3"):
            self.assertEqual(self.taken_as_advised(cvl.ints_from_bytes, bytes=given), [0, 1, 2, 3], given)

    def test_what_no_call_takes(self):
        for given in (None, {1: 2}, 1j, numpy.array([1j]), numpy.array(["2026-11-30"], "M8[D]")):
            self.refused("no call takes such (elements|an object)$", cvl.add_suz, given)
        self.refused(r"rows that differ in length are a cvl\.Ragged\(a\)$", cvl.add_suz, [[1], [2, 3]])
        self.refused("such as numpy.ravel.flags. == x$", cvl.cnt_lub, numpy.array(["x"]))
        keys = numpy.array(["tea", "milk", "tea"])
        self.refused(
            r"to number texts as keys cvl\.as_ints\(numpy\.unique\(index, return_inverse=True\)\[1\]\)$", cvl.counts, keys, 2
        )
        self.assertEqual(cvl.counts(cvl.as_ints(numpy.unique(keys, return_inverse=True)[1]), 2).tolist(), [1, 2])

    def test_a_number_where_one_a_segment_is_wanted(self):
        rows = cvl.Segments([2, 0, 3])
        full = r"numpy\.full\(len\(segments\), {}, dtype=numpy\.int32\)$"
        self.refused("^inits is no array but a int; write " + full.format("inits"), cvl.ind_lez, 0, 1, rows)
        self.assertEqual(self.taken_as_advised(cvl.ind_lez, inits=ints(0, 0, 0), strides=1, segments=rows), [0, 1, 0, 1, 2])
        self.assertEqual(
            self.taken_as_advised(cvl.ind_lez, inits=ints(0, 0, 0), strides=1.75, segments=ints(2, 0, 3)), [0, 2, 0, 2, 4]
        )
        self.assertEqual(self.taken_as_advised(cvl.dis_veb, values=True, segments=rows), [True] * 5)
        self.assertEqual(self.taken_as_advised(cvl.add_rez, a=2, segments=rows), [4, 0, 6])
        self.assertEqual(self.taken_as_advised(cvl.sel_puz, source=ints(7, 8), index=0, flags=flags(True, False)), [7])

    def test_booleans_are_told_the_call_that_takes_them(self):
        rows = cvl.Segments([2, 1])
        self.refused(
            r"values has elements of bool.*, or cvl\.dis_veb, which takes booleans$", cvl.dis_vez, flags(True, False), rows
        )
        self.refused(
            r"values is no array but a list; .*, or cvl\.dis_veb, which takes booleans$", cvl.dis_vez, [True, False], rows
        )
        self.refused(r"values has elements of int32.*, or cvl\.pck_luz, which takes integers$", cvl.pck_lub, ints(1), flags(True))
        self.refused(r"a has elements of bool, and has to have int32; write cvl\.as_ints\(a\)$", cvl.add_ruz, flags(True))
        self.refused(
            r"values has elements of int8, and has to have int32; write cvl\.as_ints\(values\)$",
            cvl.dis_vez,
            numpy.zeros(2, numpy.int8),
            rows,
        )
        self.refused(r"values is no array but a list; write cvl\.as_ints\(values\)$", cvl.dis_vez, [1, 2], rows)
        self.refused(r"index has elements of bool.*write cvl\.as_ints\(index\)$", cvl.bck_puz, ints(1), flags(True))
        self.assertEqual(self.taken_as_advised(cvl.dis_vez, values=flags(True, False), segments=rows), [1, 1, 0])

    def test_arguments_in_another_order(self):
        a, b, rows, others = ints(1, 2, 3), ints(7, 8, 9), ints(2, 0, 1), ints(1, 2, 0)
        order = r"the order of arguments is append_segments_int\(a, b, segments, other_segments\)$"
        for number, said, arguments in (
            (7, "segments add up to 24, and len(a) is 3", (a, rows, b, others)), (12, "segments[1] is -1", (a, rows, ints(1, -1, 1), others)),
            (13, None, (a, rows, ints(MOST, 1, 1), others)), (7, "len(other_segments) is 2, and len(segments) is 3", (a, b, rows, ints(3, 0))),
        ):  # fmt: skip
            with self.assertRaisesRegex(cvl.Fault, order) as caught:
                cvl.append_segments_int(*arguments)
            self.assertEqual(caught.exception.number, number)
            self.assertTrue(said is None or caught.exception.said.startswith(f"{said}; "), caught.exception.said)
        self.refused(
            r"b is no array but a Segments, whose lengths are b\.lengths; " + order,
            cvl.append_segments_int,
            a,
            cvl.Segments(rows),
            b,
            others,
        )
        self.refused(order, cvl.append_segments_int, a, rows.tolist(), b, others)
        self.refused(
            r"b has elements of int32.*; the order of arguments is append_segments_bool\(a, b, ",
            cvl.append_segments_bool,
            a != 2,
            rows,
            b != 7,
            others,
        )
        self.refused(
            r"a is no array but a Segments.*; the order of arguments is add_rez\(a, segments\)$",
            cvl.add_rez,
            cvl.Segments(rows),
            a,
        )
        self.refused(r"a is no array but a Segments, whose lengths are a\.lengths$", cvl.add_suz, cvl.Segments(rows))
        # the room is not among them, and a call with one vector of lengths has no other order
        with self.assertRaisesRegex(cvl.Fault, r"len\(out\) is 1, and has to be 6$"):
            cvl.append_segments_int(a, b, rows, others, out=ints(0))

    def test_operators_by_other_names(self):
        given = ints(5, 6), ints(0, 0), ints(7)
        for word, name in (
            ("add", "ADD"), ("ADD", "ADD"), ("+", "ADD"), ("sum", "ADD"), (numpy.add, "ADD"), (operator.add, "ADD"), (sum, "ADD"), (numpy.multiply, "MUL"),
            (min, "MIN"), (numpy.maximum, "MAX"), ("or", "IOR"), (operator.or_, "IOR"), (operator.and_, "AND"), (numpy.bitwise_xor, "XOR"),
        ):  # fmt: skip
            self.refused(
                rf"^op is no number of an operator but a .*; write cvl\.operators\.{name}$", cvl.combine_permute_int, word, *given
            )
        for word in ("sub", numpy.subtract, "other", None, 1.5):
            self.refused("write one of cvl.operators: ADD, MUL, MIN, MAX, AND, IOR, XOR$", cvl.combine_permute_int, word, *given)
        self.refused(
            "write one of cvl.operators: AND, IOR, XOR$", cvl.combine_permute_bool, "add", flags(True), ints(0), flags(True)
        )
        self.assertEqual(cvl.combine_permute_int(cvl.operators.ADD, *given).tolist(), [18])

    def test_what_is_not_in_one_row_is_refused(self):
        self.refused(r"a has 2 dimensions.*write numpy\.ravel\(a\)", cvl.add_suz, numpy.zeros((2, 2), numpy.int32))
        with warnings.catch_warnings():
            warnings.simplefilter("ignore")
            matrix = numpy.matrix([1, 2], dtype=numpy.int32)
        self.refused(r"a has 2 dimensions", cvl.add_suz, matrix)
        self.assertEqual(cvl.add_suz(numpy.ravel(matrix)).tolist(), [0, 1])
        self.refused(r"a has 0 dimensions", cvl.add_suz, numpy.zeros((), numpy.int32))
        self.refused(r"do not lie side by side", cvl.add_suz, numpy.zeros(4, numpy.int32)[::2])
        self.refused(r"do not lie side by side", cvl.add_suz, numpy.zeros(4, numpy.int32)[::-1])
        shifted = numpy.zeros(9, numpy.uint8)[1:].view(numpy.int32)
        self.refused(r"a are not aligned in memory; write a\.copy\(\)", cvl.add_suz, shifted)
        self.refused(r"out are not aligned in memory", cvl.add_suz, ints(1, 2), out=shifted)

    def test_a_mask_is_refused(self):
        masked = numpy.ma.array([1, 2, 3], mask=[False, True, False], dtype=numpy.int32)
        said = r"has a mask, which no call looks at; write \w+\.filled\(0\) or \w+\.compressed\(\)"
        self.refused(f"a {said}", cvl.add_ruz, masked)
        self.refused(f"segments {said}", cvl.add_rez, ints(1, 2, 3), masked)
        self.refused(f"flags {said}", cvl.cnt_lub, numpy.ma.array([True], mask=[True]))
        self.refused(f"out {said}", cvl.add_suz, ints(1, 2, 3), out=masked)
        self.refused(f"text {said}", cvl.read_ints, numpy.ma.array([49], mask=[True], dtype=numpy.uint8))
        self.refused(f"lengths {said}", cvl.Segments, masked)
        self.refused(f"offsets {said}", cvl.Segments.from_offsets, masked)

    def test_single_values(self):
        for value in (2**31, -(2**31) - 1, 2**32 + 1):
            with self.assertRaisesRegex(OverflowError, f"value is {value}, which does not fit 32 bits"):
                cvl.dis_vuz(value, 1)
            with self.assertRaisesRegex(OverflowError, f"stride is {value}"):
                cvl.ind_luz(0, value, 1)
        for value in (2**31 - 1, -(2**31)):
            self.assertEqual(cvl.dis_vuz(value, 1).tolist(), [value])
        with self.assertRaises(TypeError):
            cvl.ext_vuz(ints(1), 0.5)
        self.refused(r"index is no whole number but a float; int\(index\) would cut its fraction", cvl.ext_vuz, ints(1), 0.0)
        self.refused("value is no boolean but a int", cvl.dis_vub, 1, 2)
        self.assertEqual(cvl.ext_vuz(ints(4, 5), numpy.int64(1)), 5)
        self.assertIs(cvl.ext_vub(flags(True), 0), True)

    def test_other_buffers_are_taken_as_they_are(self):
        self.assertEqual(cvl.add_suz(array.array("i", [3, 1, 4])).tolist(), [0, 3, 4])
        self.assertEqual(cvl.add_ruz(memoryview(ints(3, 1, 4))), 8)
        self.refused("a has elements of int16", cvl.add_suz, array.array("h", [1]))

    def test_lengths_are_taken_from_other_buffers(self):
        values, marks, none = ints(7, 8), flags(True, False), array.array("i")
        for lengths in (array.array("i", [2, 1]), memoryview(ints(2, 1)), memoryview(ints(2, 1).tobytes()).cast("i")):
            self.assertEqual(cvl.dis_vez(values, lengths).tolist(), [7, 7, 8])
            self.assertEqual(cvl.dis_veb(marks, lengths).tolist(), [True, True, False])
            self.assertEqual(cvl.ind_lez(values, values, lengths).tolist(), [7, 14, 8])
            self.assertEqual(cvl.add_rez(ints(1, 2, 3), lengths).tolist(), [3, 3])
        self.assertEqual(cvl.dis_vez(ints(), none).tolist(), [])
        self.assertEqual(cvl.dis_veb(flags(), none).tolist(), [])
        self.assertEqual(cvl.ind_lez(ints(), ints(), none).tolist(), [])

    def test_len_fos_takes_lengths(self):
        for lengths in (array.array("i", [2, 1]), memoryview(ints(2, 1)), ints(2, 1), cvl.Segments([2, 1])):
            self.assertEqual(cvl.len_fos(lengths).tolist(), [2, 1])
        self.assertEqual(cvl.len_fos(array.array("i")).tolist(), [])

    def test_lengths_that_must_agree_are_told_with_their_names(self):
        marks = numpy.zeros(1, numpy.uint32)
        order = "the order of arguments is def_pez(source, index, defaults, segments, default_segments)"

        def permuted(*lengths):
            return cvl.def_pez(ints(1), ints(0), ints(1), *lengths)

        for call, said in (
            (lambda: cvl.add_wuz(ints(1, 2), ints(1)), "len(b) is 1, and len(a) is 2"),
            (lambda: cvl.add_sez(ints(1, 2), ints(1)), "segments add up to 1, and len(a) is 2"),
            (lambda: cvl.add_sez(ints(1, 2), cvl.Segments([1, 2])), "segments add up to 3, and len(a) is 2"),
            (lambda: cvl.ext_vez(ints(1, 2), ints(0), ints(1, 1)), "len(segments) is 2, and len(index) is 1"),
            (lambda: permuted(ints(1), ints(1, 0)), f"len(default_segments) is 2, and len(segments) is 1; {order}"),
            (lambda: permuted(ints(1), ints(2)), f"default_segments add up to 2, and len(defaults) is 1; {order}"),
            (lambda: cvl.sel_wuz(flags(True), ints(1), ints(1, 2)), "len(b) is 2, and len(flags) is 1"),
            (lambda: cvl.pck_luz(ints(1, 2), flags(True)), "len(flags) is 1, and len(values) is 2"),
            (lambda: cvl.add_suz(ints(1, 2), out=ints(1)), "len(out) is 1, and has to be 2"),
            (lambda: cvl.add_rez(ints(1, 2), ints(1, 1), out=ints(1)), "len(out) is 1, and has to be 2"),
            (lambda: cvl.dis_vuz(1, 3, out=ints(1)), "len(out) is 1, and has to be 3"),
            (lambda: cvl.dis_vez(ints(1), ints(3), out=ints(1)), "len(out) is 1, and has to be 3"),
            (lambda: cvl.sel_puz(ints(1, 2), ints(0, 1), flags(True, True), out=ints(1)), "len(out) is 1, and has to be 2"),
            (lambda: cvl.pck_luz(ints(1, 2), flags(True, True), out=ints(1)), "len(out) is 1, and has to be 2 or more"),
            (lambda: cvl.read_ints("1 2 3", out=ints(1)), "len(out) is 1, and has to be 3 or more"),
            (lambda: cvl.permute_int_range(ints(1), ints(1, 2), 0, ints(1), marks), "len(index) is 2, and len(source) is 1"),
        ):
            with self.assertRaises(cvl.Fault) as caught:
                call()
            fault = caught.exception
            self.assertEqual((fault.number, fault.name, fault.place, fault.said), (7, "LengthMismatch", None, said))
            self.assertEqual(str(fault), f"fault 7 LengthMismatch: {said}")

    def test_a_number_stands_for_an_array_place_by_place(self):
        a, b = ints(5, -7, 2147483647), flags(True, False, True)
        self.assertEqual(cvl.add_wuz(a, 3).tolist(), [8, -4, -2147483646])
        self.assertEqual(cvl.sub_wuz(3, a).tolist(), [-2, 10, -2147483644])
        self.assertEqual(cvl.les_wuz(a, numpy.int64(5)).tolist(), [False, True, False])
        self.assertEqual(cvl.and_wub(b, True).tolist(), [True, False, True])
        self.assertEqual(cvl.xor_wub(numpy.True_, b).tolist(), [False, True, False])
        self.assertEqual(cvl.sel_wuz(b, a, 0).tolist(), [5, 0, 2147483647])
        self.assertEqual(cvl.sel_wuz(b, 1, 0).tolist(), [1, 0, 1])
        self.assertEqual(cvl.sel_wub(b, False, b).tolist(), [False, False, False])
        self.assertEqual(cvl.add_wuz(ints(), 3).tolist(), [])
        self.assertIs(cvl.mul_wuz(a, 2, out=a), a)
        self.assertEqual(a.tolist(), [10, -14, -2])
        self.told(8, 0, lambda: cvl.div_wuz(a, 0))
        self.told(7, None, lambda: cvl.add_wuz(a, 3, out=ints(1)))
        self.told(7, None, lambda: cvl.sel_wuz(b, ints(1), 2))
        self.told(102, None, lambda: cvl.les_wuz(a, 3, out=a.view(bool)[:3]))
        for more in (zeros(MOST + 1, numpy.int32), zeros(MOST + 2, numpy.int32)):
            self.told(13, None, lambda: cvl.add_wuz(1, more))
            self.told(13, None, lambda: cvl.add_wuz(more, 1))

    def told(self, number, place, call):
        with self.assertRaises(cvl.Fault) as caught:
            call()
        self.assertEqual((caught.exception.number, caught.exception.place), (number, place))

    def test_a_number_that_stands_for_no_array(self):
        a, b = ints(1, 2), flags(True, False)
        for number in (2**31, -(2**31) - 1):
            with self.assertRaisesRegex(OverflowError, f"b is {number}, which does not fit 32 bits"):
                cvl.add_wuz(a, number)
        self.refused(r"b is no whole number but a float; int\(b\) would cut its fraction", cvl.add_wuz, a, 0.5)
        self.refused(
            r"b is no whole number but a numpy.float64; int\(b\) would cut its fraction", cvl.add_wuz, a, numpy.float64(2)
        )
        self.refused(r"b is no boolean but a int; write bool\(b\)", cvl.and_wub, b, 1)
        self.refused(r"beside an array, and there is none; write numpy.array\(\[a\], dtype=numpy.int32\)", cvl.add_wuz, 1, 2)
        self.refused(r"beside an array, and there is none; write numpy.array\(\[flags\], dtype=bool\)", cvl.sel_wuz, True, 1, 2)
        # what is advised is taken
        self.assertEqual(cvl.add_wuz(a, int(0.5)).tolist(), [1, 2])
        self.assertEqual(cvl.and_wub(b, bool(1)).tolist(), [True, False])
        self.assertEqual(cvl.add_wuz(numpy.array([1], dtype=numpy.int32), 2).tolist(), [3])
        self.refused(r"a is no array but a int; write numpy.array\(\[a\], dtype=numpy.int32\)", cvl.add_suz, 3)
        self.assertEqual(cvl.add_suz(numpy.array([3], dtype=numpy.int32)).tolist(), [0])
        self.refused(r"index is no array but a int", cvl.bck_puz, a, 1)

    def test_how_arguments_are_given(self):
        a = ints(1, 2)
        self.assertEqual(cvl.add_wuz(b=a, a=a).tolist(), [2, 4])
        named = {"".join(letters): given for letters, given in (("a", a), ("b", a), ("out", None))}
        self.assertEqual(cvl.add_wuz(**named).tolist(), [2, 4])
        self.refused(r"add_wuz\(\) missing 1 required argument: 'b'", cvl.add_wuz, a)
        self.refused(r"add_wuz\(\) takes 2 positional arguments but 3 were given", cvl.add_wuz, a, a, a)
        self.refused(r"add_wuz\(\) got multiple values for argument 'a'", cvl.add_wuz, a, a, a=a)
        self.refused(r"add_wuz\(\) got an unexpected keyword argument 'c'", cvl.add_wuz, a, a, c=a)
        self.refused(r"add_ruz\(\) got an unexpected keyword argument 'out'", cvl.add_ruz, a, out=a)

    def test_no_other_method_of_an_argument_is_called(self):
        """An argument that is no array and no number is asked for nothing but its class, and a boolean is no other object."""

        class Object:
            def called(self, *words):
                raise AssertionError("a method of an argument is called")

            __array__ = __len__ = __bool__ = __float__ = __int__ = __iter__ = __getitem__ = __str__ = __repr__ = __eq__ = called
            __hash__ = None

        self.refused(r"a is no array but a Object", cvl.add_suz, Object())
        self.refused(r"segments is no array but a Object", cvl.add_sez, ints(1), Object())
        self.refused(r"out is no array but a Object", cvl.add_suz, ints(1), out=Object())
        self.refused(r"text is no text", cvl.read_ints, Object())
        self.refused(r"value is no boolean but a Object", cvl.dis_vub, Object(), 1)
        self.refused(r"count is no whole number but a Object", cvl.dis_vuz, 1, Object())

    def test_empty_arrays(self):
        self.assertEqual(cvl.add_wuz(ints(), ints()).tolist(), [])
        self.assertEqual(cvl.add_ruz(ints()), 0)
        self.assertEqual(cvl.add_rez(ints(), cvl.Segments([])).tolist(), [])


class Rooms(Limited):
    def test_the_result_stands_in_out(self):
        out = ints(7, 7)
        self.assertIs(cvl.add_wuz(ints(1, 2), ints(3, 4), out=out), out)
        self.assertEqual(out.tolist(), [4, 6])

    def test_nothing_is_copied(self):
        whole = numpy.arange(6, dtype=numpy.int32)
        cvl.add_suz(whole[1:4].copy(), out=whole[1:4])
        self.assertEqual(whole.tolist(), [0, 0, 1, 3, 4, 5])

    def test_other_buffers_are_rooms(self):
        a, wanted = ints(3, 1, 4), [0, 3, 4]
        for room in (array.array("i", [7] * 3), memoryview(array.array("i", [7] * 3)), memoryview(bytearray(12)).cast("i")):
            self.assertIs(cvl.add_suz(a, out=room), room)
            self.assertEqual(list(room), wanted)
        marks = memoryview(bytearray(b"\7\7")).cast("?")
        self.assertIs(cvl.les_wuz(ints(1, 2), ints(2, 1), out=marks), marks)
        self.assertEqual(list(marks), [True, False])
        with tempfile.NamedTemporaryFile() as file:
            room = numpy.memmap(file, numpy.int32, "w+", shape=3)
            self.assertIs(cvl.add_suz(a, out=room), room)
            self.assertEqual(room.tolist(), wanted)
            self.assertEqual(cvl.add_ruz(room), 7)

    def test_a_refused_room_is_told_how_one_is_made_and_not_to_copy_it(self):
        rooms = (
            numpy.zeros(1, numpy.int64), numpy.zeros((1, 1), numpy.int32), numpy.zeros(4, numpy.int32)[::2], [0],
            numpy.zeros(9, numpy.uint8)[1:5].view(numpy.int32), bytearray(4), memoryview(ints(1, 2, 3))[::2],
        )  # fmt: skip
        for room in rooms:
            with self.assertRaisesRegex(TypeError, r"out .*; a room is made by numpy\.empty\(n, dtype=numpy\.int32\)$"):
                cvl.add_suz(ints(1), out=room)
        with self.assertRaisesRegex(TypeError, r"out has elements of uint8.*numpy\.empty\(n, dtype=bool\)$"):
            cvl.les_wuz(ints(1), ints(2), out=bytearray(1))
        with self.assertRaisesRegex(ValueError, "may not be written"):
            cvl.add_suz(ints(1), out=bytes(4) and memoryview(bytes(4)).cast("i"))

    def test_a_pack_takes_a_longer_room_and_gives_its_front(self):
        values, kept = ints(1, 2, 3), flags(True, False, True)
        for call in (lambda out: cvl.pck_luz(values, kept, out=out), lambda out: cvl.pck_lez(values, kept, ints(1, 2), out=out)):
            for places in (2, 3, 5):
                room = numpy.full(places, 7, numpy.int32)
                found = call(room)
                self.assertEqual((found.tolist(), room.tolist()), ([1, 3], [1, 3] + [7] * (places - 2)))
                self.assertTrue(numpy.shares_memory(found, room))
            for places in (0, 1):
                self.told(7, lambda: call(numpy.full(places, 7, numpy.int32)))
        room = array.array("i", [7] * 3)
        found = cvl.pck_luz(values, kept, out=room)
        found[0] = 9
        self.assertEqual((found.tolist(), room.tolist()), ([9, 3], [9, 3, 7]))
        marks = flags(True, True, True)
        self.assertEqual((cvl.pck_lub(kept, kept, out=marks).tolist(), marks.tolist()), ([True, True], [True, True, True]))

    def told(self, number, call, place=None):
        with self.assertRaises(cvl.Fault) as caught:
            call()
        self.assertEqual((caught.exception.number, caught.exception.place), (number, place))

    def test_a_room_of_another_length_is_a_fault(self):
        for places in (0, 1, 3):
            out = numpy.full(places, 7, numpy.int32)
            with self.assertRaises(cvl.Fault) as caught:
                cvl.add_wuz(ints(1, 2), ints(3, 4), out=out)
            self.assertEqual(caught.exception.number, 7)
            self.assertEqual(out.tolist(), [7] * places)

    def test_a_room_of_other_elements_or_that_may_not_be_written(self):
        with self.assertRaisesRegex(TypeError, "out has elements of int64"):
            cvl.add_suz(ints(1), out=numpy.zeros(1, numpy.int64))
        with self.assertRaisesRegex(TypeError, "out has elements of int32"):
            cvl.les_wuz(ints(1), ints(2), out=ints(0))
        room = ints(5)
        room.flags.writeable = False
        with self.assertRaisesRegex(ValueError, "may not be written"):
            cvl.add_suz(ints(1), out=room)
        self.assertEqual(room.tolist(), [5])

    def test_a_fault_leaves_the_room(self):
        out = ints(7, 7)
        with self.assertRaises(cvl.Fault) as caught:
            cvl.div_wuz(ints(1, 2), ints(1, 0), out=out)
        self.assertEqual((caught.exception.name, caught.exception.place), ("DivideByZero", 1))
        self.assertEqual(str(caught.exception), "fault 8 DivideByZero at 1: b[1] is 0")
        self.assertEqual(out.tolist(), [7, 7])

    def test_a_room_that_overlaps_an_argument(self):
        a, index = ints(3, 1, 4), ints(2, 0, 1)
        with self.assertRaises(cvl.Fault) as caught:
            cvl.smp_puz(a, index, out=index)
        self.assertEqual((caught.exception.name, caught.exception.place), ("Overlap", None))
        self.assertEqual(index.tolist(), [2, 0, 1])

    def test_a_room_that_begins_inside_an_argument(self):
        whole = ints(3, 1, 4, 1)
        with self.assertRaises(cvl.Fault) as caught:
            cvl.add_suz(whole[:3], out=whole[1:])
        self.assertEqual((str(caught.exception), whole.tolist()), ("fault 102 Overlap: out and a share memory", [3, 1, 4, 1]))

    def test_an_index_of_64_bits_is_said_as_it_is(self):
        source, more = ints(3, 1, 4), numpy.array([0, 2**32, -(2**40)])
        for call, said in (
            (lambda: cvl.bck_puz(source, more), "10 IndexOutOfRange at 1: index[1] is 4294967296, and len(source) is 3"),
            (
                lambda: cvl.smp_puz(source, more[[0, 2, 1]]),
                "10 IndexOutOfRange at 1: index[1] is -1099511627776, and the result has 3 elements",
            ),
            (lambda: cvl.smp_puz(source, numpy.array([1, 1, 2**32])), "11 IndexRepeated at 1: index[1] is 1"),
            (
                lambda: cvl.sel_puz(source, more, flags(False, True, False)),
                "10 IndexOutOfRange at 1: index[1] is 4294967296, and the result has 1 elements",
            ),
            (lambda: cvl.counts(more, 5), "10 IndexOutOfRange at 1: index[1] is 4294967296, and the result has 5 elements"),
            (lambda: cvl.gather_segments_int(source, more, ints(1, 0, 1)), "10 IndexOutOfRange at 1: starts[1] is 4294967296"),
            (lambda: cvl.bck_puz(source, more, out=ints(1, 2)), "7 LengthMismatch: len(out) is 2, and has to be 3"),
        ):
            with self.assertRaises(cvl.Fault) as caught:
                call()
            self.assertEqual(str(caught.exception), f"fault {said}")
        # an index that is not looked at may be any number
        self.assertEqual(cvl.sel_puz(source, more, flags(True, False, False)).tolist(), [3])
        with self.assertRaisesRegex(TypeError, r"source has elements of int64"):
            cvl.bck_puz(more, more)

    def test_a_fault_says_which_value_it_is_about(self):
        a, whole = ints(3, 1, 4), ints(3, 1, 4, 1)
        lengths, columns, x = ints(1, 2), ints(0, 1, 2), ints(5, 6)
        for call, said in (
            (lambda: cvl.mod_wuz(a, 0), "8 DivideByZero at 0: b is 0"),
            (lambda: cvl.lsh_wuz(a, ints(0, 32, -1)), "9 ShiftOutOfRange at 1: b[1] is 32"),
            (lambda: cvl.bck_puz(ints(7, 8), a), "10 IndexOutOfRange at 0: index[0] is 3, and len(source) is 2"),
            (lambda: cvl.smp_puz(a, ints(0, -1, 9)), "10 IndexOutOfRange at 1: index[1] is -1, and the result has 3 elements"),
            (lambda: cvl.smp_puz(a, ints(0, 2, 2)), "11 IndexRepeated at 2: index[2] is 2"),
            (
                lambda: cvl.sel_puz(a, ints(0, 9, 2), flags(True, False, True)),
                "10 IndexOutOfRange at 2: index[2] is 2, and the result has 2 elements",
            ),
            (lambda: cvl.def_puz(a, ints(0, 1, 5), ints(0, 0)), "10 IndexOutOfRange at 2: index[2] is 5, and len(defaults) is 2"),
            (lambda: cvl.ext_vuz(a, 3), "10 IndexOutOfRange at 0: index is 3, and len(vector) is 3"),
            (lambda: cvl.ext_vuz(a, 2**70), "10 IndexOutOfRange at 0"),
            (lambda: cvl.smp_pez(a, ints(0, 1, 2), lengths), "10 IndexOutOfRange at 2: index[2] is 2"),
            (lambda: cvl.ext_vez(a, ints(0, 2), lengths), "10 IndexOutOfRange at 1: index[1] is 2"),
            (
                lambda: cvl.sparse_product(lengths, columns, columns, x),
                "10 IndexOutOfRange at 2: columns[2] is 2, and len(x) is 2",
            ),
            (lambda: cvl.add_sez(a, ints(4, -1)), "12 NegativeLength at 1: segments[1] is -1"),
            (lambda: cvl.dis_vuz(1, -3), "12 NegativeLength: count is -3"),
            (lambda: cvl.tot_suz(ints(2**31 - 1, 1, 1)), "18 Overflow at 2"),
            (lambda: cvl.bck_puz(whole[1:], whole[:2], out=whole[1:3]), "102 Overlap: out and source share memory"),
            (lambda: cvl.les_wuz(a, a, out=a.view(bool)[:3]), "102 Overlap: out and a share memory"),
        ):
            with self.assertRaises(cvl.Fault) as caught:
                call()
            self.assertEqual(str(caught.exception), f"fault {said}")

    def test_numbers_as_integers(self):
        a = ints(3, 1)
        self.assertIs(cvl.as_ints(a), a)
        for given, wanted in (
            ([3, 1.0], [3, 1]),
            (numpy.array([True, False]), [1, 0]),
            ((), []),
            (numpy.array([2**31 - 1, -(2**31)]), [2**31 - 1, -(2**31)]),
        ):
            found = cvl.as_ints(given)
            self.assertEqual((found.dtype, found.tolist()), (numpy.int32, wanted))
        for given, kind, said in (
            ([1, 2.5], ValueError, r"k\[1\] is 2\.5, and has to be a whole number; write cvl.as_ints\(numpy.rint\(k\)\)$"),
            ([1.0, numpy.nan], ValueError, r"k\[1\] is nan, and has to be a whole number$"),
            ([numpy.inf, 2.5], ValueError, r"k\[0\] is inf, and has to be a whole number"),
            ([1e10, 1.0], OverflowError, r"k\[0\] is 10000000000\.0, which does not fit 32 bits"),
            (numpy.array([1, 2**31], numpy.uint32), OverflowError, r"k\[1\] is 2147483648, which does not fit 32 bits"),
            ([-(2**31) - 1], OverflowError, r"k\[0\] is -2147483649, which does not fit 32 bits"),
            ([2**70], TypeError, "k has elements of object, which are no numbers"),
            (["x"], TypeError, "k has elements of <U1, which are no numbers; if they are digits, write "),
            ([[1]], TypeError, r"k has 2 dimensions, and has to have one; write cvl.as_ints\(numpy.ravel\(k\)\)$"),
            (numpy.ma.array([1], mask=[True]), TypeError, "k has a mask"),
        ):
            with self.assertRaisesRegex(kind, said):
                cvl.as_ints(given, "k")

    def test_long_numbers_of_64_bits_as_integers(self):
        """The first that does not fit is found wherever it stands: numbers are looked at in blocks."""
        least, greatest = -(2**31), 2**31 - 1
        for count in (0, 1, 1023, 1024, 1025, 5000):
            numbers = numpy.random.default_rng(count).integers(least, greatest, count, numpy.int64, endpoint=True)
            numbers[:2] = [least, greatest][:count]
            for given in (numbers, numpy.repeat(numbers, 2)[::2]):
                found = cvl.as_ints(given)
                self.assertEqual((found.dtype, found.tolist(), found.flags.writeable), (numpy.int32, numbers.tolist(), True))
            for place in {0, count // 2, count - 1} if count else ():
                for wrong in (least - 1, greatest + 1, 2**32, -(2**63), 2**63 - 1):
                    other = numbers.copy()
                    other[[place, -1]] = wrong
                    with self.assertRaisesRegex(OverflowError, rf"^k\[{place}\] is {wrong}, which does not fit 32 bits$"):
                        cvl.as_ints(other, "k")

    def test_columns_that_may_have_missing_numbers(self):
        for kind, given, wanted in (("Int32", [3, 1], [3, 1]), ("Int64", [3, 1], [3, 1]), ("boolean", [True, False], [1, 0])):
            for column in columns(given, kind):
                found = cvl.as_ints(column)
                self.assertEqual((found.dtype, found.tolist()), (numpy.int32, wanted))
            for column in columns([given[0], None, given[1], None], kind):
                with self.assertRaisesRegex(
                    ValueError, r"^k\[1\] is missing, and has to be a number; fill in or drop what is missing$"
                ):
                    cvl.as_ints(column, "k")
        for column in columns([2, 0, 1], "Int64"):
            self.assertEqual((cvl.Segments(column).lengths.tolist(), cvl.argsort(column).tolist()), ([2, 0, 1], [1, 2, 0]))
            with self.assertRaisesRegex(TypeError, r"write cvl\.as_ints\(a\)$"):
                cvl.add_suz(column)
        for column in columns([2, None], "Int64"):
            with self.assertRaisesRegex(ValueError, r"^lengths\[1\] is missing"):
                cvl.Segments(column)
        for column in columns([2, 2**31], "Int64"):
            with self.assertRaisesRegex(OverflowError, r"^numbers\[1\] is 2147483648, which does not fit 32 bits$"):
                cvl.as_ints(column)

    def test_in_place(self):
        a = ints(3, 1, 4)
        self.assertIs(cvl.add_suz(a, out=a), a)
        self.assertEqual(a.tolist(), [0, 3, 4])
        with self.assertRaises(cvl.Fault) as caught:
            cvl.div_wuz(a, ints(1, 1, 0), out=a)
        self.assertEqual((caught.exception.place, a.tolist()), (2, [0, 3, 4]))

    def test_counts_and_places_that_may_not_be(self):
        few, many = (-1, -(2**32) + 3, -(2**70)), (MOST + 1, 2**32 + 3, 2**70)
        for count, number in (*((count, 12) for count in few), *((count, 13) for count in many)):
            for call in (cvl.dis_vuz, lambda value, count, **more: cvl.ind_luz(value, 1, count, **more)):
                self.told(number, lambda: call(1, count))
                self.told(number, lambda: call(1, count, out=ints(5)))
            self.told(number, lambda: cvl.dis_vub(True, count))
        for index in (-1, 2, 2**31, 2**32 + 1, -(2**32), 2**70, -(2**70)):
            self.told(10, lambda: cvl.ext_vuz(ints(1, 2), index), place=0)
            self.told(10, lambda: cvl.ext_vub(flags(True, True), index), place=0)
            self.told(10, lambda: cvl.rep_vuz(ints(1, 2), index, 3), place=0)
            self.told(10, lambda: cvl.rep_vub(flags(True, True), index, True), place=0)

    def test_place_0_of_a_fault_is_told_and_shown(self):
        for call, said in (
            (lambda: cvl.div_wuz(ints(1, 2), ints(0, 0)), "fault 8 DivideByZero at 0: b[0] is 0"),
            (lambda: cvl.Segments([-1]), "fault 12 NegativeLength at 0: lengths[0] is -1"),
        ):
            with self.assertRaises(cvl.Fault) as caught:
                call()
            self.assertEqual((caught.exception.place, str(caught.exception)), (0, said))

    def test_a_vector_has_as_many_elements_as_the_limit_and_no_more(self):
        """Long arrays here are zeros that nobody wrote, which have no memory, and no call reads them whole. That the limit itself is
        taken `test_memory` shows, where there is no memory for so long a result."""
        more, marks = zeros(MOST + 1, numpy.int32), zeros(MOST + 1, bool)
        self.told(8, lambda: cvl.div_wuz(more[:-1], more[:-1]), place=0)
        for call in (
            lambda: cvl.bck_pub(flags(True), more), lambda: cvl.add_suz(more), lambda: cvl.dis_vuz(1, MOST + 1),
            lambda: cvl.pck_luz(more, marks), lambda: cvl.add_ruz(more), lambda: cvl.cnt_lub(marks),
        ):  # fmt: skip
            self.told(13, call)
        for lengths in (ints(MOST, 1), ints(1, MOST)):
            for call in (cvl.Segments, cvl.mke_fov, cvl.len_fos, lambda lengths: cvl.dis_vez(ints(1, 1), lengths)):
                self.told(13, lambda: call(lengths))
        self.assertEqual(cvl.Segments([MOST - 1, 1]).total, MOST)

    def test_what_may_be_longer_than_a_vector(self):
        """The source of a back permute, and the vector of which one element is taken or replaced."""
        last = min(MOST + 2, 2**31 - 1)
        more, marks = zeros(MOST + 3, numpy.int32), zeros(MOST + 3, bool)
        more[last], marks[last] = 5, True
        self.assertEqual(cvl.bck_puz(more, ints(last, 0, last)).tolist(), [5, 0, 5])
        self.told(10, lambda: cvl.bck_puz(more, ints(0, -1)), place=1)
        self.assertEqual((cvl.ext_vuz(more, last), cvl.ext_vub(marks, last)), (5, True))
        self.told(10, lambda: cvl.rep_vuz(more, -1, 4), place=0)

    def test_what_is_told_first(self):
        """An overlap, then lengths, then the limit, then what must agree, then the room, then memory, then elements."""
        more, room = zeros(MOST + 1, numpy.int32), ints(7)
        self.told(102, lambda: cvl.add_wuz(more, ints(1), out=more[1:]))
        self.told(102, lambda: cvl.smp_puz(more[:3], ints(0), out=more[1:2]))
        self.told(102, lambda: cvl.add_sez(ints(1, 2), more[:1], out=more[:1]))
        self.told(102, lambda: cvl.add_wuz(more[:3], ints(1, 2, 3), out=more[:2]))
        self.told(102, lambda: cvl.sel_wuz(flags(True), more[:3], more[:3], out=more[:3]))
        self.told(7, lambda: cvl.sel_wuz(flags(True), more[:3], ints(1, 2, 3), out=more[:3]))
        self.told(7, lambda: cvl.add_wuz(more[:3], more[:3], out=more[:2].copy()))
        self.told(13, lambda: cvl.add_wuz(more, ints(1), out=more))
        self.told(13, lambda: cvl.add_wuz(more, ints(1), out=room))
        self.told(7, lambda: cvl.add_wuz(ints(1), more, out=room))
        self.told(13, lambda: cvl.smp_puz(ints(1), more, out=room))
        self.told(12, lambda: cvl.smp_pez(more, more, ints(-1), out=room), place=0)
        self.told(13, lambda: cvl.smp_pez(more, more, ints(1), out=room))
        self.told(12, lambda: cvl.ext_vez(more, ints(1), ints(1, -1), out=room), place=1)
        self.told(7, lambda: cvl.ext_vez(more, ints(1), ints(1), out=room))
        self.told(12, lambda: cvl.add_sez(ints(1, 2), ints(-1), out=room), place=0)
        self.told(13, lambda: cvl.dis_vez(ints(1), ints(MOST, 1), out=room))
        self.told(7, lambda: cvl.div_wuz(ints(1, 1), ints(0, 0), out=room))
        self.told(7, lambda: cvl.ext_vez(ints(1), ints(9), ints(1), out=ints(7, 7)))
        self.told(7, lambda: cvl.smp_puz(ints(1, 1), ints(9, 9), out=room))
        self.assertEqual(room.tolist(), [7])


class Cut(Limited):
    def test_segments_of_lengths_and_of_offsets(self):
        rows = cvl.Segments([2, 0, 3])
        self.assertEqual((len(rows), rows.total, rows.offsets.tolist()), (3, 5, [0, 2, 2, 5]))
        self.assertEqual(cvl.Segments.from_offsets(numpy.array([0, 2, 2, 5])), rows)
        self.assertEqual(repr(rows), "Segments([2, 0, 3])")
        many = cvl.Segments(numpy.arange(200000) % 10)
        self.assertEqual(repr(many), "<200000 Segments of 900000 elements: 0, 1, 2, .., 7, 8, 9>")
        with self.assertRaises(OverflowError):
            cvl.Segments([2**31])
        for make in (cvl.Segments, cvl.Segments.from_offsets):
            with self.assertRaises(TypeError):
                make([0, 0.5])

    def test_offsets_that_are_none(self):
        given = (
            ([0, 3, 2, 1], 12, 1), (numpy.array([0, 5, 4], dtype=numpy.uint64), 12, 1), ([1, 0], 7, None), ([-(2**63), 2**63 - 1], 7, None),
            ([1, 2], 7, None), ([1, 5, 3], 7, None), ([], 7, None), ([0, 2**31], 13, None), ([0, 5, 2**40], 13, None),
        )  # fmt: skip
        for offsets, number, place in given:
            with self.assertRaises(cvl.Fault) as caught:
                cvl.Segments.from_offsets(offsets)
            self.assertEqual((caught.exception.number, caught.exception.place), (number, place), offsets)
        self.assertEqual(cvl.Segments.from_offsets(numpy.array([0, MOST], dtype=numpy.uint64)).total, MOST)
        # where the last offset is not the number of elements, the call on these tells it
        with self.assertRaisesRegex(cvl.Fault, "segments add up to 2, and len.a. is 3"):
            cvl.add_rez(ints(1, 1, 1), cvl.Segments.from_offsets([0, 2]))

    def test_products_by_offsets(self):
        columns, values, x = ints(0, 2, 1, 2), ints(2, 1, 3, 4), ints(1, 2, 3)
        for product in (cvl.sparse_product_by_offsets, cvl.checked_sparse_product_by_offsets):
            self.assertEqual(product(ints(0, 2, 2, 4), columns, values, x).tolist(), [5, 0, 18])
            room = ints(9, 9, 9)
            self.assertIs(product(ints(0, 2, 2, 4), columns, values, x, out=room), room)
            self.assertEqual(product(ints(0), ints(), ints(), x).tolist(), [])
            given = (
                (ints(), columns, 7, None), (ints(1, 0, 4), columns, 7, None), (ints(0, 3, 2, 4), columns, 12, 1), (ints(0, 3, 2, 4), ints(0), 12, 1),
                (ints(0, 2, 3), columns, 7, None), (ints(0, 4), ints(0, 1, 2), 7, None), (ints(0, 4), ints(0, 1, 3, -1), 10, 2),
            )  # fmt: skip
            for offsets, found, number, place in given:
                with self.assertRaises(cvl.Fault) as caught:
                    product(offsets, found, values, x)
                self.assertEqual((caught.exception.number, caught.exception.place), (number, place), offsets)
            for offsets, said in (
                ((0, 4), "len.out. is 3, and has to be 1"), ((0, 2, 3, 5), "the last of offsets is 5, and len.columns. is 4"),
                ((1, 2, 3, 4), "the first of offsets is 1, and has to be 0"), ((), "len.offsets. is 0"),
            ):  # fmt: skip
                with self.assertRaisesRegex(cvl.Fault, said):
                    product(ints(*offsets), columns, values, x, out=room)
        with self.assertRaises(cvl.Fault) as caught:
            cvl.checked_sparse_product_by_offsets(ints(0, 0, 2), ints(0, 0), ints(MOST, 1), ints(1))
        self.assertEqual((caught.exception.number, caught.exception.place), (18, 1))

    def test_offsets_and_the_segment_of_each_place(self):
        for lengths in ([], [0], [3], [0, 0, 2], [2, 0, 3, 0], numpy.arange(2000) % 7):
            rows = cvl.Segments(lengths)
            self.assertEqual(rows.offsets.tolist(), [0, *numpy.cumsum(rows.lengths).tolist()])
            self.assertEqual(rows.numbers.tolist(), numpy.repeat(numpy.arange(len(rows)), rows.lengths).tolist())
            self.assertEqual(cvl.Segments.from_offsets(rows.offsets), rows)
            for found in (rows.offsets, rows.numbers):
                self.assertEqual((found.dtype, found.flags.writeable), (numpy.int32, False))

    def test_segments_are_frozen(self):
        rows = cvl.Segments([2, 0, 3])
        unpickled = [pickle.loads(pickle.dumps(rows, protocol)) for protocol in range(pickle.HIGHEST_PROTOCOL + 1)]
        for found in (rows, copy.copy(rows), copy.deepcopy(rows), *unpickled):
            self.assertEqual((found, hash(found), found.total), (rows, hash(rows), 5))
            with self.assertRaises(ValueError):
                found.lengths[0] = 1
            with self.assertRaises(ValueError):
                found.lengths.flags.writeable = True
            for name in ("lengths", "total", "offsets", "numbers", "more"):
                with self.assertRaises(AttributeError):
                    setattr(found, name, ints(1, 4))
                with self.assertRaises(AttributeError):
                    delattr(found, name)
            found.__init__([1, 4])
            self.assertEqual((found.lengths.tolist(), cvl.add_rez(ints(1, 1, 1, 1, 1), found).tolist()), ([2, 0, 3], [2, 0, 3]))
        self.assertTrue(copy.copy(rows) is rows is copy.deepcopy(rows))
        self.assertNotEqual(rows, [2, 0, 3])

    def test_segments_copy_their_lengths(self):
        lengths = ints(2, 1)
        rows = cvl.Segments(lengths)
        lengths[0] = 9
        self.assertEqual(rows.lengths.tolist(), [2, 1])

    def test_faults_of_lengths(self):
        for make in (cvl.Segments, cvl.mke_fov):
            with self.assertRaises(cvl.Fault) as caught:
                make(ints(1, -1))
            self.assertEqual((caught.exception.number, caught.exception.place), (12, 1))

    def test_threads_share_segments(self):
        rows = cvl.Segments([3] * 1000)
        numbers = numpy.arange(3000, dtype=numpy.int32)
        wanted = [9 * k + 3 for k in range(1000)]
        found = [None] * 4

        def work(k):
            found[k] = all(cvl.add_rez(numbers, rows).tolist() == wanted for _ in range(50))

        threads = [threading.Thread(target=work, args=(k,)) for k in range(4)]
        for thread in threads:
            thread.start()
        for thread in threads:
            thread.join()
        self.assertEqual(found, [True] * 4)


class Threads(Limited):
    def setUp(self):
        self.addCleanup(cvl.set_threads, cvl.get_threads())

    def test_a_number_is_set_and_the_one_before_is_given(self):
        cvl.set_threads(1)
        told = [cvl.set_threads(3), cvl.get_threads(), cvl.set_threads(numpy.int64(64)), cvl.set_threads(1)]
        self.assertEqual(told, [1, 3, 3, 64])
        with cvl.threads(2):
            self.assertEqual(cvl.get_threads(), 2)
            with cvl.threads(4):
                self.assertEqual(cvl.get_threads(), 4)
            self.assertEqual(cvl.get_threads(), 2)
        with self.assertRaises(KeyError), cvl.threads(4):
            raise KeyError
        self.assertEqual(cvl.get_threads(), 1)

    def test_what_is_no_number_of_threads(self):
        cvl.set_threads(2)
        for count in (0, 65, 2**40):
            with self.assertRaisesRegex(ValueError, f"^count is {count}, and has to be from 1 to 64$"):
                cvl.set_threads(count)
        with self.assertRaises(OverflowError):
            cvl.set_threads(-1)
        with self.assertRaisesRegex(TypeError, "count is no whole number but a float"):
            cvl.set_threads(2.0)
        with self.assertRaises(ValueError), cvl.threads(0):
            self.fail("there are no threads")
        self.assertEqual(cvl.get_threads(), 2)

    def test_calls_by_several_threads_give_the_same(self):
        rng = numpy.random.default_rng(5)
        many = rng.integers(-9, 9, 1_000_003, numpy.int32)
        marks, index = many > 0, rng.permutation(len(many)).astype(numpy.int32)
        sums = numpy.cumsum(many, dtype=numpy.int32)
        with cvl.threads(4):
            self.assertTrue((cvl.add_suz(many) == sums - many).all())
            self.assertTrue((cvl.pck_luz(many, marks) == many[marks]).all())
            self.assertTrue((cvl.bck_puz(many, index) == many[index]).all())
            self.assertTrue((cvl.smp_puz(cvl.bck_puz(many, index), index) == many).all())
            self.assertEqual((cvl.add_ruz(many), cvl.exact_sum(many)), (int(many.sum()), int(many.sum())))
            many[-1] = 0
            with self.assertRaises(cvl.Fault) as caught:
                cvl.div_wuz(1, many[marks.argmax() :])
            self.assertEqual(caught.exception.place, int((many[marks.argmax() :] == 0).argmax()))

    def test_threads_of_a_program_call_side_by_side(self):
        many = numpy.arange(600_000, dtype=numpy.int32)
        wanted = int(numpy.sum(many, dtype=numpy.int32))
        with cvl.threads(3):
            found = []
            threads = [threading.Thread(target=lambda: found.extend(cvl.add_ruz(many) for _ in range(30))) for _ in range(4)]
            for thread in threads:
                thread.start()
            for thread in threads:
                thread.join()
        self.assertEqual(found, [wanted] * 120)

    def test_the_child_of_a_fork(self):
        many = numpy.ones(600_000, numpy.int32)
        cvl.set_threads(4)
        self.assertEqual(cvl.add_ruz(many), len(many))
        child = os.fork()
        if child == 0:
            signal.alarm(self.LIMIT)
            told = [cvl.get_threads(), cvl.add_ruz(many), cvl.set_threads(2), cvl.add_ruz(many)]
            os._exit(0 if told == [1, len(many), 1, len(many)] else 1)
        self.assertEqual(os.waitpid(child, 0)[1], 0)
        self.assertEqual(cvl.get_threads(), 4)

    def test_the_variable(self):
        said = "import cvl; print(cvl.get_threads())"
        is_no_number = 'cvl: CVL_NUM_THREADS is "{}", and has to be a number from 1 to 64; calls have {}\n'
        for word, count, told_of in (
            ("3", 3, ""),
            ("", 1, ""),
            ("65", 64, "64 threads"),
            (" 4", 4, "4 threads"),
            ("abc", 1, "1 thread"),
        ):
            place = {**os.environ, "CVL_NUM_THREADS": word, "PYTHONPATH": os.pathsep.join(filter(None, sys.path))}
            told = subprocess.run([sys.executable, "-c", said], env=place, capture_output=True, text=True, timeout=self.LIMIT)
            self.assertEqual((told.stdout, told.stderr), (f"{count}\n", told_of and is_no_number.format(word, told_of)))


class Locks(Limited):
    def test_a_long_call_lets_go_of_the_lock_of_the_interpreter(self):
        """Another thread waits for the lock, which this one alone can let go of: it is not told to before an hour is over."""
        many, found, awake = numpy.ones(2_000_000, numpy.int32), [], threading.Lock()
        awake.acquire()
        thread = threading.Thread(target=lambda: awake.acquire() and found.append(1))
        interval = sys.getswitchinterval()
        thread.start()
        try:
            sys.setswitchinterval(3600)
            awake.release()
            for _ in range(100):
                cvl.add_suz(many, out=many)
            self.assertEqual(found, [1])
        finally:
            sys.setswitchinterval(interval)
            thread.join()


class Example:
    """The example of a call in its description: its arguments by their names, and what it gives."""

    def __init__(self, name):
        self.call = getattr(cvl, name)
        *lines, last = doctest.DocTestParser().get_examples(self.call.__doc__)
        made = {"cvl": cvl, "numpy": numpy}
        for line in lines:
            exec(line.source, made)
        words = inspect.signature(self.call).parameters
        self.has_room = "out" in words and words["out"].kind is inspect.Parameter.KEYWORD_ONLY
        self.arguments = {word: made[word] for word in words if word != "out" or word in made}
        self.found = self.call(**self.arguments)
        self.wanted = ast.literal_eval(last.want)

    def other_arguments(self, make):
        """The arguments, with one after another that is an array in another form, if it has another there."""
        for name, given in self.arguments.items():
            if isinstance(given, numpy.ndarray) and getattr(made := make(given), "dtype", None) != given.dtype:
                yield name, {**self.arguments, name: made}


# the names of operands that name places, which may be of 64 bits
INDICES = ("index", "columns", "starts")


class EachCall(Limited):
    examples = {name: Example(name) for name in cvl.calls.__all__}

    def test_the_description(self):
        finder, runner = doctest.DocTestFinder(), doctest.DocTestRunner(verbose=False)
        for name in self.examples:
            for test in finder.find(getattr(cvl, name), name, module=False):
                self.assertGreater(len(test.examples), 1, name)
                self.assertEqual(runner.run(test).failed, 0, name)

    def test_arrays_of_other_elements_are_refused(self):
        for name, example in self.examples.items():
            others = (numpy.int64, numpy.int8, float, ">i4")
            for make in (*(lambda a, dtype=dtype: a.astype(dtype) for dtype in others), numpy.ndarray.tolist):
                for changed, arguments in example.other_arguments(make):
                    if (
                        changed in INDICES
                        and arguments[changed] is not None
                        and getattr(arguments[changed], "dtype", None) == numpy.int64
                    ):
                        continue
                    with self.assertRaisesRegex(TypeError, f"^{changed} ", msg=name):
                        example.call(**arguments)

    def each_index(self):
        """Each call that takes an index, by its name there."""
        for name, example in self.examples.items():
            for changed in INDICES:
                if isinstance(example.arguments.get(changed), numpy.ndarray):
                    yield name, example, changed

    def outcome(self, example, **changed):
        """What a call gives and what stands in its rooms after it, or its fault with them."""
        arguments = {
            name: given.copy() if isinstance(given, numpy.ndarray) else given
            for name, given in {**example.arguments, **changed}.items()
        }
        rooms = [given for name, given in arguments.items() if isinstance(given, numpy.ndarray) and name in ("out", "marks")]
        try:
            found = example.call(**arguments)
        except cvl.Fault as fault:
            found = fault.number, fault.place
        return found.tolist() if isinstance(found, numpy.ndarray) else found, [room.tolist() for room in rooms]

    def test_an_index_of_64_bits_gives_what_one_of_32_bits_gives(self):
        tried = 0
        for name, example, changed in self.each_index():
            index, wanted = example.arguments[changed], self.outcome(example)
            wide = index.astype(numpy.int64)
            for given in (wide, array.array("q", wide.tolist()), memoryview(wide)):
                self.assertEqual(self.outcome(example, **{changed: given}), wanted, name)
            for place in range(len(index)):
                for number in (2**31, -(2**31) - 1, 2**32 + int(index[place]), -(2**63), 2**63 - 1):
                    outside, other = index.copy(), wide.copy()
                    outside[place], other[place] = -1, number
                    self.assertEqual(
                        self.outcome(example, **{changed: other}),
                        self.outcome(example, **{changed: outside}),
                        (name, place, number),
                    )
                    tried += 1
        self.assertGreater(tried, 500)

    def test_an_index_of_64_bits_that_is_refused(self):
        for name, example, changed in self.each_index():
            wide = numpy.repeat(example.arguments[changed].astype(numpy.int64), 2)
            shifted = numpy.zeros(8 * len(wide) + 1, numpy.uint8)[1:].view(numpy.int64)
            for given in (wide[::2], shifted, wide.reshape(-1, 2), wide.astype(numpy.uint64), wide.astype(">i8")):
                with self.assertRaisesRegex(TypeError, rf"^(the elements of )?{changed} ", msg=name):
                    example.call(**{**example.arguments, changed: given})

    def test_a_room_in_the_memory_of_an_index_of_64_bits(self):
        for name, example, changed in self.each_index():
            if not example.has_room or example.found.dtype != numpy.int32 or len(example.found) == 0:
                continue
            index = example.arguments[changed]
            for places in (0, len(index)):
                wide = numpy.zeros(len(index) + len(example.found), numpy.int64)
                wide[: len(index)] = index
                room = wide.view(numpy.int32)[places : places + len(example.found)]
                with self.assertRaises(cvl.Fault, msg=name) as caught:
                    example.call(**{**example.arguments, changed: wide[: len(index)], "out": room})
                self.assertEqual((caught.exception.number, caught.exception.said), (102, f"out and {changed} share memory"))
                self.assertEqual(wide[: len(index)].tolist(), index.tolist())

    def test_a_room_of_the_result(self):
        for name, example in self.examples.items():
            if not example.has_room:
                continue
            for dtype in {numpy.dtype(kind) for kind in (numpy.int64, numpy.uint8, bool, numpy.int32)} - {example.found.dtype}:
                room = numpy.ones(len(example.found), dtype)
                with self.assertRaisesRegex(TypeError, "^out has elements of", msg=name):
                    example.call(**example.arguments, out=room)
                self.assertTrue(room.all(), name)
            for places in range(len(example.found) + 3):
                self.look_at_room(name, example, numpy.ones(places, example.found.dtype))

    def look_at_room(self, name, example, room):
        needed, is_pack = len(example.found), name.startswith(("pck_", "read_", "run_", "seg_run_lengths", "seg_run_starts"))
        if len(room) == needed or is_pack and len(room) > needed:
            found = example.call(**example.arguments, out=room)
            self.assertTrue(found is room or is_pack, name)
            self.assertEqual((found.tolist(), room[:needed].tolist()), (example.wanted, example.wanted), name)
        else:
            with self.assertRaises(cvl.Fault, msg=name) as caught:
                example.call(**example.arguments, out=room)
            self.assertEqual(caught.exception.number, 7, name)
            needed = 0
        self.assertTrue(room[needed:].all(), name)

    def test_lengths_are_taken_for_segments(self):
        for name, example in self.examples.items():
            given = example.arguments.items()
            arguments = {word: value.lengths if isinstance(value, cvl.Segments) else value for word, value in given}
            found = example.call(**arguments)
            same = found == example.found if name != "seg_read_ints" else found[0] == example.found[0]
            self.assertTrue(same.all() if isinstance(same, numpy.ndarray) else same, name)

    def test_the_stub_has_the_same_parameters(self):
        stub = pathlib.Path(cvl.calls.__file__).with_suffix(".pyi")
        functions = [node for node in ast.parse(stub.read_text()).body if isinstance(node, ast.FunctionDef)]
        self.assertEqual({node.name for node in functions}, set(self.examples))
        for node in functions:
            names = [word.arg for word in (*node.args.args, *node.args.kwonlyargs)]
            self.assertEqual(names, list(inspect.signature(self.examples[node.name].call).parameters), node.name)


class Texts(Limited):
    def test_texts_are_str_or_bytes(self):
        text = b"5 -1\n007 -0"
        for text in (text.decode(), text, bytearray(text), memoryview(text), numpy.frombuffer(text, numpy.uint8)):
            self.assertEqual(cvl.read_ints(text).tolist(), [5, -1, 7, 0])
        for text in (ints(1, 2), [1, 2], 5, numpy.frombuffer(b"5 -1 7 0", numpy.uint8)[::2]):
            with self.assertRaisesRegex(TypeError, "^text is no text, a str or bytes side by side, but a "):
                cvl.read_ints(text)
        self.assertEqual((cvl.read_ints("").tolist(), cvl.read_ints(" \n").tolist()), ([], []))

    def test_a_text_that_is_written_is_read(self):
        rng = numpy.random.default_rng(3)
        for count in (0, 1, 2, 1000, 20000):
            numbers = rng.integers(-(2**31), 2**31, count, numpy.int32)
            text = cvl.write_ints(numbers)
            self.assertEqual(text, "[" + " ".join(map(str, numbers.tolist())) + "]")
            self.assertEqual(cvl.read_ints(text[1:-1]).tolist(), numbers.tolist())
            lengths = numpy.bincount(rng.integers(0, 7, count), minlength=7).astype(numpy.int32)
            found, segments = cvl.seg_read_ints(cvl.seg_write_ints(numbers, lengths))
            self.assertEqual((found.tolist(), segments), (numbers.tolist(), cvl.Segments(lengths)))
        self.assertEqual(cvl.write_bools(flags(True, False)), "[T F]")
        self.assertEqual(cvl.write_bools(numpy.array([2, 0], numpy.uint8).view(bool)), "[T F]")

    def test_faults_of_texts(self):
        for call, number, place in (
            (lambda: cvl.read_ints("1 2 x"), 15, 2),
            (lambda: cvl.read_ints("1 2147483648"), 15, 1),
            (lambda: cvl.read_ints("1 \u00e9"), 15, 1),
            (lambda: cvl.read_ints("x", out=ints()), 15, 0),
            (lambda: cvl.read_ints_after(3, "1 x"), 15, 4),
            (lambda: cvl.read_ints_after(2**40, "1"), 13, None),
            (lambda: cvl.seg_read_ints("[[1]"), 15, 4),
            (lambda: cvl.seg_write_ints(ints(1), ints(-1)), 12, 0),
            (lambda: cvl.seg_write_ints(ints(1), ints(2)), 7, None),
        ):  # fmt: skip
            with self.assertRaises(cvl.Fault) as caught:
                call()
            self.assertEqual((caught.exception.number, caught.exception.place), (number, place))

    def test_a_longer_room_of_a_text_that_is_read(self):
        room = ints(7, 7, 7, 7)
        self.assertEqual((cvl.read_ints("1 2", out=room).tolist(), room.tolist()), ([1, 2], [1, 2, 7, 7]))


class Parts(Limited):
    def test_operators(self):
        a, b = ints(3, 1, 4), flags(True, False, True)
        self.assertEqual(cvl.int_scan_after(cvl.operators.MAX, 2, a).tolist(), [2, 3, 3])
        self.assertEqual(cvl.bool_scan_after(cvl.operators.XOR, True, b).tolist(), [True, False, False])
        for op in (-1, 7, 19, 99, 2**32, 2**70):
            with self.assertRaises(cvl.Fault) as caught:
                cvl.int_scan_after(op, 2, a)
            self.assertEqual((caught.exception.number, caught.exception.name), (cvl.faults.UNKNOWN_CALL, "UnknownCall"))

    def test_exact_sums(self):
        a = numpy.full(5, 2**31 - 1, numpy.int32)
        self.assertEqual(cvl.exact_sum(a), 5 * (2**31 - 1))
        with self.assertRaises(cvl.Fault) as caught:
            cvl.checked_scan_after(5, a)
        self.assertEqual((caught.exception.name, caught.exception.place), ("Overflow", 1))
        self.assertEqual(cvl.checked_scan_after(-(2**31) + 1, a[:2]).tolist(), [-(2**31) + 1, 0])
        for before in (2**63, -(2**63) - 1):
            with self.assertRaisesRegex(OverflowError, "before is -?9223372036854775809?.*, which does not fit 64 bits"):
                cvl.checked_scan_after(before, a)

    def test_a_permute_in_ranges(self):
        rng = numpy.random.default_rng(4)
        source, index = rng.integers(-9, 9, 100, numpy.int32), rng.permutation(100).astype(numpy.int32)
        whole, written = numpy.zeros(100, numpy.int32), 0
        for lowest in range(0, 100, 40):
            part = whole[lowest : lowest + 40]
            marks = numpy.ones((len(part) + 31) // 32, numpy.uint32)
            written += cvl.permute_int_range(source, index, lowest, part, marks)
            self.assertEqual(sum(bin(word).count("1") for word in marks.tolist()), len(part))
        self.assertEqual((written, whole.tolist()), (100, cvl.smp_puz(source, index).tolist()))
        for marks, said in ((ints(0), "marks has elements of int32, and has to have uint32"), ([0], "marks is no array but a")):
            with self.assertRaisesRegex(TypeError, said):
                cvl.permute_int_range(source, index, 0, part, marks)
        with self.assertRaisesRegex(OverflowError, "lowest is -1, which does not fit a number of elements"):
            cvl.permute_int_range(source, index, -1, part, numpy.zeros(1, numpy.uint32))


def first_of(index, takes_part, count):
    """The first senders of so many places, read plainly."""
    return [next((k for k, i in enumerate(index) if takes_part[k] and i == place), -1) for place in range(count)]


class FirstSenders(Limited):
    def setUp(self):
        rng = numpy.random.default_rng(5)
        self.index, self.marked = rng.integers(0, 60, 100, numpy.int32), rng.random(100) < 0.5
        self.all = numpy.ones(100, bool)

    def test_of_several_the_first(self):
        index, marked = self.index, self.marked
        self.assertEqual(cvl.first_senders(index, 64).tolist(), first_of(index, self.all, 64))
        self.assertEqual(cvl.select_first_senders(index, marked, 64).tolist(), first_of(index, marked, 64))
        room = numpy.zeros(64, numpy.int32)
        self.assertIs(cvl.first_senders(index, 64, out=room), room)
        self.assertEqual(room.tolist(), first_of(index, self.all, 64))

    def test_by_segments(self):
        index, marked, halves = self.index, self.marked, ints(40, 0, 60)
        wanted = [*first_of(index[:40], marked[:40], 70), *first_of(index[40:], marked[40:], 61)]
        self.assertEqual(cvl.seg_select_first_senders(index, marked, halves, ints(70, 0, 61)).tolist(), wanted)
        self.assertEqual(cvl.seg_first_senders(index, halves, ints(70, 3, 61)).tolist()[70:73], [-1, -1, -1])

    def test_ranges_are_the_whole(self):
        whole, named = numpy.zeros(64, numpy.int32), 0
        for lowest in range(0, 64, 30):
            named += cvl.first_senders_range(self.index, lowest, whole[lowest : lowest + 30])
        self.assertEqual((named, whole.tolist()), (100, first_of(self.index, self.all, 64)))

    def test_faults(self):
        index, most = self.index, 2**31 - 1
        for call, number, place, said in (
            (lambda: cvl.first_senders(index, -1), 12, None, "count is -1"),
            (lambda: cvl.first_senders(index, most + 1), 13, None, None),
            (lambda: cvl.first_senders(index, 2**40, out=ints(7)), 13, None, None),
            (lambda: cvl.first_senders(ints(0, 3, 4), 3), 10, 1, "index[1] is 3, and the result has 3 elements"),
            (lambda: cvl.first_senders(index, 3, out=ints(7)), 7, None, "len(out) is 1, and has to be 3"),
            (lambda: cvl.select_first_senders(index, flags(True), 3), 7, None, "len(flags) is 1, and len(index) is 100"),
            (lambda: cvl.seg_first_senders(ints(0), ints(1), ints(2), out=ints(7)), 7, None, "len(out) is 1, and has to be 2"),
            (
                lambda: cvl.seg_first_senders(ints(0), ints(1), ints(2, 1)),
                7,
                None,
                "len(result_segments) is 2, and len(segments) is 1; the order of arguments is seg_first_senders(index, segments, result_segments)",
            ),
            (lambda: cvl.seg_first_senders(ints(0, 2), ints(1, 1), ints(2, 1)), 10, 1, "index[1] is 2"),
        ):
            with self.assertRaises(cvl.Fault) as caught:
                call()
            fault = caught.exception
            self.assertEqual((fault.number, fault.place, fault.said), (number, place, said))


class Slices(Limited):
    def test_in_any_order(self):
        source, starts, lengths = numpy.arange(90, dtype=numpy.int32), ints(40, 90, 7, 41), ints(50, 0, 3, 2)
        wanted = numpy.concatenate([source[start : start + length] for start, length in zip(starts, lengths)])
        self.assertEqual(cvl.gather_segments_int(source, starts, lengths).tolist(), wanted.tolist())
        self.assertEqual(cvl.gather_segments_bool(source % 3 == 1, starts, lengths).tolist(), (wanted % 3 == 1).tolist())
        room = numpy.zeros(55, numpy.int32)
        self.assertIs(cvl.gather_segments_int(source, starts, cvl.Segments(lengths), out=room), room)
        self.assertEqual(room.tolist(), wanted.tolist())

    def test_appends(self):
        a, b, segments, others = ints(1, 2, 3), ints(7, 8, 9), ints(2, 0, 1), ints(1, 2, 0)
        self.assertEqual(cvl.append_segments_int(a, b, segments, others).tolist(), [1, 2, 7, 8, 9, 3])
        self.assertEqual(cvl.append_segments_bool(flags(True), flags(False), ints(1, 0), ints(0, 1)).tolist(), [True, False])
        room = numpy.zeros(6, numpy.int32)
        self.assertIs(cvl.append_segments_int(a, b, segments, others, out=room), room)

    def test_sums(self):
        a, wanted = ints(2**31 - 1, 2**31 - 1, 5), [2**32 - 2, 0, 5]
        self.assertEqual(cvl.seg_exact_sums(a, ints(2, 0, 1)).tolist(), wanted)
        room = numpy.zeros(3, numpy.int64)
        self.assertIs(cvl.seg_exact_sums(a, ints(2, 0, 1), out=room), room)
        self.assertEqual((room.tolist(), room.dtype), (wanted, numpy.int64))
        with self.assertRaisesRegex(TypeError, "out has elements of int32, and has to have int64"):
            cvl.seg_exact_sums(a, ints(2, 0, 1), out=ints(0, 0, 0))

    def test_merges(self):
        values = numpy.arange(90, dtype=numpy.int32)
        marks = values * values % 7 < 3
        self.assertEqual(cvl.merge_by_flags_int(marks, values[marks], values[~marks]).tolist(), values.tolist())
        self.assertEqual(cvl.merge_by_flags_bool(flags(False, True), flags(True), flags(False)).tolist(), [False, True])

    def test_first_true(self):
        marks = flags(False, True, False, False, True)
        self.assertEqual((cvl.first_true(marks), cvl.first_true(marks[2:4]), cvl.first_true(marks[:0])), (1, -1, -1))
        self.assertEqual(cvl.seg_first_true(marks, ints(2, 1, 0, 2)).tolist(), [1, -1, -1, 1])

    def test_runs(self):
        keys = numpy.sort(numpy.arange(900, dtype=numpy.int32) ** 2 % 97)
        unique, starts, lengths = numpy.unique(keys, return_index=True, return_counts=True)
        self.assertEqual(cvl.run_starts_int(keys).tolist(), starts.tolist())
        self.assertEqual(cvl.run_lengths_int(keys).tolist(), lengths.tolist())
        self.assertEqual(cvl.bck_puz(keys, cvl.run_starts_int(keys)).tolist(), unique.tolist())
        sums = cvl.add_rez(numpy.arange(900, dtype=numpy.int32), cvl.run_lengths_int(keys))
        self.assertEqual(sums.tolist(), numpy.add.reduceat(numpy.arange(900), starts).tolist())
        segments = ints(1, 0, 2)
        self.assertEqual(cvl.seg_run_lengths_int(ints(5, 5, 5), segments).tolist(), [1, 2])
        self.assertEqual(cvl.seg_run_starts_bool(flags(True, True, True), segments).tolist(), [0, 1])
        self.assertEqual(cvl.seg_run_counts_int(ints(5, 5, 5), segments).lengths.tolist(), [1, 0, 1])
        self.assertEqual(cvl.run_lengths_bool(flags()).tolist(), [])
        room = numpy.full(4, 7, numpy.int32)
        self.assertEqual(cvl.run_lengths_int(ints(3, 3, 2), out=room).tolist(), [2, 1])
        self.assertEqual(room.tolist(), [2, 1, 7, 7])
        with self.assertRaisesRegex(cvl.Fault, r"len\(out\) is 1, and has to be 2 or more"):
            cvl.run_lengths_int(ints(3, 3, 2), out=room[:1])

    def test_merges_of_segments(self):
        values = numpy.arange(90, dtype=numpy.int32)
        marks = values * values % 7 < 3
        lengths = ints(20, 0, 60, 10)
        kept, left = cvl.pck_fov(marks, lengths), cvl.pck_fov(~marks, lengths)
        sides = values[marks], values[~marks]
        self.assertEqual(cvl.seg_merge_by_flags_int(marks, *sides, lengths, kept, left).tolist(), values.tolist())
        flagged = cvl.seg_merge_by_flags_bool(marks, sides[0] % 2 == 0, sides[1] % 2 == 0, lengths, kept, left)
        self.assertEqual(flagged.tolist(), (values % 2 == 0).tolist())
        with self.assertRaises(cvl.Fault) as caught:
            cvl.seg_merge_by_flags_int(flags(True, False), ints(1), ints(2), ints(1, 1), ints(0, 1), ints(1, 0))
        self.assertEqual((caught.exception.number, caught.exception.place), (7, 0))

    def test_transposes(self):
        matrix = numpy.arange(70 * 45, dtype=numpy.int32).reshape(70, 45)
        self.assertEqual(cvl.transpose_int(numpy.ravel(matrix), 70, 45).tolist(), numpy.ravel(matrix.T).tolist())
        self.assertEqual(
            cvl.transpose_bool(numpy.ravel(matrix % 3 == 1), 70, 45).tolist(), numpy.ravel(matrix.T % 3 == 1).tolist()
        )
        with self.assertRaisesRegex(OverflowError, "rows is -1, which does not fit a number of elements"):
            cvl.transpose_int(ints(1), -1, -1)

    def test_bytes(self):
        every = bytes(range(256))
        for given in (every, bytearray(every), memoryview(every), numpy.frombuffer(every, numpy.uint8)):
            self.assertEqual(cvl.ints_from_bytes(given).tolist(), list(range(256)))
        narrow = cvl.bytes_from_ints(numpy.arange(256, dtype=numpy.int32))
        self.assertEqual((narrow.tobytes(), narrow.dtype), (every, numpy.uint8))
        room = numpy.zeros(2, numpy.uint8)
        self.assertIs(cvl.bytes_from_ints(ints(255, 0), out=room), room)
        self.assertEqual(room.tolist(), [255, 0])
        with self.assertRaises(cvl.Fault) as caught:
            cvl.bytes_from_ints(ints(1, 256, -1), out=numpy.zeros(3, numpy.uint8))
        self.assertEqual((caught.exception.number, caught.exception.place), (18, 1))
        for given, said in (
            (
                numpy.zeros(2, numpy.int8),
                r"bytes has elements of int8, and has to have uint8; bytes of another kind are bytes.view\(numpy.uint8\)",
            ),
            ("text", "bytes is no array but a str; write bytes.encode"),
        ):
            with self.assertRaisesRegex(TypeError, said):
                cvl.ints_from_bytes(given)

    def test_faults(self):
        source = ints(10, 20, 30)
        with self.assertRaisesRegex(cvl.Fault, r"starts\[1\] is 2"):
            cvl.gather_segments_int(source, ints(0, 2), ints(3, 2))
        for call, number, place in (
            (lambda: cvl.gather_segments_int(source, ints(0, 2), ints(3, 2)), 10, 1),
            (lambda: cvl.transpose_int(source, 2, 2), 7, None),
            (lambda: cvl.transpose_int(source, 3, 1, out=ints(1)), 7, None),
            (lambda: cvl.seg_merge_by_flags_int(flags(True), ints(1), ints(), ints(2), ints(1), ints(0)), 7, None),
            (lambda: cvl.gather_segments_int(source, ints(-1, 2), ints(3, 2)), 10, 0),
            (lambda: cvl.gather_segments_int(source, ints(0), ints(3, 2)), 7, None),
            (lambda: cvl.gather_segments_int(source, ints(0, 0), ints(3, -1)), 12, 1),
            (lambda: cvl.gather_segments_int(source, ints(0), ints(3), out=ints(7)), 7, None),
            (lambda: cvl.merge_by_flags_int(flags(True, False), ints(1, 2), ints()), 7, None),
            (lambda: cvl.append_segments_int(source, source, ints(3), ints(2)), 7, None),
            (lambda: cvl.seg_exact_sums(source, ints(2)), 7, None),
            (lambda: cvl.seg_exact_sums(source, ints(3), out=numpy.zeros(2, numpy.int64)), 7, None),
            (lambda: cvl.append_segments_int(source, source, ints(3), ints(1, 2)), 7, None),
            (lambda: cvl.append_segments_int(source, source, ints(3), ints(3), out=ints(0, 0, 0)), 7, None),
            (lambda: cvl.seg_first_true(flags(True), ints(2)), 7, None),
        ):
            with self.assertRaises(cvl.Fault) as caught:
                call()
            self.assertEqual((caught.exception.number, caught.exception.place), (number, place))


def combined(operator, source, index, out):
    """What stands in `out`, joined with what is sent there, read plainly."""
    found = [int(value) for value in out]
    for value, place in zip(source, index):
        found[place] = operator(found[place], int(value))
    return found


class CombiningPermutes(Limited):
    def setUp(self):
        rng = numpy.random.default_rng(7)
        self.index, self.source = rng.integers(0, 60, 100, numpy.int32), rng.integers(-9, 9, 100, numpy.int32)
        self.before = rng.integers(-9, 9, 64, numpy.int32)

    def test_over_what_stands_there(self):
        for number, operator in ((cvl.operators.ADD, int.__add__), (cvl.operators.MIN, min), (cvl.operators.XOR, int.__xor__)):
            room = self.before.copy()
            self.assertIs(cvl.combine_permute_int(number, self.source, self.index, room), room)
            self.assertEqual(room.tolist(), combined(operator, self.source, self.index, self.before))
            room = self.before.copy()
            self.assertIs(cvl.combine_permute_int(op=number, source=self.source, index=self.index, out=room), room)
            self.assertEqual(room.tolist(), combined(operator, self.source, self.index, self.before))

    def test_without_wrapping(self):
        source = numpy.abs(self.source) * numpy.int32(2 * 10**8)
        room, sums = self.before.copy(), self.before.astype(numpy.int64)
        wanted = combined(int.__add__, source, self.index, self.before)
        self.assertIs(cvl.combine_exact_sums(source, self.index, sums), sums)
        self.assertEqual(sums.tolist(), wanted)
        self.assertTrue(max(wanted) >= 2**31)
        with self.assertRaises(cvl.Fault) as caught:
            cvl.combine_checked_int(source, self.index, room)
        first = next(place for place, total in enumerate(wanted) if not -(2**31) <= total < 2**31)
        self.assertEqual((caught.exception.number, caught.exception.place, room.tolist()), (18, first, self.before.tolist()))
        there_and_back = numpy.concatenate([source, -source])
        self.assertIs(cvl.combine_checked_int(there_and_back, numpy.tile(self.index, 2), room), room)
        self.assertEqual(room.tolist(), self.before.tolist())
        self.assertEqual(
            cvl.seg_combine_checked_int(ints(1, 2, 3), ints(1, 0, 0), ints(1, 2), ints(2, 1), ints(5, 6, 7)).tolist(), [5, 7, 12]
        )
        halves = numpy.array([5, 6, 7])
        self.assertEqual(
            cvl.seg_combine_exact_sums(ints(1, 2, 2**31 - 1), ints(1, 0, 0), ints(1, 2), ints(2, 1), halves).tolist(),
            [5, 7, 2**31 + 8],
        )

    def test_of_booleans(self):
        source, room = self.source > 0, self.before > 0
        wanted = combined(int.__xor__, source, self.index, room)
        self.assertEqual(
            cvl.combine_permute_bool(cvl.operators.XOR, source, self.index, room).tolist(), [bool(found) for found in wanted]
        )
        odd = numpy.array([2, 0, 255], dtype=numpy.uint8).view(bool)
        cvl.combine_permute_bool(cvl.operators.XOR, flags(True, True), ints(1, 2), odd)
        self.assertEqual(odd.view(numpy.uint8).tolist(), [1, 1, 0])

    def test_counts(self):
        self.assertEqual(cvl.counts(self.index, 64).tolist(), numpy.bincount(self.index, minlength=64).tolist())
        room = numpy.ones(64, numpy.int32)
        self.assertIs(cvl.counts(self.index, 64, out=room), room)
        self.assertEqual(room.tolist(), numpy.bincount(self.index, minlength=64).tolist())

    def test_by_segments(self):
        index, source, halves, rooms = self.index, self.source, ints(40, 0, 60), ints(64, 2, 61)
        room = numpy.concatenate([self.before, self.before])[:127]
        wanted = [
            *combined(int.__add__, source[:40], index[:40], room[:64]), *room[64:66].tolist(), *combined(int.__add__, source[40:], index[40:], room[66:]),
        ]  # fmt: skip
        self.assertIs(cvl.seg_combine_permute_int(cvl.operators.ADD, source, index, halves, rooms, room), room)
        self.assertEqual(room.tolist(), wanted)
        counts = [*numpy.bincount(index[:40], minlength=64), 0, 0, *numpy.bincount(index[40:], minlength=61)]
        self.assertEqual(cvl.seg_counts(index, halves, rooms).tolist(), counts)

    def test_faults(self):
        add, one, most = cvl.operators.ADD, ints(1), 2**31 - 1
        for call, number, place, said in (
            (
                lambda: cvl.combine_permute_int(add, ints(1, 2, 3), ints(0, 3, 4), ints(7, 7, 7)),
                10,
                1,
                "index[1] is 3, and the result has 3 elements",
            ),
            (lambda: cvl.combine_permute_int(add, one, ints(0, 0), ints(7)), 7, None, "len(index) is 2, and len(source) is 1"),
            (lambda: cvl.combine_permute_int(cvl.operators.SUB, one, one, ints(7, 7)), 2, None, None),
            (lambda: cvl.combine_permute_int(add, one, (room := ints(0, 0))[:1], room), 102, None, "out and index share memory"),
            (
                lambda: cvl.seg_combine_permute_int(add, one, one, ints(1), ints(2), ints(7)),
                7,
                None,
                "len(out) is 1, and has to be 2",
            ),
            (lambda: cvl.seg_combine_permute_int(add, one, ints(2), ints(1), ints(2), ints(7, 7)), 10, 0, "index[0] is 2"),
            (lambda: cvl.combine_checked_int(ints(most, 1, 1), ints(1, 1, 0), ints(most, 0, 0)), 18, 0, None),
            (
                lambda: cvl.combine_checked_int(ints(most, 1), ints(0, 3), ints(7, 7, 7)),
                10,
                1,
                "index[1] is 3, and the result has 3 elements",
            ),
            (lambda: cvl.combine_exact_sums(one, ints(0), numpy.array([2**62])), 18, 0, None),
            (
                lambda: cvl.combine_exact_sums(one, ints(2), numpy.zeros(2, numpy.int64)),
                10,
                0,
                "index[0] is 2, and the result has 2 elements",
            ),
            (lambda: cvl.counts(one, -1), 12, None, "count is -1"),
            (lambda: cvl.counts(one, most + 1), 13, None, None),
            (lambda: cvl.counts(ints(0, 3), 3), 10, 1, "index[1] is 3, and the result has 3 elements"),
            (lambda: cvl.seg_counts(ints(0, 2), ints(1, 1), ints(2, 1)), 10, 1, "index[1] is 2"),
        ):
            with self.assertRaises(cvl.Fault) as caught:
                call()
            fault = caught.exception
            self.assertEqual((fault.number, fault.place, fault.said), (number, place, said))

    def test_a_fault_leaves_the_room(self):
        room = self.before.copy()
        with self.assertRaises(cvl.Fault):
            cvl.combine_permute_int(cvl.operators.ADD, ints(1, 2), ints(0, 64), room)
        self.assertEqual(room.tolist(), self.before.tolist())

    def test_a_room_is_needed(self):
        given = cvl.operators.ADD, ints(1), ints(0)
        read_only = ints(7)
        read_only.flags.writeable = False
        for arguments, error, said in (
            (given, TypeError, r"combine_permute_int\(\) missing 1 required argument: 'out'"),
            ((*given, None), TypeError, "out is no array but a NoneType; a room that holds what stands before is made by"),
            ((*given, [7]), TypeError, "out is no array but a list; a room that holds what stands before is made by"),
            (
                (*given, flags(True)),
                TypeError,
                r"out has elements of bool, and has to have int32; a room .* numpy.zeros\(n, dtype=numpy.int32\)",
            ),
            ((*given, read_only), ValueError, "out may not be written"),
            ((*given, ints(7), ints(7)), TypeError, r"combine_permute_int\(\) takes 4 positional arguments but 5 were given"),
        ):
            with self.assertRaisesRegex(error, said):
                cvl.combine_permute_int(*arguments)


class Sorts(Limited):
    def setUp(self):
        # few keys, keys by digits of 8 bits, and keys by digits of 11; many that are equal, and the greatest and the least
        rng = numpy.random.default_rng(8)
        self.vectors = [
            rng.integers(low, high, n, numpy.int32)
            for n in (0, 40, 900, 5000)
            for low, high in ((-5, 5), (-(2**31), 2**31 - 1))
        ]

    def test_as_numpy_sorts(self):
        for keys in self.vectors:
            order = numpy.argsort(keys, kind="stable")
            self.assertEqual(cvl.order(keys).tolist(), order.tolist())
            self.assertEqual(cvl.rank(keys).tolist(), numpy.argsort(order).tolist())
            self.assertEqual(cvl.sort(keys).tolist(), numpy.sort(keys).tolist())
            own = keys.copy()
            self.assertIs(cvl.sort(own, out=own), own)
            self.assertEqual(own.tolist(), numpy.sort(keys).tolist())

    def test_descending(self):
        for keys in self.vectors:
            self.assertEqual(cvl.order(~keys).tolist(), numpy.argsort(~keys.astype(numpy.int64), kind="stable").tolist())
            self.assertEqual((~cvl.sort(~keys)).tolist(), numpy.sort(keys)[::-1].tolist())

    def test_by_segments(self):
        for keys in self.vectors:
            lengths = ints(len(keys) // 3, 0, len(keys) - len(keys) // 3)
            pieces = keys[: lengths[0]], keys[lengths[0] :]
            for call, flat in ((cvl.seg_order, cvl.order), (cvl.seg_rank, cvl.rank), (cvl.seg_sort, cvl.sort)):
                self.assertEqual(
                    call(keys, lengths).tolist(), [*flat(pieces[0].copy()).tolist(), *flat(pieces[1].copy()).tolist()]
                )

    def test_by_key(self):
        for keys in self.vectors:
            values = numpy.arange(len(keys), dtype=numpy.int32)
            for call, sign in ((cvl.sort_by_key, 1), (cvl.sort_by_key_descending, -1)):
                own, moved = keys.copy(), values.copy()
                self.assertIsNone(call(own, moved))
                order = numpy.argsort(sign * keys.astype(numpy.int64), kind="stable")
                self.assertEqual((own.tolist(), moved.tolist()), (keys[order].tolist(), order.tolist()))

    def test_by_key_by_segments(self):
        for keys in self.vectors:
            cut = len(keys) // 3
            calls = (cvl.seg_sort_by_key, cvl.sort_by_key), (cvl.seg_sort_by_key_descending, cvl.sort_by_key_descending)
            for call, flat in calls:
                own, moved = keys.copy(), numpy.arange(len(keys), dtype=numpy.int32)
                pieces = [(own[a:b].copy(), moved[a:b].copy()) for a, b in ((0, cut), (cut, len(keys)))]
                call(ints(cut, 0, len(keys) - cut), own, moved)
                for piece in pieces:
                    flat(*piece)
                self.assertEqual(own.tolist(), [key for piece in pieces for key in piece[0].tolist()])
                self.assertEqual(moved.tolist(), [value for piece in pieces for value in piece[1].tolist()])

    def test_faults(self):
        room = ints(1, 2)
        for call, number, place, said in (
            (lambda: cvl.order(ints(3, 1), out=ints(7)), 7, None, "len(out) is 1, and has to be 2"),
            (lambda: cvl.order(room, out=room), 102, None, "out and keys share memory"),
            (lambda: cvl.seg_rank(ints(3, 1), ints(1)), 7, None, "segments add up to 1, and len(keys) is 2"),
            (lambda: cvl.seg_sort(ints(3, 1), ints(3, -1)), 12, 1, "segments[1] is -1"),
            (lambda: cvl.sort_by_key(ints(3, 1), ints(7)), 7, None, "len(values) is 1, and len(keys) is 2"),
            (lambda: cvl.seg_sort_by_key(ints(1), ints(3, 1), ints(7, 8)), 7, None, "segments add up to 1, and len(keys) is 2"),
            (lambda: cvl.sort_by_key(room, room), 102, None, None),
        ):
            with self.assertRaises(cvl.Fault) as caught:
                call()
            fault = caught.exception
            self.assertEqual((fault.number, fault.place, fault.said), (number, place, said))


class Names(Limited):
    def test_each_call_says_what_it_does(self):
        for name in cvl.calls.__all__:
            self.assertIn(">>>", getattr(cvl, name).__doc__, name)

    def test_what_the_package_has(self):
        self.assertEqual(set(cvl.calls.__all__) - set(cvl.__all__), set())
        self.assertTrue(all(hasattr(cvl, name) for name in cvl.__all__))
        self.assertTrue(pathlib.Path(cvl.__file__).with_name("py.typed").exists())
        self.assertEqual(pickle.loads(pickle.dumps(cvl.add_wuz)), cvl.add_wuz)
        self.assertEqual(str(inspect.signature(cvl.add_wuz)), "(a, b, *, out=None)")

    def test_help_leads_in(self):
        said = pydoc.plain(pydoc.render_doc(cvl))
        for wanted in ("Segments cut a vector", "help(cvl.add_suz)", "add_wuz(a, b, *, out=None)"):
            self.assertIn(wanted, said)
        self.assertIn("The wrapped sums.", pydoc.plain(pydoc.render_doc(cvl.add_wuz)))
        self.assertNotIn("method of", pydoc.plain(pydoc.render_doc(cvl.add_wuz)))

    def test_help_has_the_names_of_other_libraries(self):
        words = {
            "cumsum": "add_suz",
            "prefix sum": "add_suz",
            "scatter": "smp_puz",
            "argsort": "order",
            "bincount": "counts",
            "unique": "sort",
        }
        for word, name in words.items():
            self.assertIn(word, pydoc.plain(pydoc.render_doc(getattr(cvl, name))))

    def test_faults_are_value_errors_with_constants(self):
        with self.assertRaises(ValueError) as caught:
            cvl.div_wuz(ints(1), ints(0))
        fault = caught.exception
        self.assertEqual((type(fault), fault.number), (cvl.Fault, cvl.faults.DIVIDE_BY_ZERO))
        copied = pickle.loads(pickle.dumps(fault))
        self.assertEqual((copied.number, copied.name, copied.place, str(copied)), (8, "DivideByZero", 0, str(fault)))
        numbers = {name: value for name, value in vars(cvl.faults).items() if name.isupper()}
        wanted = {"UNKNOWN_CALL": 2, "LENGTH_MISMATCH": 7, "DIVIDE_BY_ZERO": 8, "SHIFT_OUT_OF_RANGE": 9, "INDEX_OUT_OF_RANGE": 10}
        wanted.update(INDEX_REPEATED=11, NEGATIVE_LENGTH=12, TOO_LONG=13, BAD_INPUT=15, OVERFLOW=18, OVERLAP=102)
        self.assertEqual(numbers, wanted)

    def test_the_version(self):
        self.assertEqual(cvl.__version__, "1.0.0")
        self.assertEqual(importlib.import_module("importlib.metadata").version("cvl"), cvl.__version__)


if __name__ == "__main__":
    unittest.main()
