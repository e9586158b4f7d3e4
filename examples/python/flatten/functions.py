"""The functions of Python that the language has, and elements and slices of lists, for all iterations at once."""

import functools

from flatten.code import Error, Lists, Same, Tuple, Whole, of_kind
from flatten.language import called
from flatten.lift import Lift

REDUCES = {("sum", "z"): "add_rez", ("min", "z"): "min_rez", ("max", "z"): "max_rez"}
REDUCES |= {("min", "b"): "and_reb", ("max", "b"): "ior_reb", ("any", "b"): "ior_reb", ("all", "b"): "and_reb"}


class Functions(Lift):
    """Writes the calls of a block. A method `call_NAME` is the function NAME of Python, for the node that calls it and its
    arguments."""

    def error(self, node, kind, said):
        return Error(kind, said, node.lineno, self.instance.function)

    def ordered(self, node, value):
        """An integer or a boolean of each iteration. What was in an empty list may turn out to be something else when all is
        inferred."""
        if isinstance(value, (Lists, Whole, Tuple)):
            instead = "compare, sort or reduce a part of each"
            self.instance.function.source.refuse(node, "this takes integers or booleans", instead)
        return value

    # ---- elements and slices ----

    def element(self, node, value, index):
        error = self.error(node, IndexError, "list index out of range")
        length = value.length if isinstance(value, Whole) else value.lengths
        index = self.vector(self.from_end(index, length))
        if isinstance(value, Whole):
            return self.take(value.inner, index, error)
        if value.starts is None:
            calls = {kind: of_kind("ext_vez", kind) for kind in "zb"}
            return self.each(value.inner, lambda vector: self.call(calls[vector.kind], vector, index, length, error=error))
        outside = self.call("ior_wub", self.call("les_wuz", index, Same(0, "z")), self.call("geq_wuz", index, length))
        self.check(outside, error)
        return self.take(value.inner, self.call("add_wuz", value.starts, index))

    def from_end(self, index, length):
        """An index, of which a negative one counts from the end."""
        if index.is_written:
            return self.call("add_wuz", length, index) if index.value < 0 else index
        return self.call("sel_wuz", self.call("les_wuz", index, Same(0, "z")), self.call("add_wuz", index, length), index)

    def cut(self, value, begin, end):
        """A slice between two ends, or none: other lists of the same elements."""
        value = self.lists(value)
        begin = self.end(begin, value.lengths) if begin else Same(0, "z")
        end = self.end(end, value.lengths) if end else value.lengths
        lengths = self.call("max_wuz", self.call("sub_wuz", end, begin), Same(0, "z"))
        return Lists(lengths, value.inner, self.call("add_wuz", self.offsets(value), begin))

    def end(self, index, lengths):
        """An end of a slice, inside the list."""
        return self.call("max_wuz", self.call("min_wuz", self.from_end(index, lengths), lengths), Same(0, "z"))

    def turned(self, value):
        """Each list from its last element on."""
        value = self.lists(value)
        last = self.call("sub_wuz", self.call("add_wuz", self.offsets(value), value.lengths), Same(1, "z"))
        places = self.call("ind_lez", last, self.vector(Same(-1, "z")), value.lengths)
        return Lists(value.lengths, self.take(value.inner, places))

    # ---- the functions of Python ----

    def call_len(self, node, value):
        return value.length if isinstance(value, Whole) else value.lengths

    def call_list(self, node, value):
        return value

    def call_reversed(self, node, value):
        return self.turned(value)

    def call_sorted(self, node, value):
        value = self.tight(value)
        if self.ordered(node, value.inner).kind == "z":
            return Lists(value.lengths, self.call("seg_sort", value.inner, value.lengths))
        numbers = self.call("seg_sort", self.call("int_wub", value.inner), value.lengths)
        return Lists(value.lengths, self.call("boo_wuz", numbers))

    def reduce(self, node, value):
        """A sum, the least, the greatest, any or all of each list. If one list is the same in all iterations, it is reduced
        once."""
        if isinstance(value, Whole) and not self.program.straight:
            return self.same(self.reduce(node, Lists(self.call("dis_vuz", value.length, Same(1, "z")), value.inner)))
        name, value = called(node), self.tight(value)
        elements = self.ordered(node, value.inner)
        if name == "sum" and elements.kind == "b":
            elements = self.call("int_wub", elements)
        if name == "sum" and not self.instance.function.wraps:
            return self.call("tot_rez", elements, value.lengths, error=self.error(node, OverflowError, "a sum leaves 32 bits"))
        if name in ("min", "max"):
            empty = self.call("eql_wuz", value.lengths, Same(0, "z"))
            self.check(empty, self.error(node, ValueError, f"{name}() arg is an empty sequence"))
        return self.call(REDUCES[name, elements.kind], elements, value.lengths)

    call_sum = call_any = call_all = reduce

    def call_min(self, node, *given):
        if len(given) == 1:
            return self.reduce(node, *given)
        return functools.reduce(functools.partial(self.call, f"{called(node)}_wuz"), given)

    call_max = call_min

    def call_range(self, node, *given):
        first, last = (Same(0, "z"), *given) if len(given) == 1 else given[:2]
        step = given[2] if len(given) == 3 else Same(1, "z")
        low, high, size = first, last, step
        if step != Same(1, "z"):
            self.check(self.call("eql_wuz", step, Same(0, "z")), self.error(node, ValueError, "range() arg 3 must not be zero"))
            up = self.call("grt_wuz", step, Same(0, "z"))
            low, high = self.call("sel_wuz", up, first, last), self.call("sel_wuz", up, last, first)
            size = self.call("sel_wuz", up, step, self.call("sub_wuz", Same(0, "z"), step))
        span = high
        if low != Same(0, "z"):
            span = self.call("sub_wuz", high, low)
            wraps = self.leaves_32_bits("sub", high, low, span)
            self.check(wraps, self.error(node, OverflowError, "a range is longer than a vector"))
        lengths = self.call("max_wuz", span, Same(0, "z"))
        if step != Same(1, "z"):
            before = self.call("sub_wuz", self.call("max_wuz", lengths, Same(1, "z")), Same(1, "z"))
            lengths = self.call("min_wuz", lengths, self.call("add_wuz", self.call("div_wuz", before, size), Same(1, "z")))
        return Lists(lengths, self.call("ind_lez", self.vector(first), self.vector(step), lengths))

    def call_enumerate(self, node, value):
        value = self.tight(value)
        zeros, ones = (self.vector(Same(number, "z")) for number in (0, 1))
        return Lists(value.lengths, Tuple((self.call("ind_lez", zeros, ones, value.lengths), value.inner)))

    def call_zip(self, node, *given):
        given = [self.lists(value) for value in given]
        lengths = functools.reduce(functools.partial(self.call, "min_wuz"), [value.lengths for value in given])
        if len(given) > 1:
            given = [self.tight(Lists(lengths, value.inner, self.offsets(value))) for value in given]
        return Lists(lengths, Tuple(tuple(self.tight(value).inner for value in given)))
