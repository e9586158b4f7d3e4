"""Operations on lifted values: each does at once, for all iterations, what Python does in one. They write vector calls."""

from flatten.code import GIVES, SAME, Call, Check, Lists, Same, Tuple, Vector, Whole, leaves, of_kind, renamed
from flatten.kinds import INT, BOOL, List
from flatten.kinds import Tuple as TupleKind
from flatten.language import GREATEST, LEAST


class Lift:
    """Writes the calls of a block. `count` is the number of its iterations; `single` says that this is 1 in every run."""

    def __init__(self, names, block, count, single):
        self.names, self.block, self.count, self.single = names, block, count, single
        self.called = {}

    # ---- calls ----

    def call(self, call, *given, error=None):
        """Writes a call, unless the block has made it, and returns what it gives. An elementwise call takes numbers, too, if
        one argument is a vector."""
        if call[-3] == "w" and not any(isinstance(value, Vector) for value in given):
            at = 1 if call.startswith("sel") else 0
            given = [self.vector(value) if k == at else value for k, value in enumerate(given)]
        words = [value.value if isinstance(value, Same) else value.name for value in given]
        if (call, *words) not in self.called:
            name, kind = next(self.names), GIVES[call]
            self.block.steps.append(Call(name, call, words, error))
            self.called[(call, *words)] = Same(name, "z" if kind == "n" else "b") if kind in "nt" else Vector(name, kind)
        return self.called[(call, *words)]

    def check(self, flags, error):
        """The first iteration whose flag is true has this error."""
        self.block.steps.append(Check(self.vector(flags).name, error))

    def again(self, value):
        """A value by other names. If iterations fail, a block leaves elements out of what it walks, and not of a list that it
        indexes."""
        other = renamed(value, self.names)
        self.block.steps += [Call(name, SAME, [old]) for name, old in zip(leaves(other), leaves(value))]
        return other

    def vector(self, value):
        """A vector of what may be the same in all iterations."""
        return self.call(of_kind("dis_vuz", value.kind), value, self.count) if isinstance(value, Same) else value

    # ---- lists ----

    def offsets(self, value):
        """Where the list of each iteration begins."""
        return value.starts or self.call("add_suz", value.lengths)

    def lists(self, value):
        """A list of each iteration, of what may be one list for all."""
        if isinstance(value, Whole):
            return Lists(self.vector(value.length), value.inner, self.vector(Same(0, "z")))
        return value

    def tight(self, value):
        """The same lists, whose elements lie one behind another."""
        value = self.lists(value)
        if value.starts is None:
            return value
        return Lists(value.lengths, self.slices(value.inner, value.starts, value.lengths))

    def slices(self, value, starts, lengths):
        """The iterations of a value from each start on, so many as each length says, one slice behind another."""
        if isinstance(value, Vector):
            return self.call(of_kind("gather_segments_int", value.kind), value, starts, lengths)
        if isinstance(value, Tuple):
            return Tuple(tuple(self.slices(part, starts, lengths) for part in value.parts))
        some = [self.call("gather_segments_int", part, starts, lengths) for part in (self.offsets(value), value.lengths)]
        return self.tight(Lists(some[1], value.inner, some[0]))

    def each(self, value, by_vector):
        """A value of other iterations: what `by_vector` makes of each vector. Elements of lists stay where they are."""
        if isinstance(value, Vector):
            return by_vector(value)
        if isinstance(value, Tuple):
            return Tuple(tuple(self.each(part, by_vector) for part in value.parts))
        if isinstance(value, Lists):
            return Lists(by_vector(value.lengths), value.inner, by_vector(self.offsets(value)))
        return value

    def take(self, value, index, error=None):
        """The iterations of a value with these numbers."""
        return self.each(value, lambda vector: self.call(of_kind("bck_puz", vector.kind), vector, index, error=error))

    def pack(self, value, flags):
        """The iterations of a value whose flag is true."""
        return self.each(value, lambda vector: self.call(of_kind("pck_luz", vector.kind), vector, flags))

    def spread(self, value, lengths):
        """A value of each iteration, once for each element of its list."""
        if self.single:
            return self.same(value)
        return self.each(value, lambda vector: self.call(of_kind("dis_vez", vector.kind), vector, lengths))

    def same(self, value):
        """A value of the only iteration, as the same for all iterations of other code."""
        if isinstance(value, Vector):
            return self.call(of_kind("ext_vuz", value.kind), value, Same(0, "z"))
        if isinstance(value, Tuple):
            return Tuple(tuple(map(self.same, value.parts)))
        if isinstance(value, Lists):
            value = self.tight(value)
            return Whole(self.same(value.lengths), value.inner)
        return value

    def settled(self, value):
        """A value in the form that results have: vectors, and lists whose elements lie one behind another at each level."""
        if isinstance(value, Same):
            return self.vector(value)
        if isinstance(value, Tuple):
            return Tuple(tuple(map(self.settled, value.parts)))
        if isinstance(value, Vector):
            return value
        value = self.tight(value)
        return Lists(value.lengths, self.settled(value.inner))

    def empty(self, kind):
        """A value of no iterations."""
        none = Same(0, "z")
        if isinstance(kind, List):
            return Lists(self.call("dis_vuz", none, none), self.empty(kind.of))
        if isinstance(kind, TupleKind):
            return Tuple(tuple(map(self.empty, kind.parts)))
        return self.call("dis_vub", Same(False, "b"), none) if kind == BOOL else self.call("dis_vuz", none, none)

    # ---- two values ----

    def append(self, one, other):
        """The list of each iteration, and behind it that of another value."""
        one, other = self.settled(one), self.settled(other)
        inner = self.behind(one.inner, other.inner, one.lengths, other.lengths)
        return Lists(self.call("add_wuz", one.lengths, other.lengths), inner)

    def behind(self, one, other, lengths, others):
        """Segments of one value, each with that of another behind it."""
        if isinstance(one, Vector):
            return self.call(of_kind("append_segments_int", one.kind), one, other, lengths, others)
        if isinstance(one, Tuple):
            return Tuple(tuple(self.behind(part, more, lengths, others) for part, more in zip(one.parts, other.parts)))
        totals = [self.call("add_rez", value.lengths, cut) for value, cut in ((one, lengths), (other, others))]
        joined = self.call("append_segments_int", one.lengths, other.lengths, lengths, others)
        return Lists(joined, self.behind(one.inner, other.inner, *totals))

    def merge(self, flags, one, other):
        """The next iteration of one value where the flag is true, and else of the other."""
        if isinstance(one, Vector):
            return self.call(of_kind("merge_by_flags_int", one.kind), flags, one, other)
        if isinstance(one, Tuple):
            return Tuple(tuple(self.merge(flags, part, more) for part, more in zip(one.parts, other.parts)))
        lengths = self.call("merge_by_flags_int", flags, one.lengths, other.lengths)
        return Lists(lengths, self.merge(self.call("dis_veb", flags, lengths), one.inner, other.inner))

    # ---- numbers ----

    def floor(self, a, b, error, is_quotient):
        """`a // b` or `a % b` as in Python. Calls divide toward zero, so the quotient is one less if there is a remainder of
        another sign than the divisor. By a power of two, bits are shifted out or left."""
        if b.is_written and b.value > 0 and b.value & (b.value - 1) == 0:
            bits = b.value.bit_length() - 1 if is_quotient else b.value - 1
            return self.call("rsh_wuz" if is_quotient else "and_wuz", a, Same(bits, "z"))
        rest = self.call("mod_wuz", a, b, error=error)
        if b.is_written:
            turned = self.call("les_wuz" if b.value > 0 else "grt_wuz", rest, Same(0, "z"))
        else:
            apart = self.call("les_wuz", self.call("xor_wuz", rest, b), Same(0, "z"))
            turned = self.call("and_wub", self.call("neq_wuz", rest, Same(0, "z")), apart)
        if is_quotient:
            return self.call("sub_wuz", self.call("div_wuz", a, b, error=error), self.call("int_wub", turned))
        return self.call("sel_wuz", turned, self.call("add_wuz", rest, b), rest)

    def leaves_32_bits(self, op, a, b, wrapped):
        """Flags where a sum, a difference, a product or a quotient has wrapped."""
        if op == "div":
            return self.call("and_wub", self.call("eql_wuz", a, Same(LEAST, "z")), self.call("eql_wuz", b, Same(-1, "z")))
        if op == "mul":
            return self.product_wraps(a, b, wrapped)
        if op == "add" and a.is_written:
            a, b = b, a
        if b.is_written:
            return self.above_or_below(a, b.value if op == "add" else -b.value)
        # a sum has wrapped if its sign differs from both signs, a difference if a's sign differs from both others
        first = self.call("xor_wuz", a, wrapped if op == "add" else b)
        second = self.call("xor_wuz", wrapped, b if op == "add" else a)
        return self.call("les_wuz", self.call("and_wuz", first, second), Same(0, "z"))

    def above_or_below(self, a, added):
        """Flags where so much cannot be added."""
        if added >= 0:
            return self.call("grt_wuz", a, Same(GREATEST - added, "z"))
        return self.call("les_wuz", a, Same(LEAST - added, "z"))

    def product_wraps(self, a, b, product):
        """Dividing it gives something else; only -1 times the least integer is seen otherwise."""
        if a.is_written:
            a, b = b, a
        if b.is_written and b.value > 0:
            over = self.call("grt_wuz", a, Same(GREATEST // b.value, "z"))
            return self.call("ior_wub", over, self.call("les_wuz", a, Same(-(-LEAST // b.value), "z")))
        divisor = self.call("sel_wuz", self.call("eql_wuz", b, Same(0, "z")), Same(1, "z"), b)
        other = self.call("neq_wuz", self.call("div_wuz", product, divisor), a)
        other = self.call("and_wub", other, self.call("neq_wuz", b, Same(0, "z")))
        return self.call("ior_wub", other, self.leaves_32_bits("div", a, b, product))
