"""What each call gives, over plain lists.

Vectors are lists, and a descriptor is the list of its lengths. It shares nothing with the library: segments are cut out as lists,
and integers are whole numbers that are wrapped. `CALLS` has each call by its name: the kinds of its arguments, the kind of its
result, and its function. The kinds are `z` integers, `b` booleans, `d` descriptor, `i` integer and `t` boolean.
"""

import operator
from itertools import accumulate

LEAST, GREATEST = -(2**31), 2**31 - 1
MOST_ELEMENTS = 4194304

FAULTS = {
    1: "BadLine",
    2: "UnknownCall",
    3: "WrongArgumentCount",
    4: "UnknownName",
    5: "WrongKind",
    6: "BadNumber",
    7: "LengthMismatch",
    8: "DivideByZero",
    9: "ShiftOutOfRange",
    10: "IndexOutOfRange",
    11: "IndexRepeated",
    12: "NegativeLength",
    13: "TooLong",
    14: "NoSuchInput",
    15: "BadInput",
    16: "TooManyNames",
    17: "ScriptTooLong",
    18: "Overflow",
}


class Fault(Exception):
    """A fault, by its number and its place, if it has one."""

    def __init__(self, number, place=None):
        super().__init__(number, place)
        self.number, self.place = number, place

    def __str__(self):
        place = "" if self.place is None else f" at {self.place}"
        return f"fault {self.number} {FAULTS[self.number]}{place}"


def wrap(number):
    return (number - LEAST) % 2**32 + LEAST


def agree(*lengths):
    if len(set(lengths)) > 1:
        raise Fault(7)


def cut(vector, lengths):
    """The lists of these lengths, one after another."""
    ends = list(accumulate(lengths))
    return [vector[end - length : end] for end, length in zip(ends, lengths)]


def joined(lists):
    return [x for one in lists for x in one]


# place by place

INT2 = {
    "add": lambda a, b: wrap(a + b),
    "sub": lambda a, b: wrap(a - b),
    "mul": lambda a, b: wrap(a * b),
    "min": min,
    "max": max,
    "and": operator.and_,
    "ior": operator.or_,
    "xor": operator.xor,
}
BOOL2 = {"and": lambda a, b: a and b, "ior": lambda a, b: a or b, "xor": lambda a, b: a != b}
COMPARE = {
    "grt": lambda a, b: a > b,
    "les": lambda a, b: a < b,
    "geq": lambda a, b: a >= b,
    "leq": lambda a, b: a <= b,
    "eql": lambda a, b: a == b,
    "neq": lambda a, b: a != b,
}


def quotient(a, b):
    """The quotient of whole numbers, truncated toward zero."""
    return abs(a) // abs(b) if (a < 0) == (b < 0) else -(abs(a) // abs(b))


# an operator without a value on some pairs gives none there
PARTIAL = {
    "div": (8, lambda a, b: None if b == 0 else wrap(quotient(a, b))),
    "mod": (8, lambda a, b: None if b == 0 else a - b * quotient(a, b)),
    "lsh": (9, lambda a, s: wrap(a * 2**s) if 0 <= s <= 31 else None),
    "rsh": (9, lambda a, s: a // 2**s if 0 <= s <= 31 else None),
}


def place_by_place(function):
    def call(*vectors):
        agree(*map(len, vectors))
        return [function(*xs) for xs in zip(*vectors)]

    return call


def where_valued(number, function):
    def call(a, b):
        agree(len(a), len(b))
        values = [function(x, y) for x, y in zip(a, b)]
        if None in values:
            raise Fault(number, values.index(None))
        return values

    return call


# scans and reduces

INT_MONOIDS = {"add": 0, "mul": 1, "min": GREATEST, "max": LEAST, "and": -1, "ior": 0, "xor": 0}
BOOL_MONOIDS = {"and": True, "ior": False, "xor": False}


def sums(function, identity, vector):
    """What stands before each element, joined, and last of all the whole."""
    return list(accumulate(vector, function, initial=identity))


def scan(function, identity):
    return lambda a: sums(function, identity, a)[:-1]


def reduce(function, identity):
    return lambda a: sums(function, identity, a)[-1]


def by_segments(function):
    """A call on each segment of a vector, whose results are lists."""

    def call(a, d):
        agree(len(a), sum(d))
        return joined(map(function, cut(a, d)))

    return call


def for_each_segment(function):
    """A call on each segment of a vector, whose results are single elements."""

    def call(a, d):
        agree(len(a), sum(d))
        return list(map(function, cut(a, d)))

    return call


def fitting(numbers):
    """The numbers, all of which have to fit 32 bits."""
    for place, number in enumerate(numbers):
        if not LEAST <= number <= GREATEST:
            raise Fault(18, place)
    return numbers


whole_scan = scan(lambda a, b: a + b, 0)


def tot_suz(a):
    return fitting(whole_scan(a))


def tot_sez(a, d):
    agree(len(a), sum(d))
    return fitting(joined(map(whole_scan, cut(a, d))))


def tot_ruz(a):
    return fitting([sum(a)])[0]


def tot_rez(a, d):
    agree(len(a), sum(d))
    return fitting([sum(segment) for segment in cut(a, d)])


# permutes


def sent(room, first, elements, index, flags):
    """The room, into which each element whose flag is true was sent to its index. The first one is at place `first`."""
    room, taken = list(room), set()
    for place, (element, i, flag) in enumerate(zip(elements, index, flags), first):
        if not flag:
            continue
        if not 0 <= i < len(room):
            raise Fault(10, place)
        if i in taken:
            raise Fault(11, place)
        taken.add(i)
        room[i] = element
    return room


def taken_from(source, first, index):
    for place, i in enumerate(index, first):
        if not 0 <= i < len(source):
            raise Fault(10, place)
    return [source[i] for i in index]


def starts(lengths):
    return list(accumulate(lengths, initial=0))


def smp_pe(source, index, d):
    agree(len(source), len(index), sum(d))
    parts = zip(starts(d), cut(source, d), cut(index, d))
    return joined(sent([None] * len(x), first, x, i, [True] * len(x)) for first, x, i in parts)


def sel_pe(source, index, flags, d):
    agree(len(source), len(index), len(flags), sum(d))
    parts = zip(starts(d), cut(source, d), cut(index, d), cut(flags, d))
    return joined(sent([None] * f.count(True), first, x, i, f) for first, x, i, f in parts)


def def_pe(source, index, defaults, d, e):
    agree(len(source), len(index), sum(d))
    agree(len(defaults), sum(e))
    agree(len(d), len(e))
    parts = zip(starts(d), cut(source, d), cut(index, d), cut(defaults, e))
    return joined(sent(room, first, x, i, [True] * len(x)) for first, x, i, room in parts)


def bck_pe(source, index, d, e):
    agree(len(source), sum(d))
    agree(len(index), sum(e))
    agree(len(d), len(e))
    parts = zip(starts(e), cut(source, d), cut(index, e))
    return joined(taken_from(x, first, i) for first, x, i in parts)


def smp_pu(source, index):
    agree(len(source), len(index))
    return sent([None] * len(source), 0, source, index, [True] * len(source))


def sel_pu(source, index, flags):
    agree(len(source), len(index), len(flags))
    return sent([None] * flags.count(True), 0, source, index, flags)


def def_pu(source, index, defaults):
    agree(len(source), len(index))
    return sent(defaults, 0, source, index, [True] * len(source))


def bck_pu(source, index):
    return taken_from(source, 0, index)


# lengths, packs, copies, single elements, descriptors


def pck_lu(values, flags):
    agree(len(values), len(flags))
    return [x for x, flag in zip(values, flags) if flag]


def pck_le(values, flags, d):
    agree(len(values), len(flags), sum(d))
    return pck_lu(values, flags)


def counts(flags, d):
    agree(len(flags), sum(d))
    return [segment.count(True) for segment in cut(flags, d)]


def checked_count(count):
    if count < 0:
        raise Fault(12)
    if count > MOST_ELEMENTS:
        raise Fault(13)
    return count


def dis_ve(values, d):
    agree(len(values), len(d))
    return joined([x] * length for x, length in zip(values, d))


def strided(init, stride, count):
    return [wrap(init + k * stride) for k in range(count)]


def ind_lez(inits, strides, d):
    agree(len(inits), len(strides), len(d))
    return joined(map(strided, inits, strides, d))


def inside(i, segment, place):
    if not 0 <= i < len(segment):
        raise Fault(10, place)
    return i


def ext_ve(vector, index, d):
    agree(len(vector), sum(d))
    agree(len(index), len(d))
    return [x[inside(i, x, s)] for s, (x, i) in enumerate(zip(cut(vector, d), index))]


def rep_vu(vector, index, value, place=0):
    at = inside(index, vector, place)
    return vector[:at] + [value] + vector[at + 1 :]


def rep_ve(vector, index, values, d):
    agree(len(vector), sum(d))
    agree(len(index), len(values), len(d))
    return joined(rep_vu(x, i, y, s) for s, (x, i, y) in enumerate(zip(cut(vector, d), index, values)))


def mke_fov(lengths):
    for place, length in enumerate(lengths):
        if length < 0:
            raise Fault(12, place)
    if sum(lengths) > MOST_ELEMENTS:
        raise Fault(13)
    return lengths


# the table

CALLS = {
    "tot_suz": ("z", "z", tot_suz),
    "tot_sez": ("zd", "z", tot_sez),
    "tot_ruz": ("z", "i", tot_ruz),
    "tot_rez": ("zd", "z", tot_rez),
    "not_wuz": ("z", "z", place_by_place(lambda a: ~a)),
    "not_wub": ("b", "b", place_by_place(lambda a: not a)),
    "cpy_wuz": ("z", "z", place_by_place(lambda a: a)),
    "cpy_wub": ("b", "b", place_by_place(lambda a: a)),
    "int_wub": ("b", "z", place_by_place(int)),
    "boo_wuz": ("z", "b", place_by_place(bool)),
    "cnt_lub": ("b", "i", lambda f: f.count(True)),
    "cnt_leb": ("bd", "z", counts),
    "pck_fov": ("bd", "d", counts),
    "ind_luz": ("iii", "z", lambda init, stride, count: strided(init, stride, checked_count(count))),
    "ind_lez": ("zzd", "z", ind_lez),
    "mke_fov": ("z", "d", mke_fov),
    "len_fos": ("d", "z", lambda d: d),
}
for name, function in INT2.items():
    CALLS[f"{name}_wuz"] = ("zz", "z", place_by_place(function))
for name, function in BOOL2.items():
    CALLS[f"{name}_wub"] = ("bb", "b", place_by_place(function))
for name, function in COMPARE.items():
    CALLS[f"{name}_wuz"] = ("zz", "b", place_by_place(function))
for name, (number, function) in PARTIAL.items():
    CALLS[f"{name}_wuz"] = ("zz", "z", where_valued(number, function))
for kind, one, monoids, functions in (("z", "i", INT_MONOIDS, INT2), ("b", "t", BOOL_MONOIDS, BOOL2)):
    for name, identity in monoids.items():
        function = functions[name]
        CALLS[f"{name}_su{kind}"] = (kind, kind, scan(function, identity))
        CALLS[f"{name}_se{kind}"] = (f"{kind}d", kind, by_segments(scan(function, identity)))
        CALLS[f"{name}_ru{kind}"] = (kind, one, reduce(function, identity))
        CALLS[f"{name}_re{kind}"] = (f"{kind}d", kind, for_each_segment(reduce(function, identity)))
for x, one in (("z", "i"), ("b", "t")):
    CALLS |= {
        f"sel_wu{x}": (f"b{x}{x}", x, place_by_place(lambda flag, a, b: a if flag else b)),
        f"smp_pu{x}": (f"{x}z", x, smp_pu),
        f"smp_pe{x}": (f"{x}zd", x, smp_pe),
        f"bck_pu{x}": (f"{x}z", x, bck_pu),
        f"bck_pe{x}": (f"{x}zdd", x, bck_pe),
        f"sel_pu{x}": (f"{x}zb", x, sel_pu),
        f"sel_pe{x}": (f"{x}zbd", x, sel_pe),
        f"def_pu{x}": (f"{x}z{x}", x, def_pu),
        f"def_pe{x}": (f"{x}z{x}dd", x, def_pe),
        f"len_lu{x}": (x, "i", len),
        f"pck_lu{x}": (f"{x}b", x, pck_lu),
        f"pck_le{x}": (f"{x}bd", x, pck_le),
        f"dis_vu{x}": (f"{one}i", x, lambda value, count: [value] * checked_count(count)),
        f"dis_ve{x}": (f"{x}d", x, dis_ve),
        f"ext_vu{x}": (f"{x}i", one, lambda vector, index: vector[inside(index, vector, 0)]),
        f"ext_ve{x}": (f"{x}zd", x, ext_ve),
        f"rep_vu{x}": (f"{x}i{one}", x, rep_vu),
        f"rep_ve{x}": (f"{x}z{x}d", x, rep_ve),
    }
