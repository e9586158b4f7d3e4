"""The methods of `cvl.Ragged` and the functions with numpy's names, a row each. From these `bindings/generator/in_ragged.py` writes
the methods, with annotations and descriptions, and the tables of docs/user/ragged.md.

Bodies of more than one call are functions of the same name by hand, in `_rows.py`, `_elementwise.py`, `_whole.py` and `_flat.py`
of `bindings/python/cvl`.
"""

from collections import namedtuple

# An operator on two `Ragged`s, place by place.
#
#   name    that of numpy's ufunc; `sign` that of Python and `word` that of its method, or nothing
#   ints    the call on integers, or `_elementwise.NAME` by hand; `flags` the call on booleans: nothing if they become integers
#   only    "flags" if integers become booleans first; "ints" if numpy and this refuse booleans; or nothing
#   says    what it gives; `differs` where numpy does otherwise
Operation = namedtuple("Operation", "name sign word ints flags only says differs")

# A method.
#
#   beside  the other operands: rows, one number a row, or a number
#   fixed   the others, as a signature has them
#   gives   the annotation of its result; "self" if it changes the numbers where they are
#   call    the one call that it is, on "ints" or "flags"; else nothing, and `calls` names those of a body by hand
#   numpy   how numpy says it for one row `a`
#   says    what it gives; `differs` where numpy does otherwise
#   example the expression for `r`, and what its `tolist` shows
Method = namedtuple("Method", "name section beside fixed gives call calls numpy says differs example shown")

# A function with numpy's name on flat arrays: what it takes, the CVL names that it stands for, and the rest as for a method.
Flat = namedtuple("Flat", "name takes gives calls numpy says differs example shown")

BY_ZERO = "By 0 it is fault 8 DivideByZero, where numpy warns and gives 0."
SHIFTS = "A shift outside 0 to 31 is fault 9 ShiftOutOfRange, where numpy gives 0 or what the processor does."
OPERATIONS = (
    Operation("add", "+", "add", "add_wuz", "ior_wub", None, "The sums", ""),
    Operation("subtract", "-", "sub", "sub_wuz", None, "ints", "The differences", ""),
    Operation("multiply", "*", "mul", "mul_wuz", "and_wub", None, "The products", ""),
    Operation(
        "floor_divide",
        "//",
        "floordiv",
        "_elementwise.floor_divide",
        None,
        "ints",
        "The quotients, rounded down",
        BY_ZERO,
    ),
    Operation(
        "remainder",
        "%",
        "mod",
        "_elementwise.remainder",
        None,
        "ints",
        "The remainders, with the divisor's sign",
        BY_ZERO,
    ),
    Operation("left_shift", "<<", "lshift", "lsh_wuz", None, "ints", "Shifted left", SHIFTS),
    Operation("right_shift", ">>", "rshift", "rsh_wuz", None, "ints", "Shifted right, with the sign", SHIFTS),
    Operation("bitwise_and", "&", "and", "and_wuz", "and_wub", None, "And, bit by bit", ""),
    Operation("bitwise_or", "|", "or", "ior_wuz", "ior_wub", None, "Or, bit by bit", ""),
    Operation("bitwise_xor", "^", "xor", "xor_wuz", "xor_wub", None, "Exclusive or, bit by bit", ""),
    Operation("equal", "==", "eq", "eql_wuz", None, None, "Whether they are equal", ""),
    Operation("not_equal", "!=", "ne", "neq_wuz", None, None, "Whether they are not", ""),
    Operation("less", "<", "lt", "les_wuz", None, None, "Whether the first is less", ""),
    Operation("less_equal", "<=", "le", "leq_wuz", None, None, "Whether it is at most the second", ""),
    Operation("greater", ">", "gt", "grt_wuz", None, None, "Whether it is greater", ""),
    Operation("greater_equal", ">=", "ge", "geq_wuz", None, None, "Whether it is at least the second", ""),
    Operation("minimum", None, None, "min_wuz", "and_wub", None, "The lesser", ""),
    Operation("maximum", None, None, "max_wuz", "ior_wub", None, "The greater", ""),
    Operation("logical_and", None, None, None, "and_wub", "flags", "Whether neither is 0", ""),
    Operation("logical_or", None, None, None, "ior_wub", "flags", "Whether one is not 0", ""),
    Operation("logical_xor", None, None, None, "xor_wub", "flags", "Whether one alone is not 0", ""),
)

# On one `Ragged`: numpy's ufunc, Python's sign and method, the calls, and what it gives; the bodies are by hand.
UNARY = (
    ("invert", "~", "invert", "not_wuz, not_wub", "Each bit, or each boolean, inverted"),
    ("negative", "-", "neg", "sub_wuz", "0 less each"),
    ("positive", "+", "pos", "cpy_wuz", "The same again"),
    ("absolute", "abs", "abs", "sub_wuz, max_wuz", "Without their signs; the least integer stays as it is"),
    ("logical_not", None, None, "not_wub", "Whether each is 0"),
)

# The operators on the page, with what those of a line have in common.
ON_PAGE = (
    ("add subtract multiply", "Sums, differences and products. Of booleans `+` is or, and `*` and."),
    ("floor_divide remainder", f"Quotients rounded down, and remainders with the divisor's sign. {BY_ZERO}"),
    ("left_shift right_shift", f"Shifted left, and right with the sign. {SHIFTS}"),
    ("bitwise_and bitwise_or bitwise_xor invert", "And, or, exclusive or and not, bit by bit."),
    ("equal not_equal less less_equal greater greater_equal", "Booleans."),
    ("minimum maximum", "The lesser, and the greater."),
    ("logical_and logical_or logical_xor logical_not", "Booleans; a number is true if it is not 0."),
    ("negative positive absolute", "0 less each; a copy; without signs, but the least integer stays as it is."),
)

# Operators that no call has, and what to write.
REFUSED = (
    ("/", "truediv", "fractions have no call; write r // s"),
    ("**", "pow", "powers have no call; write r * r"),
    ("@", "matmul", "cvl.sparse_product multiplies a matrix by a vector"),
)

# Methods that no call has, and what to write.
ABSENT = (
    ("mean", "means are fractions, which are no elements; write r.sum(exact=True) / r.lengths"),
    ("std", "deviations are fractions, which are no elements; write [row.std() for row in r]"),
    ("var", "variances are fractions, which are no elements; write [row.var() for row in r]"),
)

WRAPS = "It wraps to 32 bits, where numpy adds in 64"
ROW, ALONG, BETWEEN = "of each row", "along each row", "between rows"


def row(name, call, numpy, says, differs="", example="", shown="", gives="Numbers", beside=(), fixed=(), calls=None, section=ROW):
    return Method(name, section, beside, fixed, gives, call, calls or call.split()[0], numpy, says, differs, example, shown)


def along(name, call, numpy, says, differs="", example="", shown="", gives="Ragged", section=ALONG, **more):
    return row(name, call, numpy, says, differs, example, shown, gives, section=section, **more)


def at(name, word, says):
    return along(
        f"{name}_at", None, f"numpy.{word}.at(a, index, values)",
        f"{says} in place, and gives r: each value goes to its index in the row, and several at one place all count.", "",
        f"r.copy().{name}_at([[0, 0], [], [2]], 1)", {"add": "[[5, 1], [], [4, 1, 6]]"}.get(name, ""), gives="self",
        beside=("index", "values"), calls="seg_combine_permute_int, seg_combine_permute_bool",
        section=BETWEEN,
    )  # fmt: skip


AT_ON_PAGE = (
    "Change r, and give it: each value is combined with the element at its index in the row. Several at one place all count."
)

NO_EMPTY = "A row without elements is a ValueError, as in numpy"
METHODS = (
    row(
        "sum", None, "a.sum()", "The sum of each row, 0 if it is empty. exact=True gives int64, which always fits.",
        "Unless exact, it wraps to 32 bits, where numpy adds in 64.", "r.sum()", "[4, 0, 10]",
        fixed=("exact: bool = False",), calls="add_rez, seg_exact_sums",
    ),
    row(
        "prod", "mul_rez ints", "a.prod()", "The product of each row, 1 if it is empty.", "It wraps to 32 bits.", "r.prod()",
        "[3, 1, 20]",
    ),
    row(
        "min", None, "a.min()", "The least of each row.", f"{NO_EMPTY}, unless initial is given.", "r.min(initial=99)",
        "[1, 99, 1]", fixed=("initial: Optional[int] = None",), calls="min_rez",
    ),
    row(
        "max", None, "a.max()", "The greatest of each row.", f"{NO_EMPTY}, unless initial is given.", "r.max(initial=0)",
        "[3, 0, 5]", fixed=("initial: Optional[int] = None",), calls="max_rez",
    ),
    row(
        "argmin", None, "a.argmin()", "The first place of the least in each row.", f"{NO_EMPTY}.",
        "r[r.lengths > 0].argmin()", "[1, 1]", calls="min_rez, dis_vez, eql_wuz, seg_first_true",
    ),
    row(
        "argmax", None, "a.argmax()", "The first place of the greatest in each row.", f"{NO_EMPTY}.",
        "r[r.lengths > 0].argmax()", "[0, 2]", calls="max_rez, dis_vez, eql_wuz, seg_first_true",
    ),
    row(
        "any", "ior_reb flags", "a.any()", "Whether an element of each row is not 0; False if it is empty.", "",
        "(r > 3).any()", "[False, False, True]", "Truths",
    ),
    row(
        "all", "and_reb flags", "a.all()", "Whether no element of each row is 0; True if it is empty.", "", "(r > 2).all()",
        "[False, True, False]", "Truths",
    ),
    row(
        "count_nonzero", "cnt_leb flags", "numpy.count_nonzero(a)", "How many elements of each row are not 0.", "",
        "(r > 2).count_nonzero()", "[1, 0, 2]",
    ),
    row(
        "first_true", "seg_first_true flags", "a.argmax()", "The first place of each row that is not 0, or -1.",
        "argmax gives 0 if there is none.", "(r == 1).first_true()", "[1, -1, 1]",
    ),
    along(
        "cumsum", None, "a.cumsum()", "At each place the sum of the row up to it.", f"{WRAPS}.", "r.cumsum()",
        "[[3, 4], [], [4, 5, 10]]", calls="add_sez, add_wuz",
    ),
    along(
        "exclusive_cumsum", "add_sez ints", "a.cumsum() - a", "At each place the sum of those before it in the row.",
        f"{WRAPS}.", "r.exclusive_cumsum()", "[[0, 3], [], [0, 4, 5]]",
    ),
    along(
        "cummax", None, "numpy.maximum.accumulate(a)", "At each place the greatest of the row up to it.", "", "r.cummax()",
        "[[3, 3], [], [4, 4, 5]]", calls="max_sez, max_wuz",
    ),
    along(
        "cummin", None, "numpy.minimum.accumulate(a)", "At each place the least of the row up to it.", "", "r.cummin()",
        "[[3, 1], [], [4, 1, 1]]", calls="min_sez, min_wuz",
    ),
    along(
        "diff", None, "numpy.diff(a)", "What each element is more than the one before it; a row is shorter by one.", "",
        "r.diff()", "[[-2], [], [-3, 4]]", calls="gather_segments_int, sub_wuz",
    ),
    along(
        "reverse", None, "a[::-1]", "Each row, last element first.", "", "r.reverse()", "[[1, 3], [], [5, 1, 4]]",
        calls="ind_lez, bck_puz",
    ),
    along(
        "sort", None, "numpy.sort(a)", "The elements of each row in order, in a new `Ragged`.",
        "numpy's a.sort() sorts in place.",
        "r.sort()", "[[1, 3], [], [1, 4, 5]]", calls="seg_sort",
    ),
    along(
        "argsort", "seg_order ints", 'a.argsort(kind="stable")', "The places of each row in the order of their elements.",
        "Equal ones keep their order, in numpy only of kind stable.", "r.argsort()", "[[1, 0], [], [1, 0, 2]]",
    ),
    along(
        "rank", "seg_rank ints", "a.argsort().argsort()", "How many elements of its row come before each in their order.", "",
        "r.rank()", "[[1, 0], [], [1, 0, 2]]",
    ),
    along(
        "unique", None, "numpy.unique(a)", "The distinct elements of each row in order.", "",
        "cvl.Ragged([[3, 1, 3], []]).unique()", "[[1, 3], []]", calls="seg_sort, seg_run_starts_int, bck_puz, seg_run_counts_int",
    ),
    along(
        "shift", None, "", "Each row moved so many places to its end, or to its start below 0, behind so many of fill.",
        "numpy.roll brings back what leaves the row.", "r.shift(1)", "[[0, 3], [], [0, 4, 1]]",
        fixed=("by: SupportsIndex", "fill: int = 0"), calls="gather_segments_int, append_segments_int",
    ),
    along(
        "take", None, "a.take(index)",
        "The elements of each row at the places of the row of index; one index a row gives one element a row. "
        "A place below 0 counts from the end of the row.",
        "A place outside the row is fault 10 IndexOutOfRange, in numpy an IndexError.", "r.take([[1, 1], [], [-1]])",
        "[[1, 1], [], [5]]", gives="Numbers", beside=("index",), calls="bck_pez, ext_vez", section=BETWEEN,
    ),
    along(
        "filter", None, "a[mask]", "The elements of each row where mask is true.", "", "r.filter(r > 2)", "[[3], [], [4, 5]]",
        beside=("mask",), calls="pck_lez, pck_fov", section=BETWEEN,
    ),
    along(
        "append", None, "numpy.append(a, b)", "Each row, and behind it the row of s, or one number a row.", "", "r.append(r)",
        "[[3, 1, 3, 1], [], [4, 1, 5, 4, 1, 5]]", beside=("s",), calls="append_segments_int", section=BETWEEN,
    ),
    along(
        "repeat", None, "a.repeat(counts)", "Each element as often as counts says.", "", "r.repeat(2)",
        "[[3, 3, 1, 1], [], [4, 4, 1, 1, 5, 5]]", beside=("counts",), calls="dis_vez, add_rez", section=BETWEEN,
    ),
    along(
        "bincount", None, "numpy.bincount(a, minlength=n)", "How often each row has 0, 1 and so on, up to its greatest "
        "element.", "An element below 0 is fault 10 IndexOutOfRange, in numpy a ValueError.", "r.bincount()",
        "[[0, 1, 0, 1], [], [0, 1, 0, 0, 1, 1]]", fixed=("minlength: int = 0",), calls="max_rez, seg_counts", section=BETWEEN,
    ),
    at("add", "add", "Adds"),
    at("multiply", "multiply", "Multiplies"),
    at("minimum", "minimum", "Takes the least"),
    at("maximum", "maximum", "Takes the greatest"),
    at("and", "bitwise_and", "Joins by and"),
    at("or", "bitwise_or", "Joins by or"),
    at("xor", "bitwise_xor", "Joins by exclusive or"),
)  # fmt: skip

# What has other rows, of `_whole.py`: static methods, and methods of a whole `Ragged`.
WHOLE = (
    Method(
        "concat", BETWEEN, (), ("ragged: Sequence[Ragged]",), "static Ragged", None, "append_segments_int",
        "numpy.concatenate", "Joins them row by row, one behind the other.", "", "cvl.Ragged.concat([r, r[::-1]])",
        "[[3, 1, 4, 1, 5], [], [4, 1, 5, 3, 1]]",
    ),
    Method(
        "where", BETWEEN, (), ("mask: Any", "a: Any", "b: Any"), "static Ragged", None, "sel_wuz", "numpy.where(mask, a, b)",
        "The elements of a where mask is true, else those of b.", "", "cvl.Ragged.where(r > 2, r, 0)",
        "[[3, 0], [], [4, 0, 5]]",
    ),
    Method(
        "flatten", BETWEEN, (), (), "Union[IntArray, FlagArray]", None, "cpy_wuz", "a.flatten()",
        "All numbers, row after row, in a new array.", "", "r.flatten()", "[3, 1, 4, 1, 5]",
    ),
    Method(
        "groupby", BETWEEN, (), ("keys: Any",), "Tuple[IntArray, Ragged]", None, "order, bck_puz, run_starts_int, run_lengths_int", "",
        "The distinct keys in order, and the values of each key as a row, in their order. One key a row groups whole rows, a "
        "key for each number the numbers.", "", "r.groupby([7, 7, 2])[1]", "[[[4, 1, 5]], [[3, 1], []]]",
    ),
    Method(
        "explode", BETWEEN, (), (), "Tuple[IntArray, Values]", None, "dis_vez", "",
        "The number of the row of each element, and the elements.", "", "r.explode()[0]", "[0, 0, 2, 2, 2]",
    ),
    Method(
        "implode", BETWEEN, (), ("numbers: Any", "values: Any", "count: Optional[int] = None"), "static Ragged", None,
        "counts, order, bck_puz", "", "The inverse of explode: each value goes into the row of its number. There are "
        "count rows, or as many as the greatest number needs.", "", "cvl.Ragged.implode([2, 0, 2], [5, 6, 7])",
        "[[6], [], [5, 7]]",
    ),
    Method(
        "astype", BETWEEN, (), ("dtype: Any",), "Ragged", None, "int_wub, boo_wuz", "a.astype(dtype)",
        "The numbers as int32 or bool.", "", "r.astype(bool)", "[[True, True], [], [True, True, True]]",
    ),
)  # fmt: skip

FLAT = (
    Flat(
        "cumsum", "a: Any", "IntArray", "add_suz, add_wuz", "numpy.cumsum(a)", "At each place the sum up to it; add_suz "
        "gives those before it.", f"{WRAPS}.", "cvl.cumsum([3, 1, 4])", "[3, 4, 8]",
    ),
    Flat(
        "argsort", "a: Any", "IntArray", "order", 'numpy.argsort(a, kind="stable")',
        "The places in the order of their elements.", "Equal ones keep their order.", "cvl.argsort([3, 1, 2, 1])",
        "[1, 3, 2, 0]",
    ),
    Flat(
        "bincount", "a: Any, minlength: int = 0", "IntArray", "counts", "numpy.bincount(a, minlength=n)",
        "How often 0, 1 and so on occur, up to the greatest element.", "An element below 0 is fault 10 IndexOutOfRange.",
        "cvl.bincount([2, 0, 2, 3])", "[1, 0, 2, 1]",
    ),
    Flat(
        "take", "a: Any, index: Any", "Values", "bck_puz, bck_pub", "numpy.take(a, index)",
        "The elements at these places, which may be a `Ragged`; one below 0 counts from the end.",
        "A place outside is fault 10 IndexOutOfRange.",
        "cvl.take([7, 8, 9], [2, 0, -1])", "[9, 7, 9]",
    ),
    Flat(
        "compress", "mask: Any, a: Any", "Union[IntArray, FlagArray]", "pck_luz, pck_lub", "numpy.compress(mask, a)",
        "The elements where mask is true.", "mask has to be as long as a.", "cvl.compress([True, False, True], [7, 8, 9])",
        "[7, 9]",
    ),
    Flat(
        "add_at", "a: Any, index: Any, values: Any", "Any", "combine_permute_int", "numpy.add.at(a, index, values)",
        "Adds to the array a, where it is, each value at its index, and gives a. Several that go to one place all count.",
        "It wraps to 32 bits.", "cvl.add_at(cvl.as_ints([0, 0, 0]), [2, 0, 2], [5, 6, 7])", "[6, 0, 12]",
    ),
    Flat(
        "groupby", "values: Any, keys: Any", "Tuple[IntArray, Ragged]", "order, bck_puz, run_starts_int, run_lengths_int", "",
        "The distinct keys in order, and the values of each key as a row, in their order.", "",
        "cvl.groupby([5, 6, 7, 8], [2, 0, 2, 1])[1]", "[[6], [8], [5, 7]]",
    ),
)  # fmt: skip
