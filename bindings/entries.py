"""The entries of the reference: which calls stand together, under which title, what a script has of them, their picture, and what of
`docs/dev/performance/measured.txt` says what they cost. What they take and give, which lengths must agree, and their faults come of the
rows of `table.py`."""

from collections import namedtuple

# Calls that stand together.
#
#   calls    their names in a script
#   title    what they give, in some words
#   said     what they do; with the titles above them it is all that a reader has
#   picture  a file of docs/user/pictures without its end, and what it shows
#   costs    the names of rows of the tables of docs/user/performance.md
#   takes, gives, faults   what the rows of `table.py` do not say, or no row is of
#   shows    what is to be seen in the example
Entry = namedtuple(
    "Entry", "calls title said picture costs takes gives faults shows", defaults=(None, (), None, None, None, None)
)

# Calls of one kind, with what holds for all of them.
Section = namedtuple("Section", "title said entries")


def _each(operators, end, flags=()):
    return tuple(f"{name}_{end}z" for name in operators) + tuple(f"{name}_{end}b" for name in flags)


JOINING, OF_FLAGS = ("add", "mul", "min", "max", "and", "ior", "xor"), ("and", "ior", "xor")

AT_INDICES = "10 IndexOutOfRange at the index; 11 IndexRepeated at the later index"

NO_INPUT = "14 NoSuchInput, without a place; else 13 TooLong, without a place, if the input has more than 4,194,304 tokens"

# The letters of a name behind its operator, by where they stand.
LETTERS = (
    ("first", {
        "w": "elementwise", "s": "scan", "r": "reduce", "p": "permute", "v": "single values to vectors, and back", "l": "library: packs, counts, lengths",
        "f": "descriptors",
    }),
    ("second", {"u": "a flat vector", "e": "each segment", "o": "neither"}),
    ("third", {"z": "integers", "b": "booleans", "v": "descriptor of a vector", "s": "lengths of segments"}),
)  # fmt: skip

SECTIONS = (
    Section(
        "Elementwise calls",
        "All arguments have equal lengths, and so has the result. What does not fit 32 bits wraps, without a fault.",
        (
            Entry(
                ("add_wuz", "sub_wuz", "mul_wuz", "min_wuz", "max_wuz", "and_wuz", "ior_wuz", "xor_wuz"),
                "sum, difference, product, lesser, greater; and, or, exclusive or of bits",
                "The sum, difference, product, lesser or greater of each pair of elements; their and, or or exclusive or, bit by bit.",
                costs=("add",),
            ),
            Entry(
                ("div_wuz", "mod_wuz"),
                "quotient, remainder",
                "The quotient truncated toward zero; the remainder, with the sign of the dividend. -2147483648 by -1 gives -2147483648, with remainder 0.",
                costs=("divide",),
            ),
            Entry(
                ("lsh_wuz", "rsh_wuz"),
                "shift left, shift right",
                "The elements of a shifted by those of b: left, without the bits that no longer fit; right, with the sign, to the floor of `a / 2^b`.",
                costs=("shift left",),
            ),
            Entry(
                ("not_wuz", "not_wub"),
                "the opposite",
                "All bits of each integer inverted; the opposite of each boolean.",
                costs=("not, on booleans",),
            ),
            Entry(("cpy_wuz", "cpy_wub"), "a copy", "A copy.", costs=("copy",)),
            Entry(
                ("grt_wuz", "les_wuz", "geq_wuz", "leq_wuz", "eql_wuz", "neq_wuz"),
                "comparisons: greater, less, at least, at most, equal, unequal",
                "Whether the element of a is greater than, less than, at least, at most, equal or unequal to that of b, as signed numbers.",
                costs=("greater",),
            ),
            Entry(
                ("sel_wuz", "sel_wub"),
                "for each place, the element of one of two vectors, chosen by a flag",
                "The element of a if the flag is T, and that of b if it is F.",
                ("choice", "The elements that flags choose"),
                ("select",),
            ),
            Entry(
                ("and_wub", "ior_wub", "xor_wub"),
                "and, or, exclusive or of flags",
                "The and, or or exclusive or of each pair of booleans.",
                costs=("and, on booleans",),
            ),
            Entry(("int_wub",), "0 and 1 of flags", "1 for T and 0 for F.", costs=("integers of booleans",)),
            Entry(("boo_wuz",), "flags of numbers that are not 0", "T if the number is not 0.", costs=("booleans of integers",)),
        ),
    ),
    Section(
        "Scans and reduces",
        "An operator's identity changes nothing: 0 for `add`, `ior` and `xor`, 1 for `mul`, 2147483647 for `min`, -2147483648 for `max`, -1 for "
        "`and`; of booleans T for `and`, and F for `ior` and `xor`. Scans are exclusive: they leave out a place's own element.",
        (
            Entry(
                _each(JOINING, "su", OF_FLAGS),
                "exclusive scan",
                "At each place all elements before it, combined by the operator; at place 0 the identity.",
                ("scan", "Each sum is the one before it, plus the element there"),
                ("add scan",),
            ),
            Entry(
                _each(JOINING, "se", OF_FLAGS),
                "exclusive scan of each segment",
                "The scan of each segment, which starts from the identity.",
                ("scan_segments", "Sums that start anew in each segment"),
                costs=("add scan, segments of 1,000",),
            ),
            Entry(
                _each(JOINING, "ru", OF_FLAGS),
                "reduce",
                "All elements, combined by the operator; the identity if there are none.",
                costs=("add reduce",),
            ),
            Entry(
                _each(JOINING, "re", OF_FLAGS),
                "reduce of each segment",
                "The elements of each segment, combined; the identity for an empty segment.",
                ("reduce_segments", "Each element goes to the sum of its segment"),
                ("add reduce, segments of 1,000",),
            ),
        ),
    ),
    Section(
        "Checked sums",
        "Sums that never wrap: a result outside 32 bits is a fault, and sums on the way may be any whole number. "
        "They [cannot see](mistakes.md#a-checked-sum-of-what-has-wrapped) that an element wrapped before.",
        (
            Entry(
                ("tot_suz",),
                "exclusive scan of sums that never wrap",
                "At each place the sum of all elements before it; 0 at place 0.",
                costs=("checked add scan",),
                shows="The sum of all three would not fit, but no place has it.",
            ),
            Entry(
                ("tot_sez",),
                "exclusive scan of each segment, of sums that never wrap",
                "The scan of each segment, which starts from 0.",
                costs=("checked add scan, segments of 1,000",),
            ),
            Entry(
                ("tot_ruz",),
                "sum that never wraps",
                "The sum of all elements; 0 if there are none. Only the whole sum has to fit.",
                costs=("checked add reduce",),
            ),
            Entry(
                ("tot_rez",),
                "sum of each segment that never wraps",
                "The sum of each segment; 0 for an empty one.",
                costs=("checked add reduce, segments of 1,000",),
            ),
        ),
    ),
    Section(
        "Permutes",
        "In a simple, select or default permute the index of an element says where it goes: inside the result, and no two to one place. In a back permute "
        "it says where the element comes from, and may repeat. In a segmented call it counts from the start of its segment, and stays inside it.\n\n"
        f"Faults, unless an entry has others: {AT_INDICES}. If an index is both, 10 counts.",
        (
            Entry(
                ("smp_puz", "smp_pub"),
                "simple permute: each element goes to its index",
                "Element k of the source goes to place `index[k]` of the result.",
                ("simple_permute", "Each element goes to its index"),
                ("simple permute, in order", "simple permute, at random"),
            ),
            Entry(
                ("smp_pez", "smp_peb"),
                "simple permute of each segment",
                "The simple permute of each segment.",
                ("simple_permute_segments", "Each element goes to its index in its segment"),
                ("simple permute, segments of 1,000",),
            ),
            Entry(
                ("bck_puz", "bck_pub"),
                "back permute: each place takes the element at its index",
                "Place k of the result takes the element at place `index[k]` of the source.",
                ("back_permute", "Each place takes the element at its index"),
                ("back permute, in order", "back permute, at random"),
            ),
            Entry(
                ("bck_pez", "bck_peb"),
                "back permute of each segment",
                "The back permute of each segment of the source by the same one of the index.",
                ("back_permute_segments", "Each place takes the element at its index in its segment"),
                ("back permute, segments of 1,000",),
            ),
            Entry(
                ("sel_puz", "sel_pub"),
                "select permute: the elements whose flag is true go to their indices",
                "The simple permute of the elements whose flag is T. Indices whose flag is F are ignored.",
                ("select_permute", "Elements whose flag is true go to their indices"),
                ("select permute, at random",),
            ),
            Entry(
                ("sel_pez", "sel_peb"),
                "select permute of each segment",
                "The select permute of each segment.",
                ("select_permute_segments", "Elements whose flag is true go to their indices in their segments"),
                ("select permute, segments of 1,000",),
            ),
            Entry(
                ("def_puz", "def_pub"),
                "default permute: a permute into a copy of defaults",
                "A copy of the defaults, of any length, with element k of the source at place `index[k]`.",
                ("default_permute", "Elements go to their indices, and defaults to the other places"),
                ("default permute, at random",),
            ),
            Entry(
                ("def_pez", "def_peb"),
                "default permute of each segment",
                "The default permute of each segment of the source into the same segment of the defaults.",
                ("default_permute_segments", "Elements go to their indices in their segments, and defaults to the other places"),
                ("default permute, segments of 1,000",),
            ),
        ),
    ),
    Section(
        "Inputs",
        "",
        (
            Entry(
                ("input",),
                "the vector of an input",
                "The vector of the input with this number, from 1.",
                takes="number (integer)",
                gives="integers",
                faults=f"{NO_INPUT}; else 15 BadInput at the first token that is no integer.",
            ),
            Entry(
                ("nested",),
                "the vector and the descriptor of a list of lists",
                "The elements of all lists of the input with this number, and the lengths of the lists. What `write v d` prints after ` = ` is such an input.",
                takes="number (integer)",
                gives="integers, to the first name; their descriptor, to the second",
                faults=f"{NO_INPUT} other than brackets, or more than 4,194,305 `[`; else 15 BadInput at the first token that cannot stand there, or at the "
                "number of tokens if the input ends too early.",
            ),
        ),
    ),
    Section(
        "Lengths, counts and packs",
        "",
        (
            Entry(
                ("len_luz", "len_lub"),
                "the number of elements",
                "The number of elements.",
                takes="a (elements)",
                gives="an integer",
                faults="none.",
            ),
            Entry(("cnt_lub",), "the number of true flags", "The number of true flags.", costs=("count",)),
            Entry(
                ("cnt_leb",),
                "the number of true flags of each segment",
                "The number of true flags of each segment.",
                costs=("count, segments of 1,000",),
            ),
            Entry(
                ("pck_luz", "pck_lub"),
                "pack: the elements whose flag is true",
                "The values whose flag is T, in their order.",
                ("pack", "The elements whose flag is true move up"),
                ("pack, half kept",),
            ),
            Entry(
                ("pck_lez", "pck_leb"),
                "pack of each segment",
                "The values of each segment whose flag is T, in their order.",
                ("pack_segments", "The elements of each segment whose flag is true move up"),
                ("pack, segments of 1,000",),
            ),
            Entry(
                ("pck_fov",),
                "the descriptor of a pack of each segment",
                "The number of true flags of each segment, which cuts a pack or a select permute by these flags.",
            ),
        ),
    ),
    Section(
        "Copies and numbers with a stride",
        "",
        (
            Entry(("dis_vuz", "dis_vub"), "distribute: copies of one element", "Copies of the value.", costs=("distribute",)),
            Entry(
                ("dis_vez", "dis_veb"),
                "copies of one element for each segment",
                "Copies of each value, one for each place of its segment.",
                ("distribute_segments", "Each value goes to all places of its segment"),
                ("distribute, segments of 1,000",),
            ),
            Entry(("ind_luz",), "numbers with a stride", "Place k has `init + k*stride`, wrapped.", costs=("index",)),
            Entry(
                ("ind_lez",),
                "numbers with a stride in each segment",
                "The same in each segment, from its init by its stride.",
                costs=("index, segments of 1,000",),
            ),
        ),
    ),
    Section(
        "Single elements",
        "",
        (
            Entry(("ext_vuz", "ext_vub"), "one element", "The element of the vector at the index."),
            Entry(
                ("ext_vez", "ext_veb"),
                "one element of each segment",
                "The element of each segment at its index, counted from its start. For an empty segment each index is outside.",
                ("extract_segments", "The element that each segment's index names"),
            ),
            Entry(("rep_vuz", "rep_vub"), "one element replaced", "The vector with the value at the index."),
            Entry(
                ("rep_vez", "rep_veb"),
                "one element of each segment replaced",
                "The vector with each segment's value at its index, counted from its start. For an empty segment each index is outside.",
            ),
        ),
    ),
    Section(
        "Descriptors",
        "",
        (
            Entry(
                ("mke_fov",),
                "a descriptor, made of lengths",
                "The descriptor with these lengths.",
                faults="12 NegativeLength at the first negative length; else 13 TooLong, without a place, if the total is above 4,194,304.",
            ),
            Entry(
                ("len_fos",),
                "the lengths of a descriptor",
                "The lengths of the segments.",
                takes="d (descriptor)",
                gives="integers",
                faults="none.",
            ),
        ),
    ),
)

# What the functions do that no script calls, by their sections in `table.py`.
BESIDE = {
    "First senders": "For each place of a result the first element that is sent there, or -1; `select_` only of those whose flag is true.",
    "Combining permutes": "Combine each element with the value at its index: sums by key, or the least of each; `counts` counts keys.",
    "Orders, ranks and sorts": "The places in ascending order of their keys, equal keys in their order; how many keys come before each; the keys.",
    "Sorts by key": "The keys in ascending or descending order, equal keys in their order, and each value with its key: both in place.",
    "Runs of equal neighbours": "How long each run of equal neighbours is, or where it begins: unique keys, counts and sums by key of sorted keys; "
    "`seg_run_counts_` has how many runs each segment has.",
    "Slices and merges": "Slices one behind another, by starts and lengths; segments behind segments; two vectors merged by flags; the first true flag, or -1; "
    "sums in 64 bits.",
    "Transposes, and integers of a byte": "A matrix stored by rows, transposed; bytes as integers from 0 to 255, and back, or fault 18.",
    "Texts": "Integers read from a text, and vectors written as one.",
    "Scans in parts, by threads of the caller's": "A scan that goes on from a carry.",
    "Calls in parts": "What a part needs if you [cut a call](parallel.md#how-each-call-is-cut) yourself.",
    "Sparse products": "A matrix in rows times a vector, in one pass; `checked_` never wraps.",
}

# What a reader of an entry may want instead: the first call of the entry, and calls of others.
ALSO = {
    "add_wuz": "add_suz add_ruz",
    "div_wuz": "rsh_wuz",
    "lsh_wuz": "mul_wuz div_wuz",
    "grt_wuz": "sel_wuz pck_luz",
    "sel_wuz": "sel_puz pck_luz",
    "int_wub": "boo_wuz cnt_lub",
    "boo_wuz": "int_wub neq_wuz",
    "add_suz": "add_ruz tot_suz add_sez",
    "add_sez": "add_rez tot_sez add_suz",
    "add_ruz": "add_suz tot_ruz add_rez",
    "add_rez": "add_sez tot_rez cnt_leb",
    "tot_suz": "add_suz tot_ruz tot_sez",
    "tot_sez": "add_sez tot_rez tot_suz",
    "tot_ruz": "add_ruz tot_suz tot_rez",
    "tot_rez": "add_rez tot_sez tot_ruz",
    "smp_puz": "bck_puz sel_puz def_puz smp_pez",
    "smp_pez": "bck_pez sel_pez def_pez smp_puz",
    "bck_puz": "smp_puz ext_vuz bck_pez",
    "bck_pez": "smp_pez ext_vez bck_puz",
    "sel_puz": "smp_puz pck_luz sel_pez",
    "sel_pez": "smp_pez pck_lez sel_puz",
    "def_puz": "smp_puz rep_vuz def_pez",
    "def_pez": "smp_pez rep_vez def_puz",
    "input": "nested",
    "nested": "input mke_fov",
    "len_luz": "cnt_lub len_fos",
    "cnt_lub": "pck_luz add_ruz cnt_leb",
    "cnt_leb": "pck_fov add_rez cnt_lub",
    "pck_luz": "cnt_lub sel_puz pck_lez",
    "pck_lez": "pck_fov pck_luz",
    "pck_fov": "pck_lez cnt_leb mke_fov",
    "dis_vuz": "ind_luz dis_vez",
    "dis_vez": "ind_lez ext_vez dis_vuz",
    "ind_luz": "dis_vuz ind_lez",
    "ind_lez": "dis_vez ind_luz",
    "ext_vuz": "bck_puz rep_vuz ext_vez",
    "ext_vez": "bck_pez rep_vez ext_vuz",
    "rep_vuz": "def_puz ext_vuz rep_vez",
    "rep_vez": "def_pez ext_vez rep_vuz",
    "mke_fov": "pck_fov len_fos nested",
    "len_fos": "mke_fov",
}

# how the cases of `docs/dev/performance/measure_program_calls` begin that say what a function costs which no script calls
COSTS = {
    "order": ("order, ",),
    "rank": ("rank, ",),
    "sort": ("sort, any keys", "sort, keys below"),
    "seg_sort": ("sort, segments of",),
    "seg_exact_sums": ("exact sums, segments of",),
    "combine_permute_int": ("sums by key, ",),
    "counts": ("counts, ",),
    "gather_segments_int": ("gather of segments",),
    "append_segments_int": ("append of segments",),
    "merge_by_flags_int": ("merge by flags",),
    "first_true": ("first true flag",),
    "transpose_int": ("transpose",),
}
