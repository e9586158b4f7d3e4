"""The calls for other languages. From these rows `bindings/generate` writes what C, Fortran, Python, Rust and MPI have of each
call, and compares them with the proved table of calls and with the parameters of the exports of `crates/cvl_c`.

A family is a function of C that makes one kind of call on one kind of elements, such as all scans of integers. It has an export,
and more of them if it works in place. A call is a family with one of its operators, under its name in the table of calls, with
the family's operands in the order of a script.
"""

import pathlib
import sys
from collections import namedtuple

HERE = pathlib.Path(__file__).resolve().parent
sys.path.append(str(HERE / "generator"))

import call_table

# What a call takes, or where it writes.
#
#   role    "reads", an array; "lengths", those of segments; "value", "place" or "count", one number; "room", an array that is written;
#           "single", one value that is written; "told", a number that is told beside the room
#   kind    of an array: "ints", "flags", "bytes" (numbers from 0 to 255), "text", "marks", "sums" (64 bits each); of one value: "int", "flag", "sum"
#           (64 bits) or "size"
#   extent  how many elements an array has, and what lengths add up to: "n", "m"; "segments", one for each segment; "count", the operand;
#           "both", n and m together; "trues" and "falses", how many flags are true or false; "total", what the lengths add up to; "room", what the caller says; "offsets", one more than
#           segments
#   copied  whether flags that are neither 0 nor 1 are copied, since the export takes no others
#   over    whether a room holds what stands before, which the call joins with what it reads; its example has that under `before(name)`
#   use     what it is to its call, one of USES
Operand = namedtuple("Operand", "name role kind extent copied over use", defaults=(False, "elements"))

# What an operand is to its call. No program asks for a name: the same operand may have another one in another family.
USES = {
    "elements": "what the call works on, or a number for it",
    "index": "places that it names",
    "columns": "the places of the vector that the entries of a sparse matrix are multiplied with",
    "starts": "the places where slices start",
    "mask": "flags that choose among elements",
    "offsets": "where rows start, and the last one ends",
    "lengths": "the lengths of segments, as a result",
    "init": "the first number of a progression",
    "stride": "its steps",
    "lowest": "the first place of a range",
    "row_count": "how many rows a matrix has",
    "column_count": "how many columns",
    "true_lengths": "lengths of what goes where a mask is true",
    "false_lengths": "where it is false",
}

# A fault: its numbers, and what is said of it. One of the room is C's alone. If its place counts in an operand, or it is a number that
# the caller gives, `about` names that operand; if that holds indices, `into` names the array into which all of them lead. `in_elements` says
# that elements are read to find it, although its number is one of lengths.
Fault = namedtuple("Fault", "numbers said of_room about into in_elements", defaults=(None, None, False))

# An operator: its name, its number, what it does, and its fault.
Operator = namedtuple("Operator", "name number sentence fault")

# An export.
#
#   general    its name where one name stands for integers and booleans
#   exported   its name in crates/cvl_c, without cvl_proved_
#   operators  the names of those that it takes
#   limit      the extent that has a limit, beside that of lengths: MOST_ELEMENTS, or MOST_OF_TEXT of a nested text that is read
#   in_place   which operands may be the room, each a tuple: alone, or together
#   faults     beside that of the operator and those of lengths, in their order
#   asks       whether the export asks for memory
#   cut        how it is cut into parts, a name of CUTS, and the extent that is cut; or nothing
#   over_ranks how it goes over ranks, where its cut does not say it
#   by_lengths of rows that come by their offsets: the family that takes their lengths
#   sentence   what it does; `shape` how long its arrays are; `told` what C alone is told
#   example    where no call has one; with operators it says of which it is, as op
Family = namedtuple(
    "Family",
    "name general exported section operators operands limit in_place faults asks cut over_ranks by_lengths sentence shape told example",
)

# A call of the table: its family, its operator if the family has some, what it does, and its example, where each operand and the
# room have their words.
Call = namedtuple("Call", "name section family operator sentence example")

# How a family goes over ranks of MPI.
#
#   way     the function that makes it, cvl_NAME_over_ranks; nothing if it has none
#   said    what a header says of it, or why there is no way
#   named   whether places that 32 bits name, or counts of them, limit the whole vector
#   spread  whether the result may be spread otherwise than what is read, where it is as long
OverRanks = namedtuple("OverRanks", "way said named spread", defaults=(False, False))

OWN_PLACES = OverRanks("places", "each rank makes its own places")
COUNTED_PLACES = OverRanks("places", "each rank makes its own places: count is how many it has, as long as out")
ASKED_ELEMENTS = OverRanks("back", "each rank asks for each element that it needs once", named=True)
SENT_ELEMENTS = OverRanks("permute", "elements go to the ranks of their places", named=True)
SENT_ANYWHERE = SENT_ELEMENTS._replace(spread=True)
SENT_SENDERS = OverRanks("permute", "senders go to the ranks of the places that they name", named=True)
JOINED_ELEMENTS = OverRanks(
    "combine", "elements go to the ranks of their places, and are joined there in their order", named=True
)
FEW_OR_JOINED = OverRanks(
    "combine_whole",
    "of few places each rank has all, and they are joined in the ranks that have them; else elements go to the ranks of their places",
    named=True,
)
COUNTED_THERE = OverRanks("combine", "places go to the ranks that have them, and are counted there", named=True)
SPREAD_SIDES = OverRanks("merge", "when_true and when_false may be spread otherwise than the flags")
ASKED_COLUMNS = OverRanks("product", "each rank asks once for each element of x that its columns name; a row may cross ranks")
KEPT_ELEMENTS = OverRanks("pack", "what a rank keeps stays with it, and *count is how many they are on this rank")
NO_TEXTS = OverRanks(None, "bindings/mpi/cvl_mpi.h.in has functions of its own for texts")
OWN_LENGTHS = OverRanks(
    "run_lengths", "a rank has the runs that begin in it, with what they have in ranks behind, and *count is how many they are"
)
OWN_STARTS = OverRanks(
    "run_starts",
    "a rank has the runs that begin in it, and *count is how many they are; places are those of the whole vector",
    named=True,
)
NO_PARTS = OverRanks(None, "a part of a call: a rank makes it alone")
BY_AN_ORDER = OverRanks(None, "over ranks an order of the keys and a back permute by it move any number of vectors")

# How the calls of a family are cut.
#
#   said        what a page says of it
#   over_ranks  how such a family goes over ranks, where it does not say it itself
#   least       the prefix of the least lengths that pay
#   any_bytes   whether what the parts call takes any bytes as flags, so that only those of a mask are copied
Cut = namedtuple("Cut", "said over_ranks least any_bytes", defaults=(None, "LEAST_SHARED", False))

DIGITS = "cut at places; each part sorts its own keys by a digit, and gathers a range of the result"
IN_SEGMENTS = "cut inside segments; each part goes on from what stands before it in its segment"
PIECES = "cut inside segments; the pieces of a cut segment are joined"
READS_INDICES = "the result is cut; each part reads all indices"
ROOMS_OR_RANGES = (
    "cut at places, and each part joins in a room of its own; with many places the room is cut, and each part reads all indices"
)
RUNS_THERE = "cut at places; a part has the runs that begin in it, and the last of them may go on in later parts"
BEFORE = "each rank goes on from what stands before it in its segment"
JOINED_AT_START = "the pieces of a segment are joined where it starts"
CUTS = {
    "places": Cut("cut at places", OWN_PLACES),
    "numbers": Cut("cut at places; a part's numbers go on behind those of the parts before", OWN_PLACES),
    "reduce": Cut("cut at places; the parts' reduces are joined", OverRanks("reduce", "the ranks' reduces are joined")),
    "scan": Cut(
        "cut at places; each part goes on from the reduces before it",
        OverRanks("scan", "each rank goes on from the reduces before it"),
    ),
    "checked_reduce": Cut(
        "cut at places; the parts' exact sums are added",
        OverRanks("checked_reduce", "the ranks' exact sums are added"),
    ),
    "checked_scan": Cut(
        "cut at places; each part goes on from the exact sums before it",
        OverRanks("checked_scan", "each rank goes on from the exact sums before it"),
    ),
    "count": Cut("cut at places; the parts' counts are added", OverRanks("count", "the ranks' counts are added", named=True)),
    "pack": Cut("cut at places; each part's elements go behind those of the parts before", KEPT_ELEMENTS),
    "run_lengths": Cut(RUNS_THERE, OWN_LENGTHS),
    "run_starts": Cut(RUNS_THERE, OWN_STARTS),
    "run_counts": Cut(
        PIECES,
        OverRanks("run_counts", "the runs of a segment are added where it starts, each counted where it begins"),
    ),
    "whole": Cut("not cut"),
    "permute": Cut(READS_INDICES, SENT_ELEMENTS, any_bytes=True),
    "select_permute": Cut(READS_INDICES, SENT_ELEMENTS, any_bytes=True),
    "default_permute": Cut(READS_INDICES, SENT_ELEMENTS, any_bytes=True),
    "senders": Cut(READS_INDICES, SENT_SENDERS),
    "select_senders": Cut(READS_INDICES, SENT_SENDERS),
    "combine": Cut(ROOMS_OR_RANGES, FEW_OR_JOINED),
    "combine_counts": Cut(ROOMS_OR_RANGES, FEW_OR_JOINED),
    "combine_sums": Cut(ROOMS_OR_RANGES, FEW_OR_JOINED),
    "combine_checked": Cut(ROOMS_OR_RANGES, FEW_OR_JOINED),
    "turns": Cut(
        "the result is cut; each part reads its elements of the whole matrix",
        OverRanks("transpose", "each element moves once; out may be spread otherwise", spread=True),
    ),
    "order": Cut(
        DIGITS,
        OverRanks(
            "order",
            "keys go with their places to the ranks of the sorted vector, which is spread as out is",
            named=True,
            spread=True,
        ),
    ),
    "rank": Cut(DIGITS, OverRanks("rank", "keys go to the ranks of the sorted vector, and their ranks back", named=True)),
    "sort": Cut(DIGITS, OverRanks("sort", "keys go to the ranks of the sorted vector, which is spread as out is", spread=True)),
    "sort_by_key": Cut(DIGITS, BY_AN_ORDER),
    "sort_by_key_descending": Cut(DIGITS, BY_AN_ORDER),
    "merge": Cut("cut at places; each part goes on in both vectors behind those that the flags before it take", SPREAD_SIDES),
    "replace": Cut("the copy is cut at places", OverRanks("replace", "the rank that has the place writes it")),
    "lengths": Cut(
        "the lengths are cut; the parts' totals are added",
        OverRanks("lengths", "the ranks' totals are added", named=True),
    ),
    "seg_scan": Cut(IN_SEGMENTS, OverRanks("seg_scan", BEFORE)),
    "seg_checked_scan": Cut(IN_SEGMENTS, OverRanks("seg_checked_scan", BEFORE)),
    "seg_reduce": Cut(PIECES, OverRanks("seg_reduce", JOINED_AT_START)),
    "seg_checked_reduce": Cut(PIECES, OverRanks("seg_checked_reduce", JOINED_AT_START)),
    "seg_count": Cut(PIECES, OverRanks("seg_count", "the pieces of a segment are added where it starts")),
    "seg_copies": Cut("cut inside segments", OverRanks("seg_values", "a segment's value goes on to the ranks behind its start")),
    "seg_numbers": Cut("cut inside segments", OverRanks("seg_values", "a segment's numbers go on in the ranks behind its start")),
    # the way over ranks differs from family to family
    "segments": Cut("cut between segments", None),
    "rows": Cut(
        "cut between rows, whose lengths are kept meanwhile",
        OverRanks("rows", "the offsets of a rank's rows begin with 0, and no row crosses ranks"),
    ),
    "write": Cut("cut at places; the parts' texts are put one after another", NO_TEXTS, "LEAST_WRITTEN"),
    "seg_write": Cut("cut between segments; the parts' texts are put one after another", NO_TEXTS, "LEAST_WRITTEN"),
    "read": Cut("cut at white space", NO_TEXTS, "LEAST_READ"),
}

# The most elements of a vector; and of one with segments whose text is read at once, and the most of its segments.
MOST_ELEMENTS = 2147483647
MOST_OF_TEXT = 4194304

# The most bytes of its stack that a thread needs for a call: what tests/c/stack.c measures stays below it.
MOST_STACK = 32768

# The faults that calls share.
TOO_LONG = Fault((13,), "13 TooLong", False)
SUM_OF_N = Fault((7,), "7 LengthMismatch if the lengths do not add up to n", False)
NO_ROOM = Fault((7,), "7 LengthMismatch if out is too short", True)
NOT_ALL = Fault((7,), "7 LengthMismatch if they do not add up to so many", False)
SUM_OR_NO_ROOM = Fault(
    (7,), "7 LengthMismatch if the lengths do not add up to n, with *count as it was, and if out is too short", True
)
BAD_PLACE = Fault((10,), "10 IndexOutOfRange at 0 if the index is below 0, or n or more", False, "index", "vector")
BAD_PLACES = Fault((10,), "10 IndexOutOfRange at the segment", False, "index")
BAD_COUNT = (
    Fault((12,), "12 NegativeLength, without a place, if count is below 0", False, "count"),
    Fault((13,), f"13 TooLong if it is above {MOST_ELEMENTS}", False, "count"),
)

# What each operator does, and its fault.
SAID = {
    "ADD": ("the sum, wrapped to 32 bits", None),
    "MUL": ("the product, wrapped to 32 bits", None),
    "MIN": ("the lesser", None),
    "MAX": ("the greater", None),
    "AND": ("and, bit by bit", None),
    "IOR": ("or, bit by bit", None),
    "XOR": ("exclusive or, bit by bit", None),
    "SUB": ("the difference, wrapped to 32 bits", None),
    "DIV": ("the quotient, truncated toward zero", Fault((8,), "8 DivideByZero at the first divisor that is 0", False, "b")),
    "MOD": (
        "the remainder of that quotient, with the dividend's sign",
        Fault((8,), "8 DivideByZero at the first divisor that is 0", False, "b"),
    ),
    "LSH": (
        "the first, shifted left by the second",
        Fault((9,), "9 ShiftOutOfRange at the first element of b outside 0 to 31", False, "b"),
    ),
    "RSH": (
        "the first, shifted right by the second; the sign is copied",
        Fault((9,), "9 ShiftOutOfRange at the first element of b outside 0 to 31", False, "b"),
    ),
    "GRT": ("whether the first is greater", None),
    "LES": ("whether it is less", None),
    "GEQ": ("whether it is at least the second", None),
    "LEQ": ("whether it is at most the second", None),
    "EQL": ("whether they are equal", None),
    "NEQ": ("whether they are not", None),
    "NOT": ("on one vector: each bit, or each boolean, inverted", None),
    "CPY": ("the same again", None),
}

# The operators of each family of the proved table of calls, and all of them by their numbers, which they have there.
OF_TABLE = call_table.operators(HERE.parent)
MONOIDS, BINARY, OF_FLAGS, COMPARISONS, UNARY = (
    tuple(OF_TABLE[family]) for family in ("IntMonoid", "IntBinary", "BoolBinary", "Comparison", "Unary")
)
NUMBERS = {name: number for family in OF_TABLE.values() for name, number in family.items()}
if NUMBERS.keys() != SAID.keys():
    sys.exit(
        f"{', '.join(sorted(NUMBERS.keys() ^ SAID.keys()))}: bindings/table.py does not say what it does, or the table of calls does not have it"
    )
if max(NUMBERS.values()) >= 32:
    sys.exit(
        "the rows of bindings/c have one bit for each operator, 32 in all: widen CvlRow.operators and CvlRow.faulty before you add another"
    )
OPERATORS = tuple(Operator(name, NUMBERS[name], *SAID[name]) for name in sorted(NUMBERS, key=NUMBERS.get))

# The numbers of a status, with their names.
STATUSES = (
    (0, "Done"),
    (2, "UnknownCall"),
    (7, "LengthMismatch"),
    (8, "DivideByZero"),
    (9, "ShiftOutOfRange"),
    (10, "IndexOutOfRange"),
    (11, "IndexRepeated"),
    (12, "NegativeLength"),
    (13, "TooLong"),
    (15, "BadInput"),
    (18, "Overflow"),
    (100, "NoResources"),
    (101, "NoDescriptor"),
    (102, "Overlap"),
)

VERSION = "1.0.0"


# What stands before the functions of a section: of families, and of calls.
OF_FAMILIES = {
    "combining permutes": (
        "No script calls these. A combining permute joins each element with what stands at the place that its index names: one call adds up by key, or finds "
        "the least of each group. Elements that go to one place are joined in their order. out holds the values before and then the result; to start anew, "
        "fill it with what changes nothing, such as 0 for CVL_ADD and INT32_MAX for CVL_MIN. Booleans in out that are neither 0 nor 1 become 1.",
        "With lengths, an index counts from the start of its segment of out. The faults by `lengths` come first, then those by `result_lengths`, which are as "
        "many, else 7 LengthMismatch.",
    ),
    "first senders": (
        "No script calls these. If several places name one place of the result, the least wins, for any number of threads. A back permute by the senders that "
        "are not -1 gives one element for each place that is named.",
        "With lengths, an index counts from the start of its segment of the result, and a sender from the start of its own. The faults by `lengths` come "
        "first, then those by `result_lengths`, which are as many, else 7 LengthMismatch.",
    ),
    "orders, ranks and sorts": (
        "No script calls these. Keys are signed integers, and equal ones keep the order of their places (a stable sort). For descending order use CVL_NOT on "
        "the keys before a call, and on the result of a sort. A sort may be in place.",
        "An order and a rank take up to 16 bytes a key while they run, a sort up to 4 (by segments, for the keys of the longest one), and all up to 8192 bytes "
        "more for each thread, else 100 NoResources.",
    ),
    "sorts by key": (
        "No script calls these. Each is in place: keys and values hold what is sorted, and then the result, and may not overlap. Keys are signed integers, and "
        "the values of equal keys stay as they stood (a stable sort). To keep the keys as they are, copy them first; to move several vectors, take the order of "
        "the keys instead, and a back permute of each by it.",
        "They take up to 16 bytes a key while they run, by segments on several threads up to 24, and up to 8192 bytes more for each thread, else 100 "
        "NoResources.",
    ),
    "runs of equal neighbours": (
        "No script calls these. A run is as long as its neighbours are equal, so that in sorted keys each key has one run. Unique keys are a back permute of the "
        "keys by the starts of their runs, and the lengths of the runs count each key. Reduce by key is a reduce of segments by these lengths.",
        "With lengths, a run ends where its segment does, and cvl_seg_run_counts_int says how many runs each segment has. On several threads lengths and "
        "starts take 4 bytes an element while they run; else these calls ask for no memory.",
    ),
    "slices and merges": (
        "No script calls these. They ask for memory only for booleans that are neither 0 nor 1, and on several threads for a copy of the buffer. A search for "
        "one true flag runs on the calling thread.",
        "The faults by the lengths come first, then 7 LengthMismatch, without a place, if the lengths of arrays do not fit.",
    ),
    "transposes, and integers of a byte": (
        "No script calls these. A transpose moves a matrix block by block, so it reads neighbours while they are in cache. Widen "
        "bytes before calls on integers, and narrow what fits. For a signed type of bytes subtract 256 from the integers above 127 once they are widened, and add "
        "256 to the negative ones before they are narrowed.",
    ),
    "texts": (
        "A text is bytes, with no zero at its end; count is the length of the result. For a text that is read the buffer is checked last, since only the text "
        "says how long the result is.",
    ),
    "scans in parts, by threads of the caller's": (
        "Your own threads scan one vector together in three steps, with a barrier of yours between them:",
        "  1. each thread reduces its tiles: cvl_int_reduce(op, a + from, to - from, &sums[t]), for tile t from place `from` to `to`;",
        "  2. one thread scans the sums: cvl_int_scan(op, sums, tiles, before, tiles);",
        "  3. each thread scans its tiles: cvl_int_scan_after(op, before[t], a + from, to - from, out + from, to - from).",
        "Tiles may have any length, also 0, and any thread may take any tile of a step. examples/c/threads.c does this with POSIX threads.",
    ),
    "sparse products": (
        "A sparse matrix comes by its rows: how many entries each row has, and the column and the value of each entry, row after row. Rows may also come by "
        "their offsets, as in a matrix of compressed rows (CSR): one more than rows; row r has the entries from offset r to before offset r + 1. Faults by the "
        "lengths come first. For many products of one matrix make the lengths once, by cvl_segments_from_offsets.",
    ),
    "calls in parts": (
        "Most calls in parts need only themselves; these functions are what else a part needs. In the repository docs/dev/parts.md says for each call how to cut it, "
        "what its parts pass on, and how to join the results; cvl_parallel.h does it for threads.",
    ),
}
OF_CALLS = {
    "segments": (
        "Segments come as their lengths, which may be 0. Each call on segments first has these faults, by the lengths: 13 TooLong, without a place, if there "
        f"are more than {MOST_ELEMENTS}; 12 NegativeLength at the first below 0; 13 TooLong, without a place, if they add up to more than {MOST_ELEMENTS}.",
    ),
    "permutes": (
        "In a simple, a select and a default permute the index of a place says where its element goes, and no two may go to one place. 13 TooLong, "
        f"if the index has more than {MOST_ELEMENTS} elements, comes first.",
    ),
    "permutes of segments": (
        "Indices count from the start of their segment. The faults by the lengths come first; with two arrays of lengths those by `lengths` before those by the "
        "other, which are as many, else 7 LengthMismatch.",
    ),
}


def ints(name, extent="n", use="elements"):
    return Operand(name, "reads", "ints", extent, False, use=use)


def flags(name, extent="n"):
    """Flags that the export takes as any bytes."""
    return Operand(name, "reads", "flags", extent, False)


def copied(name, extent="n"):
    """Flags that are copied where a byte is neither 0 nor 1."""
    return Operand(name, "reads", "flags", extent, True)


def sums(name, extent="n"):
    """Sums of 64 bits."""
    return Operand(name, "reads", "sums", extent, False)


def sizes(name, extent="n"):
    """Lengths of parts, as sizes."""
    return Operand(name, "reads", "sizes", extent, False)


def placed(name, extent="n"):
    """Keys beside their places or values."""
    return Operand(name, "reads", "placed", extent, False)


def ends(name="ends", extent="digits"):
    """Where each digit of each part ends."""
    return Operand(name, "reads", "marks", extent, False)


def numbers(name, extent="n"):
    """Integers of a byte."""
    return Operand(name, "reads", "bytes", extent, False)


def text(name, extent="n"):
    return Operand(name, "reads", "text", extent, False)


def lengths(name="lengths", extent="n", use="elements"):
    return Operand(name, "lengths", "ints", extent, False, use=use)


def offsets(name="offsets"):
    return Operand(name, "reads", "ints", "offsets", False, use="offsets")


def indices(extent="n"):
    return ints("index", extent, "index")


def mask():
    """Flags that choose, as any bytes."""
    return flags("flags")._replace(use="mask")


def copied_mask():
    """Flags that choose, which are copied where a byte is neither 0 nor 1."""
    return copied("flags")._replace(use="mask")


def value(name, kind="int", use="elements"):
    return Operand(name, "value", kind, None, False, use=use)


def lowest():
    """The first place of a range of the result."""
    return value("lowest", "size", "lowest")


def shape():
    """The shape of a matrix: how many rows it has, and how many columns."""
    return value("rows", "size", "row_count"), value("columns", "size", "column_count")


def place(name="index"):
    return Operand(name, "place", "int", None, False)


def count(name="count"):
    return Operand(name, "count", "int", None, False)


def room(kind, extent="n", name="out", use="elements"):
    return Operand(name, "room", kind, extent, False, use=use)


def over(kind, extent="m", name="out"):
    """A room that holds what stands before; flags of it are copied, and the copies are put back."""
    return Operand(name, "room", kind, extent, kind == "flags", True)


def before(name):
    """Under which name an example says what stands in a room before."""
    return f"{name}_before"


def single(kind, name="out"):
    return Operand(name, "single", kind, None, False)


def told(name="count"):
    return Operand(name, "told", "size", None, False)


def family(
    name,
    section,
    operands,
    sentence,
    operators=(),
    limit="n",
    in_place=(),
    faults=(TOO_LONG,),
    asks=False,
    cut=None,
    over_ranks=None,
    by_lengths=None,
    shape="",
    told="",
    example=None,
    exported=None,
    general=None,
):
    unknown = [operand.use for operand in operands if operand.use not in USES] + [
        cut[0] for cut in [cut] if cut and cut[0] not in CUTS
    ]
    found = over_ranks or (CUTS[cut[0]].over_ranks if cut and not unknown else None)
    if unknown:
        sys.exit(f"{name} in bindings/table.py: neither USES nor CUTS has {', '.join(unknown)}")
    if found is None:
        sys.exit(
            f"{name} in bindings/table.py: say by `over_ranks` how the family goes over ranks, or by a reason why it does not"
        )
    return Family(
        name,
        general or name,
        exported or name,
        section,
        operators,
        operands,
        limit,
        in_place,
        faults,
        asks,
        cut,
        found,
        by_lengths,
        sentence,
        shape,
        told,
        example,
    )


def common(first, second):
    """The words that two names share."""
    return "_".join(word for word in first.split("_") if word in second.split("_"))


def twins(names, section, operands_of, sentence, general=None, **said):
    """A family of integers and one of booleans, whose operands are those of a function of "ints" or "flags". Their general name is the words
    that their names share, if it is not given."""

    def of(kind, found):
        return found(kind) if callable(found) else found

    return tuple(
        family(
            name,
            section,
            operands_of(kind),
            of(kind, sentence),
            general=general or common(*names),
            **{word: of(kind, found) for word, found in said.items()},
        )
        for name, kind in zip(names, ("ints", "flags"))
    )


def items(kind, name, extent="n"):
    """Elements that are read; flags of them are copied."""
    return ints(name, extent) if kind == "ints" else copied(name, extent)


def any_items(kind, name, extent="n"):
    """Elements that are read, where flags may be any bytes."""
    return ints(name, extent) if kind == "ints" else flags(name, extent)


def one(kind):
    return {"ints": "int", "flags": "flag"}[kind]


def word(kind):
    return {"ints": "integer", "flags": "boolean"}[kind]


def joining(kind):
    """The operators that join elements, by which scans and reduces are made."""
    return MONOIDS if kind == "ints" else OF_FLAGS


def runs(names):
    """The operators of these names in the order of their numbers, those together whose numbers follow one another."""
    found = []
    for operator in sorted((operator for operator in OPERATORS if operator.name in names), key=lambda operator: operator.number):
        if found and found[-1][-1].number + 1 == operator.number:
            found[-1].append(operator)
        else:
            found.append([operator])
    return found


def first_to_last(names):
    """Operators as a page names them: of each run the first and the last."""
    return " and ".join(
        f"CVL_{run[0].name} to CVL_{run[-1].name}" if len(run) > 1 else f"CVL_{run[0].name}" for run in runs(names)
    )


SHAPE_ONE = "a and out have n elements."
SHAPE_TWO = "a, b and out have n elements."
PACKED = "out needs room for so many; n is always enough. *count is how many they are, also if out is too short."
BAD_INDEX = Fault(
    (10, 11),
    "at the first bad index 10 IndexOutOfRange if it is below 0, or n or more, else 11 IndexRepeated if an earlier one is the same",
    False,
    "index",
    "out",
)
BAD_SELECTED = Fault(
    (10, 11),
    "at the first bad index 10 IndexOutOfRange if it is below 0, or the number of true flags or more, else 11 IndexRepeated if an "
    "earlier one is the same",
    False,
    "index",
    "out",
)
BAD_DEFAULTED = Fault(
    (10, 11),
    "at the first bad index 10 IndexOutOfRange if it is below 0, or m or more, else 11 IndexRepeated if an earlier one is the same",
    False,
    "index",
    "defaults",
)
BAD_BACK = Fault((10,), "10 IndexOutOfRange at the first index below 0, or n or more", False, "index", "source")
REPEATED = "else 11 IndexRepeated if an earlier one of its segment is the same"
BAD_IN_SEGMENT = Fault(
    (10, 11), f"at the first bad index 10 IndexOutOfRange if it is no place of its segment, {REPEATED}", False, "index"
)
BAD_IN_RESULT = Fault(
    (10, 11),
    f"at the first bad index 10 IndexOutOfRange if it is no place of its segment of the result, {REPEATED}",
    False,
    "index",
)
BAD_IN_DEFAULTS = Fault(
    (10, 11),
    f"at the first bad index 10 IndexOutOfRange if it is no place of its segment of the defaults, {REPEATED}",
    False,
    "index",
)
BAD_IN_SOURCE = Fault(
    (10,), "10 IndexOutOfRange at the first index that is no place of its segment of the source", False, "index"
)
SUMS_OF_DEFAULTS = Fault((7,), "7 LengthMismatch if the lengths do not add up to n or the default lengths to m", False)
SUMS_OF_INDEX = Fault((7,), "7 LengthMismatch if the lengths do not add up to n or the index lengths to m", False)
FLAGS_DIFFER = Fault((7,), "7 LengthMismatch if index and flags differ in length", False)
BAD_NAMED = Fault((10,), "10 IndexOutOfRange at the first index that is no place of the result", False, "index", "out")
SUMS_OF_RESULT = Fault((7,), "7 LengthMismatch if the lengths do not add up to the index, or the result lengths to out", False)
BAD_NAMED_IN_SEGMENT = Fault(
    (10,), "10 IndexOutOfRange at the first index that is no place of its segment of the result", False, "index"
)
LONG_ROOM = Fault((13,), "13 TooLong, also if out is too long", False)
NOT_AS_MANY = Fault((7,), "7 LengthMismatch if source and index differ in length", False)
SUMS_OF_SENT = Fault(
    (7,),
    "7 LengthMismatch if source and index differ in length, or the lengths do not add up to them, or the result lengths to out",
    False,
)
GREAT_SUM = Fault((18,), "18 Overflow at the first place that held a sum below -2^62, or 2^62 or more", False)
VALUES_DIFFER = Fault((7,), "7 LengthMismatch if keys and values differ in length", False)
BAD_SLICE = Fault((10,), "10 IndexOutOfRange at the first segment that starts below 0 or ends behind the source", False, "starts")
SUMS_OF_BOTH = Fault((7,), "7 LengthMismatch if the lengths do not add up to a, or the other lengths to b", False)
SUMS_OF_SIDES = Fault(
    (7,),
    "7 LengthMismatch if the lengths do not add up to flags, the true lengths to when_true or the false lengths to when_false",
    False,
)
MISCOUNT = Fault(
    (7,),
    "7 LengthMismatch at the first segment whose true flags are not as many as its elements of when_true, or the false ones as those of when_false",
    False,
    in_elements=True,
)
NO_MATRIX = Fault((7,), "7 LengthMismatch if rows times columns is not n", False)
RANGE_OF_MATRIX_FAULTS = (
    Fault((13,), f"13 TooLong, by the source, and if the range ends behind place {MOST_ELEMENTS}", False),
    NO_MATRIX,
    Fault((7,), "7 LengthMismatch if the range ends behind place n", False),
)
NO_BYTE = Fault((18,), "18 Overflow at the first integer below 0 or above 255", False, "a")
NO_SIDES = Fault(
    (7,), "7 LengthMismatch if when_true does not have one element for each true flag, or when_false for each false one", False
)
OVERFLOW_AT_PLACE = Fault((18,), "18 Overflow at the first place whose sum does not fit 32 bits", False)
OVERFLOW_AT_0 = Fault((18,), "18 Overflow at 0 if it does not fit 32 bits", False)
BAD_COLUMN = Fault((10,), "10 IndexOutOfRange at the first column below 0, or m or more", False, "columns", "x")
SUM_OF_ENTRIES = Fault((7,), "7 LengthMismatch if columns and values differ in length, or the lengths do not add up to n", False)
TOO_MANY = Fault((13,), f"13 TooLong, also if there are more than {MOST_ELEMENTS + 1} offsets", False)
BAD_OFFSETS = Fault(
    (7, 12),
    "7 LengthMismatch if there is no offset or the first is not 0, else 12 NegativeLength at the first row whose offset is above the next one",
    False,
    "offsets",
)
LAST_OFFSET = Fault((7,), "7 LengthMismatch if columns and values differ in length, or the last offset is not n", False)
OVERFLOW_AT_ROW = Fault((18,), "18 Overflow at the first row whose sum does not fit 32 bits", False)
OVERFLOW_AT_SEGMENT = Fault((18,), "18 Overflow at the first segment whose sum does not fit 32 bits", False)
# of the lengths of arrays, as all calls have them: what stands before the functions says them once
OF_LENGTHS = (
    TOO_LONG,
    SUM_OF_N,
    NO_ROOM,
    SUM_OR_NO_ROOM,
    SUMS_OF_DEFAULTS,
    SUMS_OF_INDEX,
    SUMS_OF_RESULT,
    SUMS_OF_SENT,
    SUMS_OF_BOTH,
    SUMS_OF_SIDES,
    FLAGS_DIFFER,
    NOT_AS_MANY,
    SUM_OF_ENTRIES,
    LONG_ROOM,
    VALUES_DIFFER,
)
RANGE_FAULTS = (
    Fault((13,), f"13 TooLong, by the index, and if the range ends behind place {MOST_ELEMENTS}", False),
    Fault((7,), "7 LengthMismatch if source and index differ in length, or marks_len is not (out_len + 31) / 32", False),
)
COMBINE_RANGE_FAULTS = (
    Fault((13,), f"13 TooLong, by the index, and if the range ends behind place {MOST_ELEMENTS}", False),
    NOT_AS_MANY,
)

FAMILIES = (
    # ---- place by place ----
    *twins(
        ("int2", "bool2"),
        "place by place",
        lambda kind: (any_items(kind, "a"), any_items(kind, "b"), room(kind)),
        lambda kind: f"The operator on each two {word(kind)}s at the same place.",
        operators=lambda kind: BINARY if kind == "ints" else OF_FLAGS,
        in_place=(("a",), ("b",), ("a", "b")),
        cut=("places", "n"),
        shape=SHAPE_TWO,
        general="binary",
    ),
    *twins(
        ("int1", "bool1"),
        "place by place",
        lambda kind: (any_items(kind, "a"), room(kind)),
        lambda kind: f"The operator, CVL_NOT or CVL_CPY, on each {word(kind)}.",
        operators=UNARY,
        in_place=(("a",),),
        cut=("places", "n"),
        shape=SHAPE_ONE,
        general="unary",
    ),
    family(
        "compare",
        "place by place",
        (ints("a"), ints("b"), room("flags")),
        "The comparison of each two integers at the same place, on signed numbers.",
        operators=COMPARISONS,
        cut=("places", "n"),
        shape=SHAPE_TWO,
    ),
    family(
        "int_from_bool",
        "place by place",
        (flags("a"), room("ints")),
        "1 for true and 0 for false.",
        cut=("places", "n"),
        shape=SHAPE_ONE,
    ),
    family(
        "bool_from_int",
        "place by place",
        (ints("a"), room("flags")),
        "False for 0 and true for all else.",
        cut=("places", "n"),
        shape=SHAPE_ONE,
    ),
    *twins(
        ("select_int", "select_bool"),
        "place by place",
        lambda kind: (mask(), any_items(kind, "a"), any_items(kind, "b"), room(kind)),
        "At each place the element of a if the flag is true, else that of b.",
        in_place=(("a",), ("b",)),
        cut=("places", "n"),
        shape="flags, a, b and out have n elements.",
    ),
    # ---- scans and reduces ----
    *twins(
        ("int_scan", "bool_scan"),
        "scans and reduces",
        lambda kind: (items(kind, "a"), room(kind)),
        lambda kind: f"For each {word(kind)} those before it, joined by the operator, of {first_to_last(joining(kind))}.",
        operators=joining,
        in_place=(("a",),),
        cut=("scan", "n"),
        shape=SHAPE_ONE,
    ),
    *twins(
        ("int_reduce", "bool_reduce"),
        "scans and reduces",
        lambda kind: (any_items(kind, "a"), single(one(kind))),
        lambda kind: f"The {word(kind)}s joined by the operator, of {first_to_last(joining(kind))}.",
        operators=joining,
        cut=("reduce", "n"),
    ),
    # ---- sums that never wrap ----
    family(
        "checked_scan",
        "sums that never wrap",
        (ints("a"), room("ints")),
        "For each integer the sum of those before it.",
        in_place=(("a",),),
        faults=(TOO_LONG, OVERFLOW_AT_PLACE),
        cut=("checked_scan", "n"),
        shape=SHAPE_ONE,
    ),
    family(
        "checked_reduce",
        "sums that never wrap",
        (ints("a"), single("int")),
        "The sum of the integers.",
        faults=(TOO_LONG, OVERFLOW_AT_0),
        cut=("checked_reduce", "n"),
    ),
    family(
        "seg_checked_scan",
        "sums that never wrap",
        (ints("a"), lengths(), room("ints")),
        "For each integer the sum of those before it in its segment.",
        limit=None,
        in_place=(("a",),),
        faults=(SUM_OF_N, OVERFLOW_AT_PLACE),
        cut=("seg_checked_scan", "n"),
        shape=SHAPE_ONE,
    ),
    family(
        "seg_checked_reduce",
        "sums that never wrap",
        (ints("a"), lengths(), room("ints", "segments")),
        "The sum of each segment.",
        limit=None,
        faults=(SUM_OF_N, OVERFLOW_AT_SEGMENT),
        asks=True,
        cut=("seg_checked_reduce", "n"),
        shape="a has n elements, out one for each segment.",
    ),
    # ---- counts, single elements, and vectors of a given length ----
    family(
        "count",
        "counts, single elements, and vectors of a given length",
        (mask(), single("int")),
        "The number of true flags.",
        cut=("count", "n"),
    ),
    *twins(
        ("extract_int", "extract_bool"),
        "counts, single elements, and vectors of a given length",
        lambda kind: (any_items(kind, "vector"), place(), single(one(kind))),
        "The element at an index. Vectors of any length.",
        limit=None,
        faults=(BAD_PLACE,),
        cut=("whole", None),
        over_ranks=OverRanks("extract", "the rank that has the element sends it to all"),
    ),
    *twins(
        ("replace_int", "replace_bool"),
        "counts, single elements, and vectors of a given length",
        lambda kind: (any_items(kind, "vector"), place(), value("value", one(kind)), room(kind)),
        "The vector with another element at an index. Vectors of any length.",
        limit=None,
        faults=(BAD_PLACE,),
        asks=lambda kind: kind == "ints",
        cut=("replace", "n"),
        shape="vector and out have n elements.",
    ),
    *twins(
        ("distribute_int", "distribute_bool"),
        "counts, single elements, and vectors of a given length",
        lambda kind: (value("value", one(kind)), count(), room(kind, "count")),
        "Copies of a value, count of them.",
        limit=None,
        faults=BAD_COUNT,
        cut=("places", "count"),
        over_ranks=COUNTED_PLACES,
    ),
    family(
        "index",
        "counts, single elements, and vectors of a given length",
        (value("init", use="init"), value("stride", use="stride"), count(), room("ints", "count")),
        "The numbers init + k * stride, each wrapped to 32 bits, count of them.",
        limit=None,
        faults=BAD_COUNT,
        cut=("numbers", "count"),
        over_ranks=COUNTED_PLACES,
    ),
    # ---- segments, which come as their lengths ----
    family(
        "make_descriptor",
        "segments, which come as their lengths",
        (lengths(extent="total"), told("total")),
        "Whether the numbers are lengths of segments, and their total.",
        limit=None,
        faults=(),
        cut=("lengths", "segments"),
    ),
    *twins(
        ("seg_extract_int", "seg_extract_bool"),
        "segments, which come as their lengths",
        lambda kind: (any_items(kind, "vector"), indices("segments"), lengths(), room(kind, "segments")),
        "The element of each segment at its index.",
        limit=None,
        faults=(SUM_OF_N, BAD_PLACES),
        asks=True,
        cut=("segments", "n"),
        over_ranks=OverRanks(
            "seg_extract", "the rank of a segment's start, which has its index, asks for the element", named=True
        ),
        shape="The vector has n elements, index and out one for each segment.",
    ),
    *twins(
        ("seg_replace_int", "seg_replace_bool"),
        "segments, which come as their lengths",
        lambda kind: (items(kind, "vector"), indices("segments"), items(kind, "values", "segments"), lengths(), room(kind)),
        "The vector with another element in each segment, at its index.",
        limit=None,
        faults=(SUM_OF_N, BAD_PLACES),
        asks=True,
        cut=("segments", "n"),
        over_ranks=OverRanks("seg_replace", "a segment's value goes to the rank of its place", named=True),
        shape="vector and out have n elements, index and values one for each segment.",
    ),
    *twins(
        ("seg_distribute_int", "seg_distribute_bool"),
        "segments, which come as their lengths",
        lambda kind: (items(kind, "values", "segments"), lengths(extent="total"), room(kind, "total")),
        "Copies of the value of each segment, as many as it has places.",
        limit=None,
        faults=(),
        cut=("seg_copies", "total"),
        shape="There is one value for each segment; out has n elements, the total of the lengths, else 7 LengthMismatch.",
    ),
    family(
        "seg_index",
        "segments, which come as their lengths",
        (ints("inits", "segments"), ints("strides", "segments"), lengths(extent="total"), room("ints", "total")),
        "The numbers of each segment from its init on, in steps of its stride.",
        limit=None,
        faults=(),
        cut=("seg_numbers", "total"),
        shape="There are one init and one stride for each segment; out has n elements, the total of the lengths, else 7 LengthMismatch.",
    ),
    # ---- scans and reduces of segments ----
    *twins(
        ("seg_int_scan", "seg_bool_scan"),
        "scans and reduces of segments",
        lambda kind: (items(kind, "a"), lengths(), room(kind)),
        lambda kind: f"For each {word(kind)} those before it in its segment, joined by the operator, of {first_to_last(joining(kind))}.",
        operators=joining,
        limit=None,
        in_place=(("a",),),
        faults=(SUM_OF_N,),
        cut=("seg_scan", "n"),
        shape=SHAPE_ONE,
    ),
    *twins(
        ("seg_int_reduce", "seg_bool_reduce"),
        "scans and reduces of segments",
        lambda kind: (any_items(kind, "a"), lengths(), room(kind, "segments")),
        lambda kind: f"The {word(kind)}s of each segment joined by the operator, of {first_to_last(joining(kind))}.",
        operators=joining,
        limit=None,
        faults=(SUM_OF_N,),
        cut=("seg_reduce", "n"),
        shape="a has n elements, out one for each segment.",
    ),
    # ---- packs and counts of segments ----
    *twins(
        ("pack_int", "pack_bool"),
        "packs and counts of segments",
        lambda kind: (items(kind, "values"), copied_mask(), room(kind, "room"), told()),
        lambda kind: f"The {word(kind)}s whose flag is true, in order, and how many they are.",
        faults=(TOO_LONG, NO_ROOM),
        cut=("pack", "n"),
        shape="values and flags have n elements.",
        told=PACKED,
    ),
    *twins(
        ("seg_pack_int", "seg_pack_bool"),
        "packs and counts of segments",
        lambda kind: (items(kind, "values"), copied_mask(), lengths(), room(kind, "room"), told()),
        lambda kind: f"The {word(kind)}s of each segment whose flag is true, in order, one segment after another, and how many they are.",
        limit=None,
        faults=(SUM_OR_NO_ROOM,),
        cut=("pack", "n"),
        shape="values and flags have n elements.",
        told=PACKED,
    ),
    family(
        "seg_packed_lengths",
        "packs and counts of segments",
        (mask(), lengths(), room("ints", "segments", use="lengths")),
        "The lengths of the segments of what a pack of segments keeps.",
        limit=None,
        faults=(SUM_OF_N,),
        cut=("seg_count", "n"),
        shape="flags has n elements, out one for each segment.",
        exported="packed_lengths",
    ),
    family(
        "seg_count",
        "packs and counts of segments",
        (mask(), lengths(), room("ints", "segments")),
        "The number of true flags of each segment.",
        limit=None,
        faults=(SUM_OF_N,),
        cut=("seg_count", "n"),
        shape="flags has n elements, out one for each segment.",
    ),
    # ---- permutes ----
    *twins(
        ("permute_int", "permute_bool"),
        "permutes",
        lambda kind: (items(kind, "source"), indices(), room(kind)),
        "Each element of the source at its index.",
        faults=(TOO_LONG, BAD_INDEX),
        asks=True,
        cut=("permute", "n"),
        over_ranks=SENT_ANYWHERE,
        shape="source, index and out have n elements.",
    ),
    *twins(
        ("select_permute_int", "select_permute_bool"),
        "permutes",
        lambda kind: (items(kind, "source"), indices(), copied_mask(), room(kind, "trues")),
        "Each element of the source whose flag is true at its index.",
        faults=(TOO_LONG, BAD_SELECTED),
        asks=True,
        cut=("select_permute", "trues"),
        shape="source, index and flags have n elements; out has m, the number of true flags, else 7 LengthMismatch. An index whose flag is "
        "false is ignored.",
    ),
    *twins(
        ("default_permute_int", "default_permute_bool"),
        "permutes",
        lambda kind: (items(kind, "source"), indices(), items(kind, "defaults", "m"), room(kind, "m")),
        "Each element of the source at its index, and at a place to which none goes its default.",
        faults=(TOO_LONG, BAD_DEFAULTED),
        asks=True,
        cut=("default_permute", "m"),
        shape="source and index have n elements, defaults and out m, which may be any number.",
    ),
    *twins(
        ("back_permute_int", "back_permute_bool"),
        "permutes",
        lambda kind: (items(kind, "source"), indices("m"), room(kind, "m")),
        "At each place the element of the source at the place's index.",
        limit="m",
        faults=(TOO_LONG, BAD_BACK),
        cut=("places", "m"),
        over_ranks=ASKED_ELEMENTS,
        shape="The source has n elements, which may be any number; index and out have m.",
    ),
    # ---- permutes of segments ----
    *twins(
        ("seg_permute_int", "seg_permute_bool"),
        "permutes of segments",
        lambda kind: (items(kind, "source"), indices(), lengths(), room(kind)),
        "Each element of the source at its index in its segment.",
        faults=(TOO_LONG, SUM_OF_N, BAD_IN_SEGMENT),
        asks=True,
        cut=("segments", "n"),
        over_ranks=SENT_ANYWHERE,
        shape="source, index and out have n elements.",
    ),
    *twins(
        ("seg_select_permute_int", "seg_select_permute_bool"),
        "permutes of segments",
        lambda kind: (items(kind, "source"), indices(), copied_mask(), lengths(), room(kind, "trues")),
        "Each element of the source whose flag is true at its index in its segment of the result.",
        faults=(TOO_LONG, SUM_OF_N, BAD_IN_RESULT),
        asks=True,
        cut=("segments", "n"),
        over_ranks=SENT_ELEMENTS,
        shape="source, index and flags have n elements; out has m, the number of true flags, else 7 LengthMismatch. An index whose flag is "
        "false is ignored.",
    ),
    *twins(
        ("seg_default_permute_int", "seg_default_permute_bool"),
        "permutes of segments",
        lambda kind: (
            items(kind, "source"),
            indices(),
            items(kind, "defaults", "m"),
            lengths(),
            lengths("default_lengths", "m"),
            room(kind, "m"),
        ),
        "Each element of the source at its index in its segment of the defaults, and at a place to which none goes its default.",
        faults=(TOO_LONG, SUMS_OF_DEFAULTS, BAD_IN_DEFAULTS),
        asks=True,
        cut=("segments", "n"),
        over_ranks=SENT_ELEMENTS,
        shape="source and index have n elements in segments with the lengths; defaults and out have m, in as many segments with the default lengths.",
    ),
    *twins(
        ("seg_back_permute_int", "seg_back_permute_bool"),
        "permutes of segments",
        lambda kind: (items(kind, "source"), indices("m"), lengths(), lengths("index_lengths", "m"), room(kind, "m")),
        "At each place the element at the place's index in the same segment of the source.",
        limit="m",
        faults=(TOO_LONG, SUMS_OF_INDEX, BAD_IN_SOURCE),
        cut=("segments", "m"),
        over_ranks=ASKED_ELEMENTS,
        shape="The source has n elements in segments with the lengths; index and out have m, in as many segments with the index lengths.",
    ),
    # ---- first senders ----
    family(
        "first_senders",
        "first senders",
        (indices(), room("ints", "m")),
        "For each place of the result the least place whose index names it, or -1 if none does. The result may have any number of places.",
        faults=(TOO_LONG, BAD_NAMED),
        cut=("senders", "m"),
        example={"index": "2 0 2 3", "out": "1 -1 0 3"},
    ),
    family(
        "select_first_senders",
        "first senders",
        (indices(), copied_mask(), room("ints", "m")),
        "For each place of the result the least place whose flag is true and whose index names it, or -1 if none does. An index whose flag is false is "
        "ignored. The result may have any number of places.",
        faults=(TOO_LONG, FLAGS_DIFFER, BAD_NAMED),
        cut=("select_senders", "m"),
        example={"index": "2 0 2 9", "flags": "false true true false", "out": "1 -1 2"},
    ),
    family(
        "seg_first_senders",
        "first senders",
        (indices(), lengths(), lengths("result_lengths", "m"), room("ints", "m")),
        "For each place of each segment of the result the least place of the same segment of the index that names it, or -1 if none does.",
        faults=(TOO_LONG, SUMS_OF_RESULT, BAD_NAMED_IN_SEGMENT),
        cut=("segments", "n"),
        over_ranks=SENT_SENDERS,
        example={"index": "1 1 0 3 0", "lengths": "2 0 3", "result_lengths": "2 1 4", "out": "-1 0 -1 0 -1 -1 1"},
    ),
    family(
        "seg_select_first_senders",
        "first senders",
        (indices(), copied_mask(), lengths(), lengths("result_lengths", "m"), room("ints", "m")),
        "For each place of each segment of the result the least place of the same segment of the index whose flag is true and whose index names it, or -1 "
        "if none does. An index whose flag is false is ignored.",
        faults=(TOO_LONG, FLAGS_DIFFER, SUMS_OF_RESULT, BAD_NAMED_IN_SEGMENT),
        cut=("segments", "n"),
        over_ranks=SENT_SENDERS,
        example={
            "index": "1 1 9 3 0",
            "flags": "false true false true true",
            "lengths": "2 0 3",
            "result_lengths": "2 1 4",
            "out": "-1 1 -1 2 -1 -1 1",
        },
    ),
    # ---- combining permutes ----
    *twins(
        ("combine_permute_int", "combine_permute_bool"),
        "combining permutes",
        lambda kind: (items(kind, "source"), indices(), over(kind)),
        lambda kind: f"At each place of out what stands there, joined by the operator, of {first_to_last(joining(kind))}, with each {word(kind)} whose index "
        "names the place. out may have any number of places.",
        operators=joining,
        faults=(LONG_ROOM, NOT_AS_MANY, BAD_NAMED),
        cut=("combine", "n"),
        example=lambda kind: {
            "ints": {"op": "ADD", "source": "5 6 7 8", "index": "2 0 2 1", "out_before": "100 200 300", "out": "106 208 312"},
            "flags": {
                "op": "XOR",
                "source": "true true true",
                "index": "2 0 2",
                "out_before": "false false true",
                "out": "true false true",
            },
        }[kind],
    ),
    family(
        "counts",
        "combining permutes",
        (indices(), room("ints", "m")),
        "For each place of the result how many indices name it. The result may have any number of places.",
        faults=(LONG_ROOM, BAD_NAMED),
        cut=("combine_counts", "n"),
        over_ranks=FEW_OR_JOINED._replace(
            said="of few places each rank counts all, and the counts are added; else places go to the ranks that have them"
        ),
        example={"index": "2 0 2 3", "out": "1 0 2 1"},
    ),
    *twins(
        ("seg_combine_permute_int", "seg_combine_permute_bool"),
        "combining permutes",
        lambda kind: (items(kind, "source"), indices(), lengths(), lengths("result_lengths", "m"), over(kind)),
        lambda kind: f"At each place of each segment of out what stands there, joined by the operator, of {first_to_last(joining(kind))}, with each "
        f"{word(kind)} of the same segment whose index names the place.",
        operators=joining,
        limit=None,
        faults=(SUMS_OF_SENT, BAD_NAMED_IN_SEGMENT),
        cut=("segments", "n"),
        over_ranks=JOINED_ELEMENTS,
        example=lambda kind: {
            "ints": {
                "op": "MAX",
                "source": "5 6 7 8 9",
                "index": "1 1 0 3 0",
                "lengths": "2 0 3",
                "result_lengths": "2 1 4",
                "out_before": "0 0 0 0 0 0 10",
                "out": "0 6 0 9 0 0 10",
            },
            "flags": {
                "op": "IOR",
                "source": "true false true",
                "index": "1 0 0",
                "lengths": "2 1",
                "result_lengths": "2 2",
                "out_before": "false false false true",
                "out": "false true true true",
            },
        }[kind],
    ),
    family(
        "combine_checked_int",
        "combining permutes",
        (ints("source"), indices(), over("ints")),
        "At each place of out what stands there, plus each integer whose index names the place. The sum may leave 32 bits on the way, and has to fit them at the "
        "end. out may have any number of places. While it runs, the call takes 8 bytes for each place of out.",
        faults=(LONG_ROOM, NOT_AS_MANY, BAD_NAMED, OVERFLOW_AT_PLACE),
        asks=True,
        cut=("combine_checked", "n"),
        example={"source": "5 2147483647 7 -2147483647", "index": "2 0 2 0", "out_before": "100 200 300", "out": "100 200 312"},
    ),
    family(
        "combine_exact_sums",
        "combining permutes",
        (ints("source"), indices(), over("sums")),
        "At each place of out, of 64 bits, the sum that stands there, plus each integer whose index names the place: it is exact. out may have any number of "
        "places.",
        faults=(LONG_ROOM, NOT_AS_MANY, GREAT_SUM, BAD_NAMED),
        cut=("combine_sums", "n"),
        example={"source": "2147483647 6 2147483647", "index": "1 0 1", "out_before": "0 0 300", "out": "6 4294967294 300"},
    ),
    family(
        "seg_combine_checked_int",
        "combining permutes",
        (ints("source"), indices(), lengths(), lengths("result_lengths", "m"), over("ints")),
        "At each place of each segment of out what stands there, plus each integer of the same segment whose index names the place. The sum may leave 32 bits on "
        "the way, and has to fit them at the end. While it runs, the call takes 8 bytes for each place of out.",
        limit=None,
        faults=(SUMS_OF_SENT, BAD_NAMED_IN_SEGMENT, OVERFLOW_AT_PLACE),
        asks=True,
        cut=("segments", "n"),
        over_ranks=JOINED_ELEMENTS,
        example={
            "source": "5 6 7 8 9",
            "index": "1 1 0 3 0",
            "lengths": "2 0 3",
            "result_lengths": "2 1 4",
            "out_before": "0 0 0 0 0 0 10",
            "out": "0 11 0 16 0 0 18",
        },
    ),
    family(
        "seg_combine_exact_sums",
        "combining permutes",
        (ints("source"), indices(), lengths(), lengths("result_lengths", "m"), over("sums")),
        "At each place of each segment of out, of 64 bits, the sum that stands there, plus each integer of the same segment whose index names the place: it is "
        "exact.",
        limit=None,
        faults=(SUMS_OF_SENT, GREAT_SUM, BAD_NAMED_IN_SEGMENT),
        cut=("segments", "n"),
        over_ranks=JOINED_ELEMENTS,
        example={
            "source": "2147483647 2147483647 7",
            "index": "1 1 0",
            "lengths": "2 1",
            "result_lengths": "2 2",
            "out_before": "1 2 3 4",
            "out": "1 4294967296 10 4",
        },
    ),
    family(
        "seg_counts",
        "combining permutes",
        (indices(), lengths(), lengths("result_lengths", "m"), room("ints", "m")),
        "For each place of each segment of the result how many indices of the same segment name it.",
        limit=None,
        faults=(SUMS_OF_RESULT, BAD_NAMED_IN_SEGMENT),
        cut=("segments", "n"),
        over_ranks=COUNTED_THERE,
        example={"index": "1 1 0 3 0", "lengths": "2 0 3", "result_lengths": "2 1 4", "out": "0 2 0 2 0 0 1"},
    ),
    # ---- orders, ranks and sorts ----
    family(
        "order",
        "orders, ranks and sorts",
        (ints("keys"), room("ints")),
        "The places in ascending order of their keys, equal keys in the order of their places. A back permute by them sorts whatever belongs to the keys.",
        asks=True,
        cut=("order", "n"),
        shape="keys and out have n elements.",
        example={"keys": "3 1 2 1", "out": "1 3 2 0"},
    ),
    family(
        "rank",
        "orders, ranks and sorts",
        (ints("keys"), room("ints")),
        "For each place how many keys come before its key: the lesser ones, and the equal ones of earlier places. A simple permute by them sorts whatever "
        "belongs to the keys.",
        asks=True,
        cut=("rank", "n"),
        shape="keys and out have n elements.",
        example={"keys": "3 1 2 1", "out": "3 0 2 1"},
    ),
    family(
        "sort",
        "orders, ranks and sorts",
        (ints("keys"), room("ints")),
        "The keys in ascending order.",
        in_place=(("keys",),),
        asks=True,
        cut=("sort", "n"),
        shape="keys and out have n elements.",
        example={"keys": "3 1 2 1", "out": "1 1 2 3"},
    ),
    family(
        "seg_order",
        "orders, ranks and sorts",
        (ints("keys"), lengths(), room("ints")),
        "The order of the keys of each segment, whose places count from the start of the segment.",
        faults=(TOO_LONG, SUM_OF_N),
        asks=True,
        cut=("segments", "n"),
        over_ranks=OverRanks(
            "order", "keys of segments that cross ranks go with their places to the ranks of the sorted segments"
        ),
        shape="keys and out have n elements.",
        example={"keys": "3 1 9 2 7", "lengths": "2 0 3", "out": "1 0 1 2 0"},
    ),
    family(
        "seg_rank",
        "orders, ranks and sorts",
        (ints("keys"), lengths(), room("ints")),
        "The rank of each key in its segment.",
        faults=(TOO_LONG, SUM_OF_N),
        asks=True,
        cut=("segments", "n"),
        over_ranks=OverRanks(
            "rank", "keys of segments that cross ranks go to the ranks of the sorted segments, and their ranks back"
        ),
        shape="keys and out have n elements.",
        example={"keys": "3 1 9 2 7", "lengths": "2 0 3", "out": "1 0 2 0 1"},
    ),
    family(
        "seg_sort",
        "orders, ranks and sorts",
        (ints("keys"), lengths(), room("ints")),
        "The keys of each segment in ascending order.",
        in_place=(("keys",),),
        faults=(TOO_LONG, SUM_OF_N),
        asks=True,
        cut=("segments", "n"),
        over_ranks=OverRanks("sort", "keys of segments that cross ranks go to the ranks of the sorted segments"),
        shape="keys and out have n elements.",
        example={"keys": "3 1 9 2 7", "lengths": "2 0 3", "out": "1 3 2 7 9"},
    ),
    # ---- sorts by key ----
    family(
        "sort_by_key",
        "sorts by key",
        (over("ints", "n", "keys"), over("ints", "n", "values")),
        "The keys in ascending order, and the values, each of which moves with its key.",
        faults=(TOO_LONG, VALUES_DIFFER),
        asks=True,
        cut=("sort_by_key", "n"),
        example={"keys_before": "3 1 2 1", "values_before": "10 20 30 40", "keys": "1 1 2 3", "values": "20 40 30 10"},
    ),
    family(
        "sort_by_key_descending",
        "sorts by key",
        (over("ints", "n", "keys"), over("ints", "n", "values")),
        "The keys in descending order, and the values, each of which moves with its key.",
        faults=(TOO_LONG, VALUES_DIFFER),
        asks=True,
        cut=("sort_by_key_descending", "n"),
        example={"keys_before": "3 1 2 1", "values_before": "10 20 30 40", "keys": "3 2 1 1", "values": "10 30 20 40"},
    ),
    family(
        "seg_sort_by_key",
        "sorts by key",
        (lengths(), over("ints", "n", "keys"), over("ints", "n", "values")),
        "The keys of each segment in ascending order, and the values, each of which moves with its key.",
        faults=(TOO_LONG, VALUES_DIFFER, SUM_OF_N),
        asks=True,
        cut=("segments", "n"),
        over_ranks=BY_AN_ORDER,
        example={
            "lengths": "2 0 3",
            "keys_before": "3 1 9 2 2",
            "values_before": "10 20 30 40 50",
            "keys": "1 3 2 2 9",
            "values": "20 10 40 50 30",
        },
    ),
    family(
        "seg_sort_by_key_descending",
        "sorts by key",
        (lengths(), over("ints", "n", "keys"), over("ints", "n", "values")),
        "The keys of each segment in descending order, and the values, each of which moves with its key.",
        faults=(TOO_LONG, VALUES_DIFFER, SUM_OF_N),
        asks=True,
        cut=("segments", "n"),
        over_ranks=BY_AN_ORDER,
        example={
            "lengths": "2 0 3",
            "keys_before": "1 3 2 9 2",
            "values_before": "10 20 30 40 50",
            "keys": "3 1 9 2 2",
            "values": "20 10 40 30 50",
        },
    ),
    # ---- runs of equal neighbours ----
    *twins(
        ("run_lengths_int", "run_lengths_bool"),
        "runs of equal neighbours",
        lambda kind: (any_items(kind, "a"), room("ints", "room"), told()),
        "The length of each run of equal neighbours, in order, and how many they are.",
        faults=(TOO_LONG, NO_ROOM),
        cut=("run_lengths", "n"),
        over_ranks=OWN_LENGTHS._replace(named=True),
        shape="a has n elements.",
        told=PACKED,
        example=lambda kind: {
            "ints": {"a": "3 3 5 5 5 2", "out": "2 3 1", "count": "3"},
            "flags": {"a": "true true false true", "out": "2 1 1", "count": "3"},
        }[kind],
    ),
    *twins(
        ("run_starts_int", "run_starts_bool"),
        "runs of equal neighbours",
        lambda kind: (any_items(kind, "a"), room("ints", "room"), told()),
        "The place where each run of equal neighbours begins, in order, and how many they are.",
        faults=(TOO_LONG, NO_ROOM),
        cut=("run_starts", "n"),
        shape="a has n elements.",
        told=PACKED,
        example=lambda kind: {
            "ints": {"a": "3 3 5 5 5 2", "out": "0 2 5", "count": "3"},
            "flags": {"a": "true true false true", "out": "0 2 3", "count": "3"},
        }[kind],
    ),
    *twins(
        ("seg_run_lengths_int", "seg_run_lengths_bool"),
        "runs of equal neighbours",
        lambda kind: (any_items(kind, "a"), lengths(), room("ints", "room"), told()),
        "The length of each run of equal neighbours of each segment, in order, one segment after another, and how many they are.",
        limit=None,
        faults=(SUM_OR_NO_ROOM,),
        cut=("run_lengths", "n"),
        shape="a has n elements.",
        told=PACKED,
        example=lambda kind: {
            "ints": {"a": "3 3 3 5 5", "lengths": "2 0 3", "out": "2 1 2", "count": "3"},
            "flags": {"a": "true true true", "lengths": "1 2", "out": "1 2", "count": "2"},
        }[kind],
    ),
    *twins(
        ("seg_run_starts_int", "seg_run_starts_bool"),
        "runs of equal neighbours",
        lambda kind: (any_items(kind, "a"), lengths(), room("ints", "room"), told()),
        "The place where each run of equal neighbours of each segment begins, in order, one segment after another, and how many they are. Places count from the "
        "start of a.",
        limit=None,
        faults=(SUM_OR_NO_ROOM,),
        cut=("run_starts", "n"),
        shape="a has n elements.",
        told=PACKED,
        example=lambda kind: {
            "ints": {"a": "3 3 3 5 5", "lengths": "2 0 3", "out": "0 2 3", "count": "3"},
            "flags": {"a": "true true true", "lengths": "1 2", "out": "0 1", "count": "2"},
        }[kind],
    ),
    *twins(
        ("seg_run_counts_int", "seg_run_counts_bool"),
        "runs of equal neighbours",
        lambda kind: (any_items(kind, "a"), lengths(), room("ints", "segments", use="lengths")),
        "The number of runs of equal neighbours of each segment: the lengths of the segments of what the other calls give.",
        limit=None,
        faults=(SUM_OF_N,),
        cut=("run_counts", "n"),
        shape="a has n elements, out one for each segment.",
        example=lambda kind: {
            "ints": {"a": "3 3 3 5 5", "lengths": "2 0 3", "out": "1 0 2"},
            "flags": {"a": "true true true", "lengths": "1 2", "out": "1 1"},
        }[kind],
    ),
    # ---- slices and merges ----
    *twins(
        ("gather_segments_int", "gather_segments_bool"),
        "slices and merges",
        lambda kind: (items(kind, "source"), ints("starts", "segments", "starts"), lengths(extent="total"), room(kind, "total")),
        "For each segment the elements of the source from the place `starts` on, as many as the segment is long. Slices may overlap, come in any order and be "
        "empty; an empty one may start where the source ends.",
        limit="segments",
        faults=(BAD_SLICE,),
        cut=("segments", "total"),
        over_ranks=OverRanks(
            "gather",
            "each rank asks the owners of the source for the runs of its slices; a start stands where its segment starts",
        ),
        shape="There is one start for each segment; out has the total of the lengths.",
        example=lambda kind: {
            "ints": {"source": "10 20 30 40", "starts": "2 4 1", "lengths": "2 0 3", "out": "30 40 20 30 40"},
            "flags": {"source": "true false false", "starts": "1 0", "lengths": "1 2", "out": "false true false"},
        }[kind],
    ),
    *twins(
        ("append_segments_int", "append_segments_bool"),
        "slices and merges",
        lambda kind: (items(kind, "a"), items(kind, "b", "m"), lengths(), lengths("other_lengths", "m"), room(kind, "both")),
        "The segments of a, each followed by the segment of b that has its number.",
        limit=None,
        faults=(SUMS_OF_BOTH,),
        cut=("segments", "n"),
        over_ranks=OverRanks("append", "pieces go to the ranks of their places; out may be spread in any way"),
        shape="a has n elements in segments with the lengths, b has m in as many segments with the other lengths, and out "
        "n + m.",
        example=lambda kind: {
            "ints": {"a": "1 2 3", "b": "7 8 9", "lengths": "2 0 1", "other_lengths": "1 2 0", "out": "1 2 7 8 9 3"},
            "flags": {"a": "true true", "b": "false", "lengths": "1 1", "other_lengths": "1 0", "out": "true false true"},
        }[kind],
    ),
    *twins(
        ("merge_by_flags_int", "merge_by_flags_bool"),
        "slices and merges",
        lambda kind: (copied_mask(), items(kind, "when_true", "trues"), items(kind, "when_false", "falses"), room(kind)),
        "At each place the next element of when_true if the flag is true, and of when_false if it is false: the inverse of two packs.",
        faults=(TOO_LONG, NO_SIDES),
        cut=("merge", "n"),
        shape="flags and out have n elements, when_true as many as there are true flags, and when_false the others.",
        example=lambda kind: {
            "ints": {"flags": "true false false true", "when_true": "1 2", "when_false": "7 8", "out": "1 7 8 2"},
            "flags": {"flags": "false true true", "when_true": "true false", "when_false": "true", "out": "true true false"},
        }[kind],
    ),
    *twins(
        ("seg_merge_by_flags_int", "seg_merge_by_flags_bool"),
        "slices and merges",
        lambda kind: (
            copied_mask(),
            items(kind, "when_true", "trues"),
            items(kind, "when_false", "falses"),
            lengths(),
            lengths("true_lengths", "trues", "true_lengths"),
            lengths("false_lengths", "falses", "false_lengths"),
            room(kind),
        ),
        "At each place the next element of the same segment of when_true if the flag is true, and of when_false if it is false: the inverse of two packs of "
        "segments.",
        limit=None,
        faults=(SUMS_OF_SIDES, MISCOUNT),
        cut=("segments", "n"),
        over_ranks=SPREAD_SIDES._replace(way="seg_merge"),
        shape="flags and out have n elements in segments with the lengths; when_true and when_false are in as many segments with the true lengths and the "
        "false lengths.",
        example=lambda kind: {
            "ints": {
                "flags": "true false false true true",
                "when_true": "1 2 3",
                "when_false": "7 8",
                "lengths": "2 0 3",
                "true_lengths": "1 0 2",
                "false_lengths": "1 0 1",
                "out": "1 7 8 2 3",
            },
            "flags": {
                "flags": "false true true",
                "when_true": "true false",
                "when_false": "true",
                "lengths": "2 1",
                "true_lengths": "1 1",
                "false_lengths": "1 0",
                "out": "true true false",
            },
        }[kind],
    ),
    family(
        "first_true",
        "slices and merges",
        (mask(), single("int")),
        "The place of the first true flag, or -1 if none is true.",
        over_ranks=OverRanks("first_true", "the first of the ranks' places", named=True),
        example={"flags": "false false true true", "out": "2"},
    ),
    family(
        "seg_first_true",
        "slices and merges",
        (mask(), lengths(), room("ints", "segments")),
        "For each segment the place of its first true flag, counted from its start, or -1 if none is true.",
        limit=None,
        faults=(SUM_OF_N,),
        cut=("segments", "n"),
        over_ranks=OverRanks("seg_first_true", JOINED_AT_START),
        shape="flags has n elements, out one for each segment.",
        example={"flags": "false true false false true", "lengths": "2 1 0 2", "out": "1 -1 -1 1"},
    ),
    family(
        "seg_exact_sums",
        "slices and merges",
        (ints("a"), lengths(), room("sums", "segments")),
        "The sum of each segment in 64 bits, which always fits.",
        limit=None,
        faults=(SUM_OF_N,),
        cut=("segments", "n"),
        over_ranks=OverRanks("seg_exact_sums", "the pieces of a segment are added where it starts"),
        shape="a has n elements, out one for each segment.",
        example={"a": "2147483647 1 5", "lengths": "2 0 1", "out": "2147483648 0 5"},
    ),
    # ---- transposes, and integers of a byte ----
    *twins(
        ("transpose_int", "transpose_bool"),
        "transposes, and integers of a byte",
        lambda kind: (items(kind, "source"), *shape(), room(kind)),
        "The transpose of a matrix whose rows lie one behind another: element r of row c of the result is element c of row r.",
        faults=(TOO_LONG, NO_MATRIX),
        cut=("turns", "n"),
        shape="source and out have n elements.",
        example=lambda kind: {
            "ints": {"source": "1 2 3 4 5 6", "rows": "2", "columns": "3", "out": "1 4 2 5 3 6"},
            "flags": {
                "source": "true false false true true true",
                "rows": "3",
                "columns": "2",
                "out": "true false true false true true",
            },
        }[kind],
    ),
    family(
        "ints_from_bytes",
        "transposes, and integers of a byte",
        (numbers("bytes"), room("ints")),
        "Each byte as an integer from 0 to 255.",
        cut=("places", "n"),
        shape="bytes and out have n elements.",
        example={"bytes": "67 86 255", "out": "67 86 255"},
    ),
    family(
        "bytes_from_ints",
        "transposes, and integers of a byte",
        (ints("a"), room("bytes")),
        "Each integer as a byte.",
        faults=(TOO_LONG, NO_BYTE),
        cut=("places", "n"),
        shape=SHAPE_ONE,
        example={"a": "67 86 255", "out": "67 86 255"},
    ),
    # ---- texts ----
    family(
        "read_ints",
        "texts",
        (text("text"), room("ints", "room"), told()),
        "The integers of a text, between white space (space, tab, line feed, carriage return), each an optional minus sign and at least one digit, inside 32 "
        "bits.",
        limit=None,
        faults=(
            Fault(
                (13,),
                f"13 TooLong, without a place, if there are more than {MOST_ELEMENTS} words between white space, whatever they are",
                False,
            ),
            Fault((15,), "else 15 BadInput at the first word that is no such integer", False),
        ),
        general="read",
        asks=True,
        cut=("read", "n"),
        example={"text": '"5 -1\\n007 -0"', "out": "5 -1 7 0", "count": "4"},
    ),
    family(
        "write_ints",
        "texts",
        (ints("a"), room("text", "room"), told()),
        "The text of a vector of integers: in decimal, a space between each two, in brackets.",
        general="write",
        asks=True,
        cut=("write", "n"),
        example={"a": "0 -3 4", "out": '"[0 -3 4]"', "count": "8"},
    ),
    family(
        "write_bools",
        "texts",
        (copied("a"), room("text", "room"), told()),
        "The text of a vector of booleans: each T or F, a space between each two, in brackets.",
        general="write",
        asks=True,
        cut=("write", "n"),
        example={"a": "true false", "out": '"[T F]"', "count": "5"},
    ),
    family(
        "seg_read_ints",
        "texts",
        (text("text"), room("ints", "room"), told(), room("ints", "lengths_room", "lengths", "lengths"), told("segments")),
        'The integers and the lengths of the lists of a nested text: "[", any number of lists, "]"; a list is "[", integers as in cvl_read_ints, "]".',
        told="If one of the two buffers is too short, both stay as they were, and both counts are the lengths that you need.",
        limit=None,
        faults=(
            Fault(
                (13,),
                f"13 TooLong, without a place, if there are more than {MOST_OF_TEXT} words other than brackets or more than {MOST_OF_TEXT + 1} "
                '"[", whatever they are',
                False,
            ),
            Fault(
                (15,),
                "else 15 BadInput at the first word or bracket that cannot stand there, or, if the text ends too early, at the number of "
                "its words and brackets",
                False,
            ),
        ),
        general="seg_read",
        asks=True,
        cut=("whole", None),
        over_ranks=NO_TEXTS,
        example={"text": '"[[1 2] [] [3]]"', "out": "1 2 3", "count": "3", "lengths": "2 0 1", "segments": "3"},
    ),
    family(
        "seg_write_ints",
        "texts",
        (ints("a"), lengths(), room("text", "room"), told()),
        "The texts of the segments of a vector of integers, a space between each two, in brackets.",
        limit=None,
        faults=(
            Fault((13, 12), "by the lengths those of each call on segments, 13 TooLong, 12 NegativeLength, 13 TooLong", False),
            Fault((7,), "7 LengthMismatch if the lengths do not add up to the vector's", False),
        ),
        general="seg_write",
        asks=True,
        cut=("seg_write", "n"),
        example={"a": "5 1 7", "lengths": "0 2 1", "out": '"[[] [5 1] [7]]"', "count": "14"},
    ),
    family(
        "seg_write_bools",
        "texts",
        (copied("a"), lengths(), room("text", "room"), told()),
        "The same of booleans, each T or F.",
        limit=None,
        faults=(),
        general="seg_write",
        asks=True,
        cut=("seg_write", "n"),
        example={"a": "true false", "lengths": "1 1", "out": '"[[T] [F]]"', "count": "9"},
    ),
    # ---- scans in parts ----
    *twins(
        ("int_scan_after", "bool_scan_after"),
        "scans in parts, by threads of the caller's",
        lambda kind: (value("before", one(kind)), items(kind, "a"), room(kind)),
        lambda kind: f"For each {word(kind)} `before`, joined by the operator, of {first_to_last(joining(kind))}, with those in front of it.",
        over_ranks=NO_PARTS,
        operators=joining,
        in_place=(("a",),),
        shape=SHAPE_ONE,
        example=lambda kind: {
            "ints": {"op": "ADD", "before": "10", "a": "3 1 4", "out": "10 13 14"},
            "flags": {"op": "IOR", "before": "false", "a": "false true false", "out": "false false true"},
        }[kind],
    ),
    # ---- calls in parts ----
    family(
        "exact_sum",
        "calls in parts",
        (ints("a"), single("sum")),
        "The sum of the integers in 64 bits, which always fits.",
        over_ranks=NO_PARTS,
        example={"a": "2147483647 1", "out": "2147483648"},
    ),
    family(
        "checked_scan_after",
        "calls in parts",
        (value("before", "sum"), ints("a"), room("ints")),
        "A part of cvl_checked_scan after the exact sum `before` of the parts in front of it. The place of a fault counts from the start of the part.",
        over_ranks=NO_PARTS,
        faults=(TOO_LONG, OVERFLOW_AT_PLACE),
        example={"before": "10", "a": "3 1 4", "out": "10 13 14"},
    ),
    family(
        "permute_int_range",
        "calls in parts",
        (ints("source"), indices(), lowest(), room("ints", "range"), room("marks", "marks", "marks"), told("written")),
        "One range of the result of smp_puz, its out_len places from place `lowest` on: each element whose index is one of them is written there, the last "
        "if there are several. marks are (out_len + 31) / 32 words, whatever they hold before: bit b of word w, of the value 1 << b, is set if place 32 * w + b "
        "of the range is written, and written is how many bits are set. Each part has another range, its own marks, and all of source and index. If all parts "
        "together wrote index_len places, the ranges are the permute; else an index is out of range or repeated: cvl_permute_int reports which. Other places "
        "stay as they were, so over ranges that hold the defaults the parts are def_puz.",
        general="permute_range",
        over_ranks=NO_PARTS,
        faults=RANGE_FAULTS,
        example={"source": "5 6 7", "index": "2 0 1", "lowest": "1", "out_len": "2", "out": "7 5", "marks": "3", "written": "2"},
    ),
    family(
        "permute_bool_range",
        "calls in parts",
        (copied("source"), indices(), lowest(), room("flags", "range"), room("marks", "marks", "marks"), told("written")),
        "The same of booleans: smp_pub, and def_pub over ranges that hold the defaults before, each 0 or 1.",
        general="permute_range",
        over_ranks=NO_PARTS,
        faults=(),
        example={
            "source": "true false true",
            "index": "2 0 1",
            "lowest": "1",
            "out_len": "2",
            "out": "true true",
            "marks": "3",
            "written": "2",
        },
    ),
    family(
        "select_permute_int_range",
        "calls in parts",
        (
            ints("source"),
            indices(),
            copied_mask(),
            lowest(),
            room("ints", "range"),
            room("marks", "marks", "marks"),
            told("written"),
        ),
        "One range of the result of sel_puz, the same way, of the elements whose flag is true. If the result has as many places as there are true flags, and all "
        "parts together wrote as many, the ranges are the permute.",
        general="select_permute_range",
        over_ranks=NO_PARTS,
        faults=(
            Fault((13, 7), "those of cvl_permute_int_range; 7 LengthMismatch also if index and flags differ in length", False),
        ),
        example={
            "source": "5 6 7",
            "index": "1 9 0",
            "flags": "true false true",
            "lowest": "0",
            "out_len": "1",
            "out": "7",
            "marks": "1",
            "written": "1",
        },
    ),
    family(
        "select_permute_bool_range",
        "calls in parts",
        (
            copied("source"),
            indices(),
            copied_mask(),
            lowest(),
            room("flags", "range"),
            room("marks", "marks", "marks"),
            told("written"),
        ),
        "The same of booleans: sel_pub.",
        general="select_permute_range",
        over_ranks=NO_PARTS,
        faults=(),
        example={
            "source": "true false false",
            "index": "1 9 0",
            "flags": "true false true",
            "lowest": "0",
            "out_len": "1",
            "out": "false",
            "marks": "1",
            "written": "1",
        },
    ),
    family(
        "first_senders_range",
        "calls in parts",
        (indices(), lowest(), room("ints", "range"), told("named")),
        "One range of the first senders, its out_len places from place `lowest` on: for each the least place whose index names it, or -1. named is how "
        "many indices name a place of the range. Each part has another range and all of index. If all parts together named index_len, the ranges are the first "
        "senders; else an index is out of range: cvl_first_senders reports which.",
        over_ranks=NO_PARTS,
        faults=(Fault((13,), f"13 TooLong, by the index, and if the range ends behind place {MOST_ELEMENTS}", False),),
        example={"index": "2 0 2 3", "lowest": "1", "out_len": "2", "out": "-1 0", "named": "2"},
    ),
    family(
        "select_first_senders_range",
        "calls in parts",
        (indices(), copied_mask(), lowest(), room("ints", "range"), told("named")),
        "The same among the places whose flag is true: if all parts together named as many as flags are true, the ranges are the first senders.",
        over_ranks=NO_PARTS,
        faults=(Fault((13, 7), "those of cvl_first_senders_range; 7 LengthMismatch if index and flags differ in length", False),),
        example={
            "index": "2 0 2 9",
            "flags": "false true true false",
            "lowest": "1",
            "out_len": "2",
            "out": "-1 2",
            "named": "1",
        },
    ),
    *twins(
        ("combine_permute_int_range", "combine_permute_bool_range"),
        "calls in parts",
        lambda kind: (items(kind, "source"), indices(), lowest(), over(kind, "range"), told("named")),
        lambda kind: f"One range of a combining permute of {word(kind)}s, by the operator, of {first_to_last(joining(kind))}: the out_len places from place "
        "`lowest` on, each joined with the elements whose index names it. named is how many indices name a place of the range. Each part has another range, and "
        "all of source and index. If all parts together named index_len, the ranges are the combining permute; else an index is out of range: "
        f"cvl_combine_permute_{one(kind).replace('flag', 'bool')} reports which.",
        over_ranks=NO_PARTS,
        operators=joining,
        faults=COMBINE_RANGE_FAULTS,
        example=lambda kind: {
            "ints": {
                "op": "ADD",
                "source": "5 6 7 8",
                "index": "2 0 2 1",
                "lowest": "1",
                "out_len": "2",
                "out_before": "200 300",
                "out": "208 312",
                "named": "3",
            },
            "flags": {
                "op": "XOR",
                "source": "true true true",
                "index": "2 0 2",
                "lowest": "2",
                "out_len": "1",
                "out_before": "true",
                "out": "true",
                "named": "2",
            },
        }[kind],
    ),
    family(
        "combine_exact_sums_range",
        "calls in parts",
        (ints("source"), indices(), lowest(), over("sums", "range"), told("named")),
        "One range of exact sums by place: the out_len sums from place `lowest` on, each plus the integers whose index names it. named is how many indices name a "
        "place of the range. Each part has another range, and all of source and index. If all parts together named index_len, the ranges are those of "
        "cvl_combine_exact_sums; else an index is out of range, which that call reports. The place of a fault counts from the start of the whole result.",
        over_ranks=NO_PARTS,
        faults=(COMBINE_RANGE_FAULTS[0], GREAT_SUM, *COMBINE_RANGE_FAULTS[1:]),
        example={
            "source": "5 6 7 8",
            "index": "2 0 2 1",
            "lowest": "1",
            "out_len": "2",
            "out_before": "200 300",
            "out": "208 312",
            "named": "3",
        },
    ),
    family(
        "counts_range",
        "calls in parts",
        (indices(), lowest(), room("ints", "range"), told("named")),
        "One range of the counts by place: how many indices name each of the out_len places from place `lowest` on, and as named how many name one of them.",
        over_ranks=NO_PARTS,
        faults=(COMBINE_RANGE_FAULTS[0],),
        example={"index": "2 0 2 3", "lowest": "1", "out_len": "2", "out": "0 2", "named": "2"},
    ),
    *twins(
        ("transpose_int_range", "transpose_bool_range"),
        "calls in parts",
        lambda kind: (items(kind, "source"), *shape(), lowest(), room(kind, "m")),
        "One range of a transpose: its places from place `lowest` on, as many as out has. Each part has another range, and all of source. The ranges, one "
        "after another, are the transpose.",
        over_ranks=NO_PARTS,
        faults=RANGE_OF_MATRIX_FAULTS,
        example=lambda kind: {
            "ints": {"source": "1 2 3 4 5 6", "rows": "2", "columns": "3", "lowest": "1", "out": "4 2 5"},
            "flags": {
                "source": "true false false true true true",
                "rows": "3",
                "columns": "2",
                "lowest": "2",
                "out": "true false",
            },
        }[kind],
    ),
    family(
        "read_ints_after",
        "calls in parts",
        (value("before", "size"), text("text"), room("ints", "room"), told()),
        "The integers of one piece of a text that is cut at white space, as cvl_read_ints reads them. `before` is how many words the pieces before it have; a "
        "fault's place is that in the whole text.",
        limit=None,
        over_ranks=NO_PARTS,
        faults=(
            Fault(
                (13,),
                f"13 TooLong, without a place, if `before` is more than {MOST_ELEMENTS}, or the piece itself has more words than that",
                False,
            ),
            Fault(
                (15,),
                "else 15 BadInput at the first word of the piece that is no integer. You must check that all pieces together have at most "
                f"{MOST_ELEMENTS} words",
                False,
            ),
        ),
        general="read_after",
        asks=True,
        example={"before": "3", "text": '"9 10"', "out": "9 10", "count": "2"},
    ),
    # ---- sparse products ----
    family(
        "sparse_product",
        "sparse products",
        (lengths(), ints("columns", use="columns"), ints("values"), ints("x", "m"), room("ints", "segments")),
        "The product of a sparse matrix with the vector x: for each row the sum of its values, each times the element of x at its column, wrapped to 32 bits; 0 "
        "for a row without entries.",
        faults=(TOO_LONG, SUM_OF_ENTRIES, BAD_COLUMN),
        asks=True,
        cut=("segments", "n"),
        over_ranks=ASKED_COLUMNS,
        shape="lengths are those of the rows, columns and values have n elements, one for each entry, row after row; x has m, which may be any number; out has "
        "one for each row.",
        example={"lengths": "2 0 2", "columns": "0 2 1 2", "values": "2 1 3 4", "x": "1 2 3", "out": "5 0 18"},
    ),
    family(
        "checked_sparse_product",
        "sparse products",
        (lengths(), ints("columns", use="columns"), ints("values"), ints("x", "m"), room("ints", "segments")),
        "The same product, in which nothing wraps: each row is added up in whole numbers.",
        faults=(TOO_LONG, SUM_OF_ENTRIES, BAD_COLUMN, OVERFLOW_AT_ROW),
        asks=True,
        cut=("segments", "n"),
        over_ranks=ASKED_COLUMNS,
        shape="lengths, columns, values, x and out are those of cvl_sparse_product.",
        example={"lengths": "2 1", "columns": "0 1 0", "values": "2147483647 -1 3", "x": "2 2147483647", "out": "2147483647 6"},
    ),
    family(
        "sparse_product_by_offsets",
        "sparse products",
        (offsets(), ints("columns", use="columns"), ints("values"), ints("x", "m"), room("ints", "segments")),
        "cvl_sparse_product of rows that come by their offsets.",
        faults=(TOO_MANY, BAD_OFFSETS, LAST_OFFSET, BAD_COLUMN),
        asks=True,
        cut=("rows", "n"),
        by_lengths="sparse_product",
        shape="offsets are one more than rows, the first is 0 and the last n; columns, values, x and out are those of cvl_sparse_product.",
        example={"offsets": "0 2 2 4", "columns": "0 2 1 2", "values": "2 1 3 4", "x": "1 2 3", "out": "5 0 18"},
    ),
    family(
        "checked_sparse_product_by_offsets",
        "sparse products",
        (offsets(), ints("columns", use="columns"), ints("values"), ints("x", "m"), room("ints", "segments")),
        "cvl_checked_sparse_product of rows that come by their offsets.",
        faults=(TOO_MANY, BAD_OFFSETS, LAST_OFFSET, BAD_COLUMN, OVERFLOW_AT_ROW),
        asks=True,
        cut=("rows", "n"),
        by_lengths="checked_sparse_product",
        shape="offsets, columns, values, x and out are those of cvl_sparse_product_by_offsets.",
        example={"offsets": "0 2 3", "columns": "0 1 0", "values": "2147483647 -1 3", "x": "2 2147483647", "out": "2147483647 6"},
    ),
)

CALLS = (
    # ---- place by place ----
    Call(
        "add_wuz",
        "place by place",
        "int2",
        "ADD",
        "The wrapped sums.",
        {"a": "12 -7 2147483647", "b": "10 2 1", "out": "22 -5 -2147483648"},
    ),
    Call(
        "mul_wuz",
        "place by place",
        "int2",
        "MUL",
        "The wrapped products.",
        {"a": "12 -7 2147483647", "b": "10 2 1", "out": "120 -14 2147483647"},
    ),
    Call(
        "min_wuz",
        "place by place",
        "int2",
        "MIN",
        "The lesser of each two.",
        {"a": "12 -7 2147483647", "b": "10 2 1", "out": "10 -7 1"},
    ),
    Call(
        "max_wuz",
        "place by place",
        "int2",
        "MAX",
        "The greater of each two.",
        {"a": "12 -7 2147483647", "b": "10 2 1", "out": "12 2 2147483647"},
    ),
    Call(
        "and_wuz", "place by place", "int2", "AND", "And, bit by bit.", {"a": "12 -7 2147483647", "b": "10 2 1", "out": "8 0 1"}
    ),
    Call(
        "ior_wuz",
        "place by place",
        "int2",
        "IOR",
        "Or, bit by bit.",
        {"a": "12 -7 2147483647", "b": "10 2 1", "out": "14 -5 2147483647"},
    ),
    Call(
        "xor_wuz",
        "place by place",
        "int2",
        "XOR",
        "Exclusive or, bit by bit.",
        {"a": "12 -7 2147483647", "b": "10 2 1", "out": "6 -5 2147483646"},
    ),
    Call(
        "sub_wuz",
        "place by place",
        "int2",
        "SUB",
        "The wrapped differences.",
        {"a": "12 -7 2147483647", "b": "10 2 1", "out": "2 -9 2147483646"},
    ),
    Call(
        "div_wuz",
        "place by place",
        "int2",
        "DIV",
        "The quotients, truncated toward zero; -2147483648 by -1 is -2147483648.",
        {"a": "7 -7 -2147483648", "b": "2 2 -1", "out": "3 -3 -2147483648"},
    ),
    Call(
        "mod_wuz",
        "place by place",
        "int2",
        "MOD",
        "The remainders of the quotients, with the dividends' signs.",
        {"a": "7 -7 -2147483648", "b": "2 2 -1", "out": "1 -1 0"},
    ),
    Call(
        "lsh_wuz",
        "place by place",
        "int2",
        "LSH",
        "The elements of a, shifted left by those of b.",
        {"a": "1 -7 3", "b": "4 1 31", "out": "16 -14 -2147483648"},
    ),
    Call(
        "rsh_wuz",
        "place by place",
        "int2",
        "RSH",
        "The elements of a, shifted right by those of b, with their signs.",
        {"a": "1 -7 3", "b": "4 1 31", "out": "0 -4 0"},
    ),
    Call("not_wuz", "place by place", "int1", "NOT", "Each bit inverted.", {"a": "0 5 -1", "out": "-1 -6 0"}),
    Call("not_wub", "place by place", "bool1", "NOT", "Each boolean inverted.", {"a": "false true", "out": "true false"}),
    Call("cpy_wuz", "place by place", "int1", "CPY", "Each integer copied.", {"a": "3 1", "out": "3 1"}),
    Call("cpy_wub", "place by place", "bool1", "CPY", "Each boolean copied.", {"a": "true false", "out": "true false"}),
    Call(
        "grt_wuz",
        "place by place",
        "compare",
        "GRT",
        "True if a is greater.",
        {"a": "1 2 3", "b": "2 2 2", "out": "false false true"},
    ),
    Call(
        "les_wuz",
        "place by place",
        "compare",
        "LES",
        "True if a is less.",
        {"a": "1 2 3", "b": "2 2 2", "out": "true false false"},
    ),
    Call(
        "geq_wuz",
        "place by place",
        "compare",
        "GEQ",
        "True if a is greater, or they are equal.",
        {"a": "1 2 3", "b": "2 2 2", "out": "false true true"},
    ),
    Call(
        "leq_wuz",
        "place by place",
        "compare",
        "LEQ",
        "True if a is less, or they are equal.",
        {"a": "1 2 3", "b": "2 2 2", "out": "true true false"},
    ),
    Call(
        "eql_wuz",
        "place by place",
        "compare",
        "EQL",
        "True if they are equal.",
        {"a": "1 2 3", "b": "2 2 2", "out": "false true false"},
    ),
    Call(
        "neq_wuz",
        "place by place",
        "compare",
        "NEQ",
        "True if they are not equal.",
        {"a": "1 2 3", "b": "2 2 2", "out": "true false true"},
    ),
    Call(
        "and_wub",
        "place by place",
        "bool2",
        "AND",
        "Whether both are true.",
        {"a": "true true false false", "b": "true false true false", "out": "true false false false"},
    ),
    Call(
        "ior_wub",
        "place by place",
        "bool2",
        "IOR",
        "Whether at least one is true.",
        {"a": "true true false false", "b": "true false true false", "out": "true true true false"},
    ),
    Call(
        "xor_wub",
        "place by place",
        "bool2",
        "XOR",
        "Whether exactly one is true.",
        {"a": "true true false false", "b": "true false true false", "out": "false true true false"},
    ),
    Call(
        "sel_wuz",
        "place by place",
        "select_int",
        None,
        "The element of a if the flag is true, else that of b.",
        {"flags": "true false false", "a": "5 0 5", "b": "1 1 1", "out": "5 1 1"},
    ),
    Call(
        "sel_wub",
        "place by place",
        "select_bool",
        None,
        "The element of a if the flag is true, else that of b.",
        {"flags": "true false", "a": "true true", "b": "false false", "out": "true false"},
    ),
    Call(
        "int_wub",
        "place by place",
        "int_from_bool",
        None,
        "1 for true and 0 for false.",
        {"a": "false true true", "out": "0 1 1"},
    ),
    Call(
        "boo_wuz",
        "place by place",
        "bool_from_int",
        None,
        "True if the integer is not 0.",
        {"a": "0 -3 7", "out": "false true true"},
    ),
    # ---- scans and reduces ----
    Call(
        "add_suz",
        "scans and reduces",
        "int_scan",
        "ADD",
        "For each integer the sum of those before it, wrapped; 0 at place 0.",
        {"a": "3 1 4", "out": "0 3 4"},
    ),
    Call(
        "add_ruz",
        "scans and reduces",
        "int_reduce",
        "ADD",
        "The sum of the n integers, wrapped; 0 if there are none.",
        {"a": "3 1 4", "out": "8"},
    ),
    Call(
        "mul_suz",
        "scans and reduces",
        "int_scan",
        "MUL",
        "For each integer the product of those before it, wrapped; 1 at place 0.",
        {"a": "3 1 4", "out": "1 3 3"},
    ),
    Call(
        "mul_ruz",
        "scans and reduces",
        "int_reduce",
        "MUL",
        "The product of the n integers, wrapped; 1 if there are none.",
        {"a": "3 1 4", "out": "12"},
    ),
    Call(
        "min_suz",
        "scans and reduces",
        "int_scan",
        "MIN",
        "For each integer the least of those before it; 2147483647 at place 0.",
        {"a": "3 1 4", "out": "2147483647 3 1"},
    ),
    Call(
        "min_ruz",
        "scans and reduces",
        "int_reduce",
        "MIN",
        "The least of the n integers; 2147483647 if there are none.",
        {"a": "3 1 4", "out": "1"},
    ),
    Call(
        "max_suz",
        "scans and reduces",
        "int_scan",
        "MAX",
        "For each integer the greatest of those before it; -2147483648 at place 0.",
        {"a": "3 1 4", "out": "-2147483648 3 3"},
    ),
    Call(
        "max_ruz",
        "scans and reduces",
        "int_reduce",
        "MAX",
        "The greatest of the n integers; -2147483648 if there are none.",
        {"a": "3 1 4", "out": "4"},
    ),
    Call(
        "and_suz",
        "scans and reduces",
        "int_scan",
        "AND",
        "For each integer those before it joined by and, bit by bit; -1 at place 0.",
        {"a": "3 1 4", "out": "-1 3 1"},
    ),
    Call(
        "and_ruz",
        "scans and reduces",
        "int_reduce",
        "AND",
        "The n integers joined by and, bit by bit; -1 if there are none.",
        {"a": "3 1 4", "out": "0"},
    ),
    Call(
        "ior_suz",
        "scans and reduces",
        "int_scan",
        "IOR",
        "For each integer those before it joined by or, bit by bit; 0 at place 0.",
        {"a": "3 1 4", "out": "0 3 3"},
    ),
    Call(
        "ior_ruz",
        "scans and reduces",
        "int_reduce",
        "IOR",
        "The n integers joined by or, bit by bit; 0 if there are none.",
        {"a": "3 1 4", "out": "7"},
    ),
    Call(
        "xor_suz",
        "scans and reduces",
        "int_scan",
        "XOR",
        "For each integer those before it joined by exclusive or, bit by bit; 0 at place 0.",
        {"a": "3 1 4", "out": "0 3 2"},
    ),
    Call(
        "xor_ruz",
        "scans and reduces",
        "int_reduce",
        "XOR",
        "The n integers joined by exclusive or, bit by bit; 0 if there are none.",
        {"a": "3 1 4", "out": "6"},
    ),
    Call(
        "and_sub",
        "scans and reduces",
        "bool_scan",
        "AND",
        "For each boolean whether all those before it are true; true at place 0.",
        {"a": "true false true", "out": "true true false"},
    ),
    Call(
        "and_rub",
        "scans and reduces",
        "bool_reduce",
        "AND",
        "Whether all n booleans are true; true if there are none.",
        {"a": "true false true", "out": "false"},
    ),
    Call(
        "ior_sub",
        "scans and reduces",
        "bool_scan",
        "IOR",
        "For each boolean whether any of those before it is true; false at place 0.",
        {"a": "true false true", "out": "false true true"},
    ),
    Call(
        "ior_rub",
        "scans and reduces",
        "bool_reduce",
        "IOR",
        "Whether any of the n booleans is true; false if there are none.",
        {"a": "true false true", "out": "true"},
    ),
    Call(
        "xor_sub",
        "scans and reduces",
        "bool_scan",
        "XOR",
        "For each boolean whether an odd number of those before it is true; false at place 0.",
        {"a": "true false true", "out": "false true true"},
    ),
    Call(
        "xor_rub",
        "scans and reduces",
        "bool_reduce",
        "XOR",
        "Whether an odd number of the n booleans is true; false if there are none.",
        {"a": "true false true", "out": "false"},
    ),
    # ---- sums that never wrap ----
    Call(
        "tot_suz",
        "sums that never wrap",
        "checked_scan",
        None,
        "For each integer the sum of those before it.",
        {"a": "3 1 4", "out": "0 3 4"},
    ),
    Call("tot_ruz", "sums that never wrap", "checked_reduce", None, "The sum of the n integers.", {"a": "3 1 4", "out": "8"}),
    # ---- counts, single elements, and vectors of a given length ----
    Call(
        "cnt_lub",
        "counts, single elements, and vectors of a given length",
        "count",
        None,
        "The number of true flags, of n.",
        {"flags": "false true true false true", "out": "3"},
    ),
    Call(
        "ext_vuz",
        "counts, single elements, and vectors of a given length",
        "extract_int",
        None,
        "The element of n at the index.",
        {"vector": "4 5 6", "index": "2", "out": "6"},
    ),
    Call(
        "ext_vub",
        "counts, single elements, and vectors of a given length",
        "extract_bool",
        None,
        "The element of n at the index.",
        {"vector": "true true false", "index": "0", "out": "true"},
    ),
    Call(
        "rep_vuz",
        "counts, single elements, and vectors of a given length",
        "replace_int",
        None,
        "The vector with the value at the index.",
        {"vector": "1 2 3", "index": "1", "value": "9", "out": "1 9 3"},
    ),
    Call(
        "rep_vub",
        "counts, single elements, and vectors of a given length",
        "replace_bool",
        None,
        "The vector with the value at the index.",
        {"vector": "true true true", "index": "2", "value": "false", "out": "true true false"},
    ),
    Call(
        "dis_vuz",
        "counts, single elements, and vectors of a given length",
        "distribute_int",
        None,
        "count copies of the value; out has count elements.",
        {"value": "7", "count": "3", "out": "7 7 7"},
    ),
    Call(
        "dis_vub",
        "counts, single elements, and vectors of a given length",
        "distribute_bool",
        None,
        "count copies of the value; out has count elements.",
        {"value": "true", "count": "2", "out": "true true"},
    ),
    Call(
        "ind_luz",
        "counts, single elements, and vectors of a given length",
        "index",
        None,
        "The numbers init + k * stride, wrapped, for k from 0 to count - 1; out has count elements.",
        {"init": "10", "stride": "-2", "count": "3", "out": "10 8 6"},
    ),
    # ---- segments ----
    Call(
        "mke_fov",
        "segments",
        "make_descriptor",
        None,
        "Whether the numbers are the lengths of segments, and how many elements these have in all.",
        {"lengths": "2 0 3", "total": "5"},
    ),
    Call(
        "tot_sez",
        "segments",
        "seg_checked_scan",
        None,
        "For each integer the sum of those before it in its segment.",
        {"a": "3 1 4 1 5", "lengths": "2 0 3", "out": "0 3 0 4 5"},
    ),
    Call(
        "tot_rez",
        "segments",
        "seg_checked_reduce",
        None,
        "The sum of each segment.",
        {"a": "3 1 4 1 5", "lengths": "2 0 3", "out": "4 0 10"},
    ),
    Call(
        "ext_vez",
        "segments",
        "seg_extract_int",
        None,
        "The element of each segment at its index, which counts from the segment's start.",
        {"vector": "1 2 3 4 5", "index": "1 2", "lengths": "2 3", "out": "2 5"},
    ),
    Call(
        "ext_veb",
        "segments",
        "seg_extract_bool",
        None,
        "The element of each segment at its index, which counts from the segment's start.",
        {"vector": "true true false", "index": "0 1", "lengths": "1 2", "out": "true false"},
    ),
    Call(
        "rep_vez",
        "segments",
        "seg_replace_int",
        None,
        "The vector with the value of each segment at its index, which counts from the segment's start.",
        {"vector": "1 2 3 4 5", "index": "0 1", "values": "8 9", "lengths": "2 3", "out": "8 2 3 9 5"},
    ),
    Call(
        "rep_veb",
        "segments",
        "seg_replace_bool",
        None,
        "The vector with the value of each segment at its index, which counts from the segment's start.",
        {"vector": "true true false", "index": "0 1", "values": "false true", "lengths": "1 2", "out": "false true true"},
    ),
    Call(
        "dis_vez",
        "segments",
        "seg_distribute_int",
        None,
        "Copies of each value, as many as its segment has places.",
        {"values": "7 8 9", "lengths": "2 0 3", "out": "7 7 9 9 9"},
    ),
    Call(
        "dis_veb",
        "segments",
        "seg_distribute_bool",
        None,
        "Copies of each value, as many as its segment has places.",
        {"values": "true false", "lengths": "1 2", "out": "true false false"},
    ),
    Call(
        "ind_lez",
        "segments",
        "seg_index",
        None,
        "The numbers of each segment from its init on, in steps of its stride, wrapped.",
        {"inits": "0 5 10", "strides": "1 1 -2", "lengths": "2 0 3", "out": "0 1 10 8 6"},
    ),
    # ---- scans and reduces of segments ----
    Call(
        "add_sez",
        "scans and reduces of segments",
        "seg_int_scan",
        "ADD",
        "For each integer the sum of those before it in its segment, wrapped; 0 at the start of a segment.",
        {"a": "3 1 4 1 5", "lengths": "2 0 3", "out": "0 3 0 4 5"},
    ),
    Call(
        "add_rez",
        "scans and reduces of segments",
        "seg_int_reduce",
        "ADD",
        "The sum of the integers of each segment, wrapped; 0 if it is empty.",
        {"a": "3 1 4 1 5", "lengths": "2 0 3", "out": "4 0 10"},
    ),
    Call(
        "mul_sez",
        "scans and reduces of segments",
        "seg_int_scan",
        "MUL",
        "For each integer the product of those before it in its segment, wrapped; 1 at the start of a segment.",
        {"a": "3 1 4 1 5", "lengths": "2 0 3", "out": "1 3 1 4 4"},
    ),
    Call(
        "mul_rez",
        "scans and reduces of segments",
        "seg_int_reduce",
        "MUL",
        "The product of the integers of each segment, wrapped; 1 if it is empty.",
        {"a": "3 1 4 1 5", "lengths": "2 0 3", "out": "3 1 20"},
    ),
    Call(
        "min_sez",
        "scans and reduces of segments",
        "seg_int_scan",
        "MIN",
        "For each integer the least of those before it in its segment; 2147483647 at the start of a segment.",
        {"a": "3 1 4 1 5", "lengths": "2 0 3", "out": "2147483647 3 2147483647 4 1"},
    ),
    Call(
        "min_rez",
        "scans and reduces of segments",
        "seg_int_reduce",
        "MIN",
        "The least of the integers of each segment; 2147483647 if it is empty.",
        {"a": "3 1 4 1 5", "lengths": "2 0 3", "out": "1 2147483647 1"},
    ),
    Call(
        "max_sez",
        "scans and reduces of segments",
        "seg_int_scan",
        "MAX",
        "For each integer the greatest of those before it in its segment; -2147483648 at the start of a segment.",
        {"a": "3 1 4 1 5", "lengths": "2 0 3", "out": "-2147483648 3 -2147483648 4 4"},
    ),
    Call(
        "max_rez",
        "scans and reduces of segments",
        "seg_int_reduce",
        "MAX",
        "The greatest of the integers of each segment; -2147483648 if it is empty.",
        {"a": "3 1 4 1 5", "lengths": "2 0 3", "out": "3 -2147483648 5"},
    ),
    Call(
        "and_sez",
        "scans and reduces of segments",
        "seg_int_scan",
        "AND",
        "For each integer those before it in its segment joined by and, bit by bit; -1 at the start of a segment.",
        {"a": "3 1 4 1 5", "lengths": "2 0 3", "out": "-1 3 -1 4 0"},
    ),
    Call(
        "and_rez",
        "scans and reduces of segments",
        "seg_int_reduce",
        "AND",
        "The integers of each segment joined by and, bit by bit; -1 if it is empty.",
        {"a": "3 1 4 1 5", "lengths": "2 0 3", "out": "1 -1 0"},
    ),
    Call(
        "ior_sez",
        "scans and reduces of segments",
        "seg_int_scan",
        "IOR",
        "For each integer those before it in its segment joined by or, bit by bit; 0 at the start of a segment.",
        {"a": "3 1 4 1 5", "lengths": "2 0 3", "out": "0 3 0 4 5"},
    ),
    Call(
        "ior_rez",
        "scans and reduces of segments",
        "seg_int_reduce",
        "IOR",
        "The integers of each segment joined by or, bit by bit; 0 if it is empty.",
        {"a": "3 1 4 1 5", "lengths": "2 0 3", "out": "3 0 5"},
    ),
    Call(
        "xor_sez",
        "scans and reduces of segments",
        "seg_int_scan",
        "XOR",
        "For each integer those before it in its segment joined by exclusive or, bit by bit; 0 at the start of a segment.",
        {"a": "3 1 4 1 5", "lengths": "2 0 3", "out": "0 3 0 4 5"},
    ),
    Call(
        "xor_rez",
        "scans and reduces of segments",
        "seg_int_reduce",
        "XOR",
        "The integers of each segment joined by exclusive or, bit by bit; 0 if it is empty.",
        {"a": "3 1 4 1 5", "lengths": "2 0 3", "out": "2 0 0"},
    ),
    Call(
        "and_seb",
        "scans and reduces of segments",
        "seg_bool_scan",
        "AND",
        "For each boolean whether all those before it in its segment are true; true at the start of a segment.",
        {"a": "true false true false true", "lengths": "2 0 3", "out": "true true true true false"},
    ),
    Call(
        "and_reb",
        "scans and reduces of segments",
        "seg_bool_reduce",
        "AND",
        "Whether all the booleans of each segment are true; true if it is empty.",
        {"a": "true false true false true", "lengths": "2 0 3", "out": "false true false"},
    ),
    Call(
        "ior_seb",
        "scans and reduces of segments",
        "seg_bool_scan",
        "IOR",
        "For each boolean whether any of those before it in its segment is true; false at the start of a segment.",
        {"a": "true false true false true", "lengths": "2 0 3", "out": "false true false true true"},
    ),
    Call(
        "ior_reb",
        "scans and reduces of segments",
        "seg_bool_reduce",
        "IOR",
        "Whether any of the booleans of each segment is true; false if it is empty.",
        {"a": "true false true false true", "lengths": "2 0 3", "out": "true false true"},
    ),
    Call(
        "xor_seb",
        "scans and reduces of segments",
        "seg_bool_scan",
        "XOR",
        "For each boolean whether an odd number of those before it in its segment is true; false at the start of a segment.",
        {"a": "true false true false true", "lengths": "2 0 3", "out": "false true false true true"},
    ),
    Call(
        "xor_reb",
        "scans and reduces of segments",
        "seg_bool_reduce",
        "XOR",
        "Whether an odd number of the booleans of each segment is true; false if it is empty.",
        {"a": "true false true false true", "lengths": "2 0 3", "out": "true false false"},
    ),
    # ---- packs and counts of segments ----
    Call(
        "pck_luz",
        "packs and counts of segments",
        "pack_int",
        None,
        "The values whose flag is true, in their order.",
        {"values": "1 2 3 4 5", "flags": "false true true false true", "out": "2 3 5", "count": "3"},
    ),
    Call(
        "pck_lub",
        "packs and counts of segments",
        "pack_bool",
        None,
        "The values whose flag is true, in their order.",
        {"values": "true false true", "flags": "false true true", "out": "false true", "count": "2"},
    ),
    Call(
        "pck_lez",
        "packs and counts of segments",
        "seg_pack_int",
        None,
        "The values of each segment whose flag is true, in their order, one segment after another; pck_fov gives the lengths of these segments.",
        {"values": "1 2 3 4 5", "flags": "false true true false true", "lengths": "2 0 3", "out": "2 3 5", "count": "3"},
    ),
    Call(
        "pck_leb",
        "packs and counts of segments",
        "seg_pack_bool",
        None,
        "The values of each segment whose flag is true, in their order, one segment after another; pck_fov gives the lengths of these segments.",
        {"values": "true false true", "flags": "false true true", "lengths": "1 2", "out": "false true", "count": "2"},
    ),
    Call(
        "pck_fov",
        "packs and counts of segments",
        "seg_packed_lengths",
        None,
        "The lengths of the segments of what a pack keeps, or a select permute, 0 for a segment of which nothing is kept.",
        {"flags": "false true true false true", "lengths": "2 0 3", "out": "1 0 2"},
    ),
    Call(
        "cnt_leb",
        "packs and counts of segments",
        "seg_count",
        None,
        "The number of true flags of each segment.",
        {"flags": "false false true false true", "lengths": "2 0 3", "out": "0 0 2"},
    ),
    # ---- permutes ----
    Call(
        "smp_puz",
        "permutes",
        "permute_int",
        None,
        "Each element of the source at its index.",
        {"source": "10 20 30", "index": "2 0 1", "out": "20 30 10"},
    ),
    Call(
        "smp_pub",
        "permutes",
        "permute_bool",
        None,
        "Each element of the source at its index.",
        {"source": "true false false", "index": "2 0 1", "out": "false false true"},
    ),
    Call(
        "sel_puz",
        "permutes",
        "select_permute_int",
        None,
        "Each element of the source whose flag is true at its index.",
        {"source": "1 2 3 4", "index": "1 9 0 9", "flags": "true false true false", "out": "3 1"},
    ),
    Call(
        "sel_pub",
        "permutes",
        "select_permute_bool",
        None,
        "Each element of the source whose flag is true at its index.",
        {"source": "true true false true", "index": "1 9 0 9", "flags": "true false true false", "out": "false true"},
    ),
    Call(
        "def_puz",
        "permutes",
        "default_permute_int",
        None,
        "Each element of the source at its index, and at a place to which none goes its default.",
        {"source": "7 8", "index": "3 1", "defaults": "0 0 0 0 0", "out": "0 8 0 7 0"},
    ),
    Call(
        "def_pub",
        "permutes",
        "default_permute_bool",
        None,
        "Each element of the source at its index, and at a place to which none goes its default.",
        {"source": "true false", "index": "3 1", "defaults": "false true true false", "out": "false false true true"},
    ),
    Call(
        "bck_puz",
        "permutes",
        "back_permute_int",
        None,
        "At each place the element of the source at the place's index, which may repeat.",
        {"source": "10 20 30", "index": "2 2 0 0", "out": "30 30 10 10"},
    ),
    Call(
        "bck_pub",
        "permutes",
        "back_permute_bool",
        None,
        "At each place the element of the source at the place's index, which may repeat.",
        {"source": "true false false", "index": "2 2 0 0", "out": "false false true true"},
    ),
    # ---- permutes of segments ----
    Call(
        "smp_pez",
        "permutes of segments",
        "seg_permute_int",
        None,
        "Each element of the source at its index, which counts from the start of its segment.",
        {"source": "1 2 3 4 5", "index": "1 0 2 0 1", "lengths": "2 0 3", "out": "2 1 4 5 3"},
    ),
    Call(
        "smp_peb",
        "permutes of segments",
        "seg_permute_bool",
        None,
        "Each element of the source at its index, which counts from the start of its segment.",
        {"source": "true false false false true", "index": "1 0 2 0 1", "lengths": "2 0 3", "out": "false true false true false"},
    ),
    Call(
        "sel_pez",
        "permutes of segments",
        "seg_select_permute_int",
        None,
        "Each element of the source whose flag is true at its index in its segment of the result, which is as long as the segment has true flags.",
        {"source": "1 2 3 4 5", "index": "9 0 1 9 0", "flags": "false true true false true", "lengths": "2 0 3", "out": "2 5 3"},
    ),
    Call(
        "sel_peb",
        "permutes of segments",
        "seg_select_permute_bool",
        None,
        "Each element of the source whose flag is true at its index in its segment of the result, which is as long as the segment has true flags.",
        {
            "source": "true false true true false",
            "index": "9 0 1 9 0",
            "flags": "false true true false true",
            "lengths": "2 0 3",
            "out": "false false true",
        },
    ),
    Call(
        "def_pez",
        "permutes of segments",
        "seg_default_permute_int",
        None,
        "Each element of the source at its index in the same segment of the defaults, and at a place to which none goes its default.",
        {
            "source": "1 2 3 4 5",
            "index": "2 0 0 1 2",
            "defaults": "0 0 0 9 0 0 0",
            "lengths": "2 0 3",
            "default_lengths": "3 1 3",
            "out": "2 0 1 9 3 4 5",
        },
    ),
    Call(
        "def_peb",
        "permutes of segments",
        "seg_default_permute_bool",
        None,
        "Each element of the source at its index in the same segment of the defaults, and at a place to which none goes its default.",
        {
            "source": "true false",
            "index": "1 0",
            "defaults": "false false true true",
            "lengths": "1 1",
            "default_lengths": "2 2",
            "out": "false true false true",
        },
    ),
    Call(
        "bck_pez",
        "permutes of segments",
        "seg_back_permute_int",
        None,
        "At each place the element at the place's index in the same segment of the source; an index may repeat.",
        {"source": "1 2 3 4 5", "index": "1 1 1 2", "lengths": "2 0 3", "index_lengths": "3 0 1", "out": "2 2 2 5"},
    ),
    Call(
        "bck_peb",
        "permutes of segments",
        "seg_back_permute_bool",
        None,
        "At each place the element at the place's index in the same segment of the source; an index may repeat.",
        {
            "source": "true false false false true",
            "index": "1 1 1 2",
            "lengths": "2 0 3",
            "index_lengths": "3 0 1",
            "out": "false false false true",
        },
    ),
)
