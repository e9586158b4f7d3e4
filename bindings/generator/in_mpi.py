"""What is written in C of calls over the ranks of MPI: the header, and the functions, which hand their arguments to the way of their
family."""

import re

import in_c
import in_rows
import in_tests
import rows
from in_c import indented, kept, parameters, wrapped

RANKS = kept("CvlRanks *ranks")


def families():
    return [row for row in rows.FAMILIES.values() if row.family.over_ranks.way]


def calls():
    return [row for row in rows.CALLS if row.family.over_ranks.way]


def is_held(row):
    """Whether the lengths of a family come by a descriptor."""
    return bool(row.cuts) and row.result is not None


def is_counted(row, operand):
    """Whether a call's count alone says how long a room is. Over ranks its own length stands behind it: a count of the whole is then a fault."""
    return row.call is not None and rows.is_array(operand) and operand.extent == "count"


def measured(row):
    """Arguments with the length of each room behind it that a count alone measures."""
    found = []
    for argument in row.arguments:
        found.append(argument)
        if argument.operand is not None and is_counted(row, argument.operand):
            found.append(rows.Argument(f"{argument.name}_len", "size_t ", argument.operand, argument.operand.extent))
    return found


def arguments(row):
    """Arguments with a descriptor in the place of lengths."""
    if not is_held(row):
        return measured(row)
    return [
        argument._replace(type="const CvlRankSegments *") if argument.type == "const CvlSegments *" else argument
        for argument in in_c.held(measured(row))
    ]


# ---- the header ----


def declaration(row):
    return wrapped(f"CVL_CHECKED CvlStatus cvl_{row.name}_mpi({RANKS}, {parameters(arguments(row))});")


def going(row):
    """The comment on how a family goes over ranks."""
    said = row.family.over_ranks.said
    return in_c.comment(f"{said[0].upper()}{said[1:]}.")


def header(template):
    """`bindings/mpi/cvl_mpi.h`."""
    parts = {
        "note": f" * {rows.NOTE}",
        "families": "\n\n".join(in_c.commented((going(row), declaration(row)) for row in families())),
        "calls": "\n".join(declaration(row) for row in calls()),
    }
    return in_c.filled(template, parts)


def public(template):
    """`bindings/mpi/public`: each name of the header, one a line."""
    named = re.findall(r"\b(cvl_\w+)\([^)]", re.sub(r"/\*.*?\*/", "", template, flags=re.S))
    named += [f"cvl_{row.name}_mpi" for row in [*families(), *calls()]]
    return "".join(f"{name}\n" for name in sorted(set(named)))


# ---- the plain families ----


def plain_argument(found, k):
    """What the plain family is given of a slot."""
    operand = found.operands[k]
    if operand.role in ("value", "place", "count"):
        kind = (
            "int64_t"
            if operand.role != "value"
            else {"int": "int32_t", "flag": "", "sum": "int64_t", "size": "size_t"}[operand.kind]
        )
        return f"s[{k}].number != 0" if not kind else f"({kind})s[{k}].number"
    if operand.role == "lengths":
        return f"(CvlLengths){{s[{k}].at, s[{k}].number}}"
    if operand.role in ("single", "told"):
        return f"({rows.NUMBERS[operand.kind]}*)s[{k}].at"
    cast = f"({rows.ARRAYS[operand.kind]})" if operand.role == "room" else ""
    return f"{cast}s[{k}].at, s[{k}].number"


def plain_function(found):
    words = ["op"] if found.family.operators else []
    words += [plain_argument(found, k) for k in range(len(found.operands))]
    lines = [] if found.family.operators else ["    (void)op;"]
    head = f"static CvlStatus make_{found.name}(uint32_t op, const CvlSlot *s) {{"
    return "\n".join([head, *lines, indented(f"return cvl_{found.name}({', '.join(map(kept, words))});"), "}"])


# ---- rows ----


def operand_row(found, k):
    own = found.family.over_ranks.spread and found.operands[k].role == "room"
    like, relation = (k, "SAME") if own else found.like(k)
    words = [
        f"CVL_AS_{found.role(k)}",
        found.size(k),
        str(like),
        f"CVL_{relation}",
        str(found.total(k)),
        "CVL_BY_NONE",
        in_rows.flags_of(found.marks(k)),
    ]
    return "        " + "    {" + ", ".join(words) + "},"


def row_of(number, row):
    """The row of a family over ranks."""
    found = in_rows.Family(row)
    over = row.family.over_ranks
    said = [
        f".operands = {len(found.operands)}, .out = {found.out}, .cut = {found.cut_place or 0}, .is = {in_rows.flags_of(found.words)},",
        f".most = CVL_MOST_ELEMENTS, .make = make_{found.name},",
    ]
    numbers = [o.number for o in in_rows.table.OPERATORS if o.name in found.family.operators]
    if numbers:
        said.append(f".operators = {in_rows.bits_of(numbers)},")
    if found.faulty:
        said.append(f".faulty = {'1' if found.faulty == [0] else in_rows.bits_of(found.faulty)},")
    marks = {
        "asks": row.family.asks,
        "held": is_held(row),
        "checked": any(18 in fault.numbers for fault in row.family.faults),
        "named": over.named or any(o.role == "count" for o in found.operands),
    }
    so = "".join(f", .{mark} = 1" for mark, is_so in marks.items() if is_so)
    lines = [
        f"static const CvlRankRow cvl_{found.name}_over = {{",
        "    .row = {",
        "        .operand = {",
        *(operand_row(found, k) for k in range(len(found.operands))),
        "        },",
        *(indented(line, 2) for line in said),
        "    },",
        f"    .way = cvl_{over.way}_over_ranks, .call = {number}{so},",
        "};",
    ]
    return "\n".join(lines)


# ---- the functions ----


def slot(row, operand):
    """What a public function passes on for an operand: its pointer with its number of elements. If the segments are those of a
    descriptor, an array with an element for each has as many as segments start in this rank."""
    if rows.is_array(operand):
        if row.call is None or is_counted(row, operand):
            size = f"{operand.name}_len"
        elif operand.extent == "segments" and is_held(row):
            size = f"cvl_rank_segments_starts({row.cuts[0].name.replace('lengths', 'segments')})"
        else:
            size = in_c.size_of(row, operand)
        return f"{{{operand.name}, {size}}}"
    if operand.role == "lengths" and is_held(row):
        return f"{{{operand.name.replace('lengths', 'segments')}, 1}}"
    return in_rows.slot(row, operand)


def function(row):
    slots = [slot(row, operand) for operand in row.operands]
    head = f"CvlStatus cvl_{row.name}_mpi({RANKS}, {parameters(arguments(row))})"
    return in_rows.handing(head, f"cvl_over_ranks(ranks, &cvl_{row.family.name}_over, {in_rows.operator_of(row)}", slots)


def calls_file():
    """`bindings/mpi/calls.c`."""
    head = in_c.comment(
        "The functions of cvl_mpi.h: a row for each family, with the plain family that a rank makes its own part by; and each public function, "
        "which hands its arguments to the way of its family.",
        rows.NOTE,
    )
    blocks = []
    for number, row in enumerate(families(), 1):
        blocks += [plain_function(in_rows.Family(row)), row_of(number, row)]
    blocks += [function(row) for row in [*families(), *calls()]]
    return "\n\n".join([f'{head}\n#include "ranks.h"', *blocks]) + "\n"


# ---- the rows of the differential test ----


def rank_row(row):
    """The function over ranks beside the row of tests/c/call_rows.h: whether the result may be spread otherwise than what is read, and its arguments."""

    def given(argument):
        held = argument.operand is not None and argument.operand.role == "lengths" and is_held(row)
        return f"segments[{row.operands.index(argument.operand)}]" if held else in_tests.argument(row, argument)

    spread = int(row.call is None and row.family.over_ranks.spread)
    return f"OVER({row.name}, {spread}, ({', '.join(['ranks', *map(given, arguments(row))])}))"


def rank_rows():
    """`tests/mpi/rank_rows.h`."""
    head = in_c.comment(
        "rank_rows.h: a row for each family and each call over ranks. tests/mpi/differential.c reads it.", rows.NOTE
    )
    return "\n".join([head, *map(rank_row, [*families(), *calls()]), ""])


# ---- Python and Fortran ----


def of_python():
    """The calls that Python and Fortran have: those of the table, and the families that have none there."""
    named = {row.family.name for row in calls()}
    return [*calls(), *(row for row in families() if row.family.name not in named)]


def takes_operator(row):
    """Whether the caller says by which operator."""
    return bool(row.family.operators) and row.call is None
