"""What is written for the tests in C: the words of operands, a row for each function, and a row for each operator. tests/c/calls.h reads them,
for the tests of the calls of one thread, in parts and over ranks."""

import rows
import table
from in_c import comment, constant, held, on_segments, segments_name, wrapped

OPERANDS = [operand for row in rows.FAMILIES.values() for operand in row.operands]
PLACES = ("FIRST", "SECOND", "THIRD", "FOURTH", "FIFTH")


# ---- words ----


def kind_of(operand):
    """The kind of an operand's elements; that of one value is as of an array of them."""
    return {"int": "ints", "flag": "flags", "sum": "sums", "size": "sizes"}.get(operand.kind, operand.kind)


# each word of an operand, in the order of the table: what it is called in C, what it says, and the words
WORDS = (
    ("Role", "What a call does with an operand.", ["none", *(o.role for o in OPERANDS)]),
    ("Kind", "What its elements are; `segments` is a descriptor.", [*(kind_of(o) for o in OPERANDS), "segments"]),
    ("Extent", "How many elements it has, and what lengths add up to.", ["none", *(o.extent for o in OPERANDS if o.extent)]),
    ("Use", "What it is to its call.", table.USES),
)

# what functions of descriptors do that no family is of
OF_DESCRIPTORS = ("tell_offsets", "tell_numbers", "from_offsets", "of_no_elements")


def enumerated(name, said, words):
    prefix = "" if name == "Model" else f"{name.upper()}_"
    found = ", ".join(prefix + word.upper() for word in dict.fromkeys(words))
    return f"{comment(said)}\n{wrapped(f'typedef enum {name} {{ {found} }} {name};')}\n"


def words():
    """`tests/c/operand_words.h`."""
    said = "The plain readings: one for each kind of call, and those of functions that no family is of."
    models = ("Model", said, [*(row.family.general for row in rows.FAMILIES.values()), *OF_DESCRIPTORS])
    head = comment("operand_words.h: the words of bindings/table.py for operands, and the kinds of calls.", rows.NOTE)
    return "\n".join([head, *(enumerated(*found) for found in (*WORDS, models))])


# ---- rows ----


def listed(words):
    return f"LIST({', '.join(words)})"


def operand_words(operand, descriptor=False):
    """An operand as its role, its kind, how long it is, its use, and whether it is joined with what stands there."""
    kind = "segments" if descriptor and operand.role == "lengths" else kind_of(operand)
    found = [
        f"ROLE_{operand.role}",
        f"KIND_{kind}",
        f"EXTENT_{operand.extent or 'none'}",
        f"USE_{operand.use}",
        str(int(bool(operand.over))),
    ]
    return f"{{{', '.join(word.upper() for word in found)}}}"


def in_place(row):
    """Which operands may be the room, and whether one of them alone."""
    may = [PLACES[k] for k, operand in enumerate(row.operands) if any(operand.name in names for names in row.family.in_place)]
    both = any(len(names) > 1 for names in row.family.in_place)
    return " | ".join(may + (["ONE_ALONE"] if len(may) > 1 and not both else [])) or "NONE"


def operator_bits(names):
    """Operators as runs, each from the first to the last."""
    return " | ".join(f"OPERATORS(CVL_{run[0].name}, CVL_{run[-1].name})" for run in table.runs(names)) or "NO_OPERATORS"


def argument(row, found):
    """What a function is given of the arguments of a test."""
    if found.operand is None:
        return "g->op"
    operand = found.operand
    k = row.operands.index(operand)
    if found.size is not None:
        return f"g->len[{k}]"
    if found.type == "CvlLengths ":
        return f"lengths_at(g, {k})"
    if operand.role in ("value", "place", "count"):
        return (
            f"g->number[{k}] != 0"
            if operand.kind == "flag"
            else f"({rows.NUMBERS[operand.kind].strip()})g->number[{k}]"
            if operand.role == "value"
            else f"g->number[{k}]"
        )
    return f"g->at[{k}]"


def given(row, arguments, *first):
    return f"({', '.join([*first, *(argument(row, found) for found in arguments)])})"


def call_row(row, name, arguments, *pool, descriptor=False):
    limit = rows.limited(row.family)
    columns = [
        f"cvl_{name}",
        row.family.general.upper(),
        listed(operand_words(operand, descriptor) for operand in row.operands),
        in_place(row),
        operator_bits([row.operator] if row.operator else row.family.operators),
        "NO_LIMIT" if limit is None else f"LIMIT_OF({row.operands.index(limit)})",
        "CALL" if row.call else "FAMILY",
        given(row, arguments, *pool),
    ]
    return f"ROW({', '.join(columns)})"


def calls():
    """`tests/c/call_rows.h`."""
    found = [*rows.FAMILIES.values(), *rows.CALLS]
    head = comment(
        "call_rows.h: a row for each function of cvl.h and cvl_parallel.h: its name; its plain reading; its operands, each by its role, its kind, how long "
        "it is, its use, and whether it is joined with what stands there; which may be the room; the operators; the operand that may be too long; whether "
        "it is a call of the table; and its arguments. tests/c/calls.h reads it.",
        rows.NOTE,
    )
    lines = [
        head,
        *(call_row(row, row.name, row.arguments) for row in found),
        *(call_row(row, segments_name(row), held(row.arguments), descriptor=True) for row in on_segments()),
        *(call_row(row, f"{row.name}_on", row.arguments, "&pool") for row in found if row.family.cut is not None),
        "",
    ]
    return "\n".join(lines)


def operator_row(found):
    """An operator with its letters and its fault."""
    said = dict(table.STATUSES)
    return f"OPERATOR({found.name.lower()}, CVL_{found.name}, CVL_{constant(said[found.fault.numbers[0] if found.fault else 0])})"


def operators():
    """`tests/c/operator_rows.h`."""
    head = comment(
        "operator_rows.h: a row for each operator: its letters in the names of calls, its number, and its fault. tests/c/operators.h reads it.",
        rows.NOTE,
    )
    return "\n".join([head, *map(operator_row, table.OPERATORS), ""])
