"""What is written in Python and for it: the compiled table of calls with their descriptions, the stubs, and the names of faults
and operators."""

import re
import textwrap

import elsewhere
import packages
import rows
import table
from packages import name_of

WIDTH = 118
NUMPY = {"ints": "numpy.int32", "flags": "bool", "bytes": "numpy.uint8", "marks": "numpy.uint32", "sums": "numpy.int64"}


class Direct(packages.Call):
    """A family that Python has under its own name."""

    def __init__(self, row):
        super().__init__(row)
        self.told = [operand for operand in row.operands if operand.role == "told"]
        self.is_range = any(operand.extent == "range" for operand in row.operands)
        # both are changed in place, as a list is by its own sort
        self.changes_several = len(super().over) > 1
        if self.is_range or self.changes_several:
            self.operands = [*self.operands, *row.rooms]
        if row.family.operators:
            self.operands = [table.Operand("op", "operator", "size", None, False), *self.operands]

    @property
    def over(self):
        """The room that holds what stands before; that of a range is an operand, and so are several."""
        return [] if self.is_range or self.changes_several else super().over

    @property
    def fills(self):
        return super().fills and self.gives not in ("TEXT", "READ_NESTED", "WRITTEN", "NOTHING")

    @property
    def gives(self):
        """What it gives that no call of the table gives, or nothing."""
        if self.is_range:
            return "WRITTEN"
        if self.changes_several:
            return "NOTHING"
        if self.over:
            return f"OVER_{self.result.kind.upper()}"
        if self.result.kind == "text":
            return "TEXT"
        if self.counts and not any(operand.use == "mask" for operand in self.operands):
            return "READ_NESTED" if len(self.told) > 1 else "READ"
        return None


CALLS = packages.CALLS
DIRECT = [Direct(row) for row in packages.BESIDE]
FUNCTIONS = [*CALLS, *DIRECT]

# The functions that tell how long a vector is: what they take, their names, and what they give.
LENGTHS = (
    (
        "len_luz", "a", "INTS", "LENGTH", "The number of integers.",
        ["a = numpy.array([3, 1, 4], dtype=numpy.int32)"], "cvl.len_luz(a)", "3",
    ),
    (
        "len_lub", "a", "FLAGS", "LENGTH", "The number of booleans.",
        ["a = numpy.array([True, False], dtype=bool)"], "cvl.len_lub(a)", "2",
    ),
    (
        "len_fos", "segments", "LENGTHS", "LENGTHS",
        "The lengths of segments, in an array of their own. What are no lengths is a fault.",
        ["segments = cvl.Segments([2, 0, 3])"], "cvl.len_fos(segments).tolist()", "[2, 0, 3]",
    ),
)  # fmt: skip
NAMES = [*(call.name for call in CALLS), *(length[0] for length in LENGTHS), *(direct.name for direct in DIRECT)]


def is_index(operand):
    """Whether an operand is an array that names places, which may be of 64 bits."""
    return operand.role == "reads" and operand.use in ("index", "columns", "starts")


# ---- descriptions ----


def _literal(words):
    return [word == "true" if word in ("true", "false") else int(word) for word in words]


def _example_of(call):
    return call.example if isinstance(call, Direct) else call.row.example


def _shown(call, operand):
    """The line of the example that makes an operand."""
    said, name = _example_of(call).get(operand.name, ""), name_of(operand)
    if operand.role == "operator":
        return f"{name} = cvl.operators.{said}"
    if operand.kind == "text":
        return f"{name} = {said}"
    if operand.over:
        return f"{name} = numpy.array({_literal(_example_of(call)[table.before(name)].split())}, dtype={NUMPY[operand.kind]})"
    if operand.role == "room":
        many = _example_of(call)["out_len"]
        return f"{name} = numpy.zeros({many if operand.name == 'out' else (int(many) + 31) // 32}, dtype={NUMPY[operand.kind]})"
    values = _literal(said.split())
    if operand.role == "lengths":
        return f"{name} = cvl.Segments({values})"
    if operand.role == "reads":
        return f"{name} = numpy.array({values}, dtype={NUMPY[operand.kind]})"
    return f"{name} = {values[0]}"


def _direct_result(call, shown):
    """The last line of the example of a function beside the calls, and what it shows; nothing for one that is as a call."""
    said = call.example
    rooms = [operand.name for operand in call.row.rooms]
    if call.gives == "NOTHING":
        return ", ".join(f"{name}.tolist()" for name in rooms), tuple(_literal(said[name].split()) for name in rooms)
    if call.gives == "WRITTEN":
        found = int(said[call.told[0].name]), *(_literal(said[name].split()) for name in rooms)
        return ", ".join([shown, *(f"{name}.tolist()" for name in rooms)]), found
    if call.gives == "TEXT":
        return shown, said["out"].strip('"')
    if call.gives == "READ_NESTED":
        return "values.tolist(), segments.lengths.tolist()", tuple(_literal(said[name].split()) for name in ("out", "lengths"))
    return None


def _example(call):
    """The lines of the example, and what the last one shows."""
    taken = [*call.operands, *call.over]
    lines = [_shown(call, operand) for operand in taken]
    shown = f"cvl.{call.name}({', '.join(map(name_of, taken))})"
    direct = _direct_result(call, shown) if isinstance(call, Direct) else None
    if direct:
        lines += [f"values, segments = {shown}"] if call.gives == "READ_NESTED" else [shown] if call.gives == "NOTHING" else []
        return [*lines, direct[0]], repr(direct[1])
    values = _literal(_example_of(call)["lengths" if call.makes_segments else "out"].split())
    if call.gives_segments:
        return [*lines, f"{shown}.lengths.tolist()"], str(values)
    return ([*lines, f"{shown}.tolist()"], str(values)) if call.fills else ([*lines, shown], str(values[0]))


def _in_python(said):
    """What the table says of functions and numbers in C, with the names that Python has."""
    named = {call.family.name: [other.name for other in CALLS if other.family is call.family] for call in CALLS}

    def name(found):
        calls = named.get(found.group(1), [])
        return calls[0] if len(calls) == 1 else found.group(1)

    said = re.sub(r"cvl_(\w+)", name, said)
    said = re.sub(r"CVL_(\w+)", r"\1", said)
    return re.sub(r"(\w+)_len\b", r"len(\1)", said).replace("*count", "count")


def _purpose(call):
    said = _in_python(call.purpose)
    if isinstance(call, Direct) and call.gives == "READ_NESTED":
        said += " It gives both, the lengths as `Segments`."
    if isinstance(call, Direct):
        said = said.replace(" out may be longer than the result, which stands at its front.", "")
        said += " out may be longer than the result, which stands at its front." if call.fills and call.told else ""
        said += f" It gives {call.told[0].name}." if call.is_range and len(call.row.rooms) == 1 else ""
        said += " It gives how many places it wrote." if call.is_range and len(call.row.rooms) > 1 else ""
        said += " out is written over, and returned." if call.over else ""
        said += f" {' and '.join(room.name for room in call.row.rooms)} are written over." if call.changes_several else ""
        said += " op is one of cvl.operators." if call.family.operators else ""
    said += "".join(f" {operand.name} may be of int64." for operand in call.operands if is_index(operand))
    return said + (" A number may stand for an array of it." if _spreads(call) else "")


def _docstring(call):
    """The lines of a description, the first one without what stands before it."""
    lines = textwrap.wrap(_purpose(call), WIDTH - 4)
    others = elsewhere.said([call.name], name=str)
    for said, text in (("Faults", _in_python(call.faults)), ("In place", call.in_place_words), ("Elsewhere", others)):
        lines += ["", *textwrap.wrap(f"{said}: {text}", WIDTH - 4)] if text else []
    code, wanted = _example(call)
    return [*lines, "", ">>> import cvl, numpy", *(f">>> {line}" for line in code), wanted]


def _names(call):
    room = ["out"] if call.over else ["*", "out=None"] if call.fills else []
    return [*map(name_of, call.operands), *room]


# ---- the compiled table ----

KINDS = {
    ("reads", "ints"): "INTS", ("reads", "index"): "INDEX", ("reads", "flags"): "FLAGS", ("reads", "bytes"): "BYTES", ("reads", "text"): "TEXT", ("lengths", "ints"): "LENGTHS",
    ("operator", "size"): "OPERATOR", ("value", "int"): "INT", ("value", "flag"): "FLAG", ("value", "sum"): "SUM",
    ("value", "size"): "SIZE", ("place", "int"): "WIDE", ("count", "int"): "WIDE", ("room", "ints"): "ROOM_INTS",
    ("room", "flags"): "ROOM_FLAGS", ("room", "marks"): "ROOM_MARKS", ("room", "sums"): "ROOM_SUMS",
}  # fmt: skip
EXTENTS = ("n", "m", "both", "segments", "count", "trues", "falses", "total", "offsets")
TYPES = {"ints": "int32_t", "flags": "bool", "bytes": "uint8_t", "text": "char", "marks": "uint32_t", "sums": "int64_t"}
SINGLES = {"int": "&frame->single.number", "flag": "(bool *)&frame->single.flag", "sum": "&frame->single.sum"}

ROWS_HEAD = f"""/*
 * The table of calls for Python: what each family takes and gives, and how it is called; each call by its family and operator;
 * and their descriptions.
 * {rows.NOTE}
 */
#include "calls.h"

#define READ(type, k) (const type *)frame->given[k].at, frame->given[k].count
#define CUT(k) (CvlLengths){{frame->given[k].at, frame->given[k].count}}
#define NUMBER(k) frame->given[k].number
#define WRITE(type, given) (type *)(given).at, (given).count
"""


def _quoted(text):
    return '"' + text.replace("\\", "\\\\").replace('"', '\\"').replace("\n", "\\n") + '"'


def _extent(extent):
    return f"EXTENT_{extent.upper()}" if extent in EXTENTS else "EXTENT_NONE"


def _gives(call):
    if call.makes_segments:
        return "CUT"
    if call.gives_segments:
        return "SEGMENTS"
    own = call.gives if isinstance(call, Direct) else None
    if own:
        return own
    if call.result.role == "single":
        return {"int": "INT", "flag": "FLAG", "sum": "SUM"}[call.result.kind]
    return f"{'FRONT_' if call.counts else ''}{call.result.kind.upper()}"


def _room_extent(call):
    """How long the room of the result is: of a pack as many as flags are true."""
    if call.result is None or call.result.role != "room":
        return None
    if call.is_sized:
        return "count"
    if call.result.extent in rows.said_by_lengths(call.row):
        return "total"
    if call.result.extent == "segments" and call.alike("offsets"):
        return "offsets"
    return "trues" if call.result.extent == "room" and call.counts else call.result.extent


def _measures(operand, extent):
    """Whether an operand says how long a room of this extent is."""
    if extent == "trues":
        return operand.use == "mask"
    if extent in ("segments", "total"):
        return operand.role == "lengths"
    return operand.role == "count" if extent == "count" else operand.role == "reads" and operand.extent == extent


def _measured_by(call):
    """The operand that says how long the room is, by its place."""
    if _room_extent(call) == "total":
        return call.operands.index(call.measure())
    return next((k for k, operand in enumerate(call.operands) if _measures(operand, _room_extent(call))), 0)


def _spreads(call):
    """Whether a number may stand for one of several arrays: where all are as long as the result, place by place."""
    return call.row.is_place_by_place and len([o for o in call.operands if o.role == "reads"]) > 1


def _most(call):
    extent = _room_extent(call)
    return (
        "CVL_MOST_ELEMENTS"
        if extent and (extent in ("count", "trues", "total", "offsets") or call.is_bounded(extent))
        else "SIZE_MAX"
    )


def _argument(call, operand):
    """The argument of the family in C."""
    k = next((k for k, found in enumerate(call.operands) if found.name == operand.name), None)
    if operand.role in ("reads", "lengths"):
        return f"CUT({k})" if operand.extent is not None and operand.role == "lengths" else f"READ({TYPES[operand.kind]}, {k})"
    if operand.role == "room":
        second = "frame->room" if operand == call.row.result else "frame->second"
        return f"WRITE({TYPES[operand.kind]}, {second if k is None else f'frame->given[{k}]'})"
    if operand.role == "single":
        return SINGLES[operand.kind]
    if operand.role == "told":
        first = next(found for found in call.row.operands if found.role == "told")
        return "&frame->told" if operand == first else "&frame->told_second"
    return {"int": f"(int32_t)NUMBER({k})", "flag": f"NUMBER({k}) != 0", "size": f"(size_t)NUMBER({k})"}.get(
        operand.kind if operand.role == "value" else "", f"NUMBER({k})"
    )


def _filled(text, indent="    "):
    whole = {"break_long_words": False, "break_on_hyphens": False}
    return textwrap.fill(text, WIDTH, initial_indent=indent, subsequent_indent=indent + "    ", **whole)


def _make(call):
    """The function that calls the family of a frame."""
    if call.makes_segments:
        return ""
    op = [f"{'(uint32_t)NUMBER(0)' if isinstance(call, Direct) else 'frame->row->op'}"] if call.family.operators else []
    given, name = ", ".join([*op, *(_argument(call, operand) for operand in call.row.operands)]), call.family.name
    lines = [_filled(f"return cvl_{name}({given});")]
    if call.is_sized:
        k = call.operands.index(packages.COUNT)
        lines = [
            f"    const CvlStatus status = cvl_sized(frame, {k});",
            "    if (status.number != CVL_DONE) return status;",
            *lines,
        ]
    return "\n".join([f"static CvlStatus make_{name}(Frame *frame) {{", *lines, "}", ""])


def _families():
    """A function of each family, of which a call has the operands of all."""
    return list({call.family.name: call for call in FUNCTIONS}.values())


def kind_of(operand):
    """How an operand is taken."""
    return KINDS[operand.role, "index" if is_index(operand) else operand.kind]


def _operand_row(operand):
    return f'{{"{name_of(operand)}", KIND_{kind_of(operand)}, {_extent(operand.extent)}, NULL}}'


def _family_row(call):
    operands = ", ".join(map(_operand_row, call.operands))
    make = "NULL" if call.makes_segments else f"make_{call.family.name}"
    room = f"{_extent(_room_extent(call) or '')}, {_measured_by(call)}"
    names = _quoted(",".join(call.family.operators)) if isinstance(call, Direct) and call.family.operators else "NULL"
    rest = f"GIVES_{_gives(call)}, {room}, {int(_spreads(call))}, {_most(call)}, {names}, {make}"
    return _filled(f"[FAMILY_{call.family.name.upper()}] = {{{len(call.operands)}, {{{operands}}}, {rest}}},")


def _length_row(length):
    function, name, kind, gives, *_ = length
    extent, make = ("EXTENT_TOTAL", "make_lengths") if kind == "LENGTHS" else ("EXTENT_N", "make_length")
    row = f'{{1, {{{{"{name}", KIND_{kind}, {extent}, NULL}}}}, GIVES_{gives}, EXTENT_NONE, 0, 0, SIZE_MAX, NULL, {make}}}'
    return _filled(f"[FAMILY_{function.upper()}] = {row},")


LENGTH_MAKERS = """static CvlStatus make_length(Frame *frame) {
    (void)frame;
    return (CvlStatus){CVL_DONE, -1};
}

static CvlStatus make_lengths(Frame *frame) { return cvl_make_descriptor(CUT(0), &frame->told); }
"""


def _text(name, names, doc):
    """A description in C, with the line from which Python reads the parameters."""
    *lines, last = [f"{name}($module, /, {', '.join(names)})", "--", "", *doc]
    quoted = [*(_quoted(f"{line}\n") for line in lines), f"{_quoted(last)});"]
    return "\n    ".join([f"PyDoc_STRVAR(doc_{name},", *quoted]) + "\n"


def _length_doc(length):
    *_, purpose, code, shown, wanted = length
    return [purpose, "", ">>> import cvl, numpy", *(f">>> {line}" for line in [*code, shown]), wanted]


def compiled():
    """`bindings/python/extension/rows.c`."""
    families = _families()
    functions = [(call.name, call.family.name, f"CVL_{call.row.operator}" if call.row.operator else "0") for call in FUNCTIONS]
    functions += [(length[0], length[0], "0") for length in LENGTHS]
    numbered = ", ".join(f"FAMILY_{name.upper()}" for name in dict.fromkeys(family for _, family, _ in functions))
    docs = [_text(call.name, _names(call), _docstring(call)) for call in FUNCTIONS]
    docs += [_text(length[0], [length[1]], _length_doc(length)) for length in LENGTHS]
    return "\n".join([
        ROWS_HEAD,
        *filter(None, map(_make, families)),
        LENGTH_MAKERS,
        "enum {",
        textwrap.fill(numbered, WIDTH, initial_indent="    ", subsequent_indent="    "),
        "};",
        "",
        "Family cvl_families[] = {",
        *map(_family_row, families),
        *map(_length_row, LENGTHS),
        "};",
        "",
        "const int cvl_families_count = (int)(sizeof cvl_families / sizeof *cvl_families);",
        "",
        "/* A function of Python for a row. */",
        "#define FUNCTION(name, family, op) \\",
        "    static PyObject *call_##name(PyObject *self, PyObject *const *given, Py_ssize_t count, PyObject *keywords) { \\",
        "        static const Row row = {#name, &cvl_families[family], op}; \\",
        "        (void)self; \\",
        "        return cvl_call_from_python(&row, given, count, keywords); \\",
        "    }",
        *(f"FUNCTION({name}, FAMILY_{family.upper()}, {op})" for name, family, op in functions),
        "",
        *docs,
        "#define METHOD(name) {#name, (PyCFunction)(void (*)(void))call_##name, METH_FASTCALL | METH_KEYWORDS, doc_##name}",
        "",
        "PyMethodDef cvl_methods[] = {",
        *(f"    METHOD({name})," for name, *_ in functions),
        "    {NULL, NULL, 0, NULL},",
        "};",
        "",
    ])  # fmt: skip


# ---- the modules in Python ----


def _listed():
    listed = ", ".join(f'"{name}"' for name in NAMES)
    names = textwrap.fill(listed, WIDTH, initial_indent="    ", subsequent_indent="    ")
    return f"__all__ = [\n{names},\n]"


def calls():
    """`bindings/python/cvl/calls.py`."""
    imported = textwrap.fill(", ".join(NAMES) + ",", WIDTH, initial_indent="    ", subsequent_indent="    ")
    return f'"""Each call by its name. {rows.NOTE}"""\n\nfrom cvl._calls import (\n{imported}\n)\n\n{_listed()}\n'


def _constant(name):
    return re.sub(r"(?<=[a-z])(?=[A-Z])", "_", name).upper()


# what no fault from Python has: that all is done, no memory, and no descriptor
NO_FAULTS = (0, 100, 101)


def faults():
    """`bindings/python/cvl/faults.py`."""
    lines = [f"{_constant(name)} = {number}" for number, name in table.STATUSES if number not in NO_FAULTS]
    return "\n".join(['"""The numbers of faults, as `fault.number` has them.', "", f'{rows.NOTE}\n"""', "", *lines, ""])


def _twin(call):
    """The same call of booleans or of integers, and the operands of which it takes the other kind."""
    found = [
        other for other in FUNCTIONS
        if other.family.general == call.family.general and other.family is not call.family and other.row.operator == call.row.operator
    ]  # fmt: skip
    if len(found) != 1:
        return None
    names = [
        name_of(one) for one, other in zip(call.operands, found[0].operands) if one.role == "reads" and one.kind != other.kind
    ]
    return found[0].name, tuple(names)


def twins():
    """`bindings/python/cvl/_twins.py`."""
    found = {call.name: _twin(call) for call in FUNCTIONS}
    said = '"""The same call of booleans or of integers, and the operands of which it takes the other kind.'
    return "\n".join(
        [
            said,
            "",
            f'{rows.NOTE}\n"""',
            "",
            "TWINS = {",
            *(f"    {name!r}: {twin!r}," for name, twin in found.items() if twin and twin[1]),
            "}",
            "",
        ]
    )


def operators():
    """`bindings/python/cvl/operators.py`."""
    lines = [f"{operator.name} = {operator.number}  # {operator.sentence}" for operator in table.OPERATORS]
    return "\n".join(['"""The numbers of operators.', "", f'{rows.NOTE}\n"""', "", *lines, ""])


# ---- the stubs ----

STUB_HEAD = f"""# The kinds of what each call takes and gives. {rows.NOTE}

from typing import SupportsIndex, Tuple, TypeVar, Union, overload

import numpy

from cvl._kinds import ByteArray, Bytes, FlagArray, Flags, Indices, IntArray, Ints, Marks, SumArray, Sums, Text
from cvl.segments import Segments

_Ints = TypeVar("_Ints", bound=Ints)
_Flags = TypeVar("_Flags", bound=Flags)
_Bytes = TypeVar("_Bytes", bound=Bytes)
_Sums = TypeVar("_Sums", bound=Sums)
"""
TAKEN = {
    "ints": "Ints", "flags": "Flags", "bytes": "Bytes", "text": "Text", "marks": "Marks", "sums": "Sums", "int": "SupportsIndex", "sum": "SupportsIndex",
    "size": "SupportsIndex", "flag": "Union[bool, numpy.bool_]",
}  # fmt: skip
SPREAD = {"ints": "Union[Ints, SupportsIndex]", "flags": "Union[Flags, bool, numpy.bool_]"}
GIVEN = {
    "ints": "IntArray",
    "flags": "FlagArray",
    "bytes": "ByteArray",
    "sums": "SumArray",
    "int": "int",
    "flag": "bool",
    "sum": "int",
}
ROOMS = {"ints": "_Ints", "flags": "_Flags", "bytes": "_Bytes", "sums": "_Sums"}
DIRECT_GIVEN = {"WRITTEN": "int", "NOTHING": "None", "TEXT": "str", "READ_NESTED": "Tuple[IntArray, Segments]"}


def _kind(call, operand):
    if operand.role == "lengths":
        return "Union[Segments, Ints]"
    if is_index(operand):
        return "Indices"
    return SPREAD[operand.kind] if _spreads(call) and operand.role == "reads" else TAKEN[operand.kind]


def _stub(call):
    taken = ", ".join(f"{name_of(operand)}: {_kind(call, operand)}" for operand in call.operands)
    if not call.fills:
        direct = DIRECT_GIVEN.get(call.gives) if isinstance(call, Direct) else None
        yield f"def {call.name}({taken}) -> {direct or ('Segments' if call.gives_segments else GIVEN[call.result.kind])}: ..."
        return
    given, room = GIVEN[call.result.kind], ROOMS[call.result.kind]
    if call.over:
        yield f"def {call.name}({taken}, out: {room}) -> {room}: ..."
        return
    yield "@overload"
    yield f"def {call.name}({taken}, *, out: None = ...) -> {given}: ..."
    yield "@overload"
    yield f"def {call.name}({taken}, *, out: {room}) -> {given if call.counts else room}: ..."


def _length_stub(length):
    name, operand, kind, gives, *_ = length
    taken = {"INTS": "Ints", "FLAGS": "Flags", "LENGTHS": "Union[Segments, Ints]"}[kind]
    return f"def {name}({operand}: {taken}) -> {'int' if gives == 'LENGTH' else 'IntArray'}: ..."


def stubs():
    """`bindings/python/cvl/calls.pyi`."""
    functions = [line for call in FUNCTIONS for line in _stub(call)]
    return "\n".join([STUB_HEAD, _listed(), "", *functions, *map(_length_stub, LENGTHS), ""])
