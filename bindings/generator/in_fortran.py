"""What is written in Fortran: the module over the families of the library, and the program that runs the example of each call."""

import textwrap

import in_c
import in_examples
import rows
import table

WIDTH = 128

# The types of what is taken, and of a single value that is written.
TYPES = {
    "ints": "integer(c_int32_t)", "flags": "logical(c_bool)", "bytes": "integer(c_int8_t)", "text": "character(*)", "marks": "integer(c_int32_t)",
    "sums": "integer(c_int64_t)",
    "int": "integer(c_int32_t)", "flag": "logical(c_bool)", "sum": "integer(c_int64_t)", "size": "integer(c_size_t)",
}  # fmt: skip


def generic(family):
    """The name that a family shares with those of other kinds and on segments, which the kinds and ranks of arguments tell apart."""
    return f"cvl_{family.general.removeprefix('seg_')}"


def _wide(operand):
    """Whether it is a number that may be given in 32 bits too."""
    return operand.role in ("place", "count")


def _type(operand):
    """The type of an operand in Fortran."""
    return "integer(c_int64_t)" if _wide(operand) else TYPES[operand.kind]


def _is_text(operand):
    return rows.is_array(operand) and operand.kind == "text"


def _is_pointed(operand):
    """Whether it is an array that is handed over by its address."""
    return operand.role in ("reads", "room", "lengths") and operand.kind != "text"


def _folded(line, indent, mark="    "):
    """A line of code, cut where it is too long."""
    lines = textwrap.wrap(line, WIDTH - len(indent) - 2, subsequent_indent=mark, break_long_words=False, break_on_hyphens=False)
    return [f"{indent}{part}{' &' if k + 1 < len(lines) else ''}" for k, part in enumerate(lines)]


def _comment(*paragraphs):
    return [f"    ! {line}" for paragraph in paragraphs if paragraph for line in textwrap.wrap(paragraph, WIDTH - 6)]


# ---- the families as C has them ----


def _c_declaration(argument):
    """An argument of a function in C."""
    operand = argument.operand
    if operand is None:
        return "integer(c_int32_t), value", argument.name
    if argument.size:
        return "integer(c_size_t), value", argument.name
    if operand.role == "lengths":
        return "type(lengths_of), value", argument.name
    if _is_text(operand):
        return f"character(kind=c_char), intent({'in' if operand.role == 'reads' else 'inout'})", f"{argument.name}(*)"
    if rows.is_array(operand):
        return "type(c_ptr), value", argument.name
    if operand.role in ("single", "told"):
        return f"{_type(operand)}, intent(inout)", argument.name
    return f"{_type(operand)}, value", argument.name


def _declared(pairs, indent):
    """Declarations, those of one type that follow one another on one line."""
    lines, last = [], None
    for kind, name in pairs:
        if kind == last:
            lines[-1] += f", {name}"
        else:
            lines.append(f"{kind} :: {name}")
        last = kind
    return [part for line in lines for part in _folded(line, indent)]


def _interface(family):
    arguments = rows.FAMILIES[family.name].arguments
    names = ", ".join(argument.name for argument in arguments)
    head = f'function c_{family.name}({names}) result(answer) bind(c, name="cvl_{family.name}")'
    return [
        *_folded(head, "        "),
        *_folded("import :: c_bool, c_char, c_int32_t, c_int64_t, c_ptr, c_size_t, cvl_status, lengths_of", "            "),
        *_declared([_c_declaration(argument) for argument in arguments], "            "),
        "            type(cvl_status) :: answer",
        f"        end function c_{family.name}",
    ]


# ---- the procedures ----


def _declaration(operand, narrow, place):
    """The type and the name of a dummy argument; `place` is an operand that is the room."""
    written = operand.role in ("room", "single", "told") or operand == place
    intent = f"intent({'inout' if written else 'in'})"
    if _is_text(operand):
        return f"{_type(operand)}, {intent}", operand.name
    if _is_pointed(operand):
        return f"{_type(operand)}, {intent}, target, contiguous", f"{operand.name}(:)"
    kind = "integer(c_int32_t)" if narrow and _wide(operand) else _type(operand)
    return f"{kind}, {intent}", operand.name


def _given(row, argument, place):
    """An argument in the call of C: in place, the operand stands where the room does."""
    operand = argument.operand
    if operand is None:
        return f"CVL_{row.operator}" if row.operator else argument.name
    if place is not None and operand.role == "room":
        operand = place
    if argument.size:
        return f"{'len' if _is_text(operand) else 'size'}({operand.name}, kind=c_size_t)"
    return f"at({operand.name})" if operand.role in ("reads", "room") and _is_pointed(operand) else \
        f"cut({operand.name})" if operand.role == "lengths" else operand.name  # fmt: skip


class Procedure:
    """A procedure of the module: of a call or a family; in place, over an operand; with the places and counts of 32 bits."""

    def __init__(self, row, place=None, narrow=False):
        self.row, self.place, self.narrow = row, place, narrow
        self.operands = [operand for operand in row.operands if place is None or operand.role != "room"]
        self.public = f"cvl_{row.name}" if row.call else generic(row.family)
        self.public += "_in" if place else ""

    @property
    def has_wide(self):
        return any(map(_wide, self.operands))

    @property
    def name(self):
        """Its own name, where several share the public one."""
        if self.row.call and not self.has_wide:
            return self.public
        end = ("_32" if self.narrow else "_64") if self.has_wide else ""
        return f"{self.row.name}{'_in' if self.place else ''}{'_of' if self.row.call else ''}{end}"

    @property
    def words(self):
        operator = ["op"] if self.row.family.operators and not self.row.call else []
        return [*operator, *(operand.name for operand in self.operands), "status"]

    def _calls(self):
        """The line that makes the call: with numbers of 32 bits, the procedure that takes 64."""
        if self.narrow:
            wide = Procedure(self.row, self.place)
            words = [f"int({o.name}, c_int64_t)" if _wide(o) else o.name for o in self.operands]
            return f"call {wide.name}({', '.join([*self.words[: -len(words) - 1], *words, 'status'])})"
        family = rows.FAMILIES[self.row.family.name]
        given = ", ".join(_given(self.row, argument, self.place) for argument in family.arguments)
        return f'call tell("{self.public}", c_{family.name}({given}), status)'

    def _said(self):
        if self.narrow:
            return []
        family = self.row.family
        said = self.row.call.sentence if self.row.call else family.sentence
        if self.place:
            return _comment(f"{self.public}: the same in place, over {self.place.name}.")
        faults = rows.fault_text(self.row)
        return _comment(f"{self.public}: {said} {family.shape}".rstrip(), family.told, f"Faults: {faults}" if faults else "")

    def lines(self):
        pairs = [("integer(c_int32_t), intent(in)", "op")] if "op" in self.words else []
        pairs += [_declaration(operand, self.narrow, self.place) for operand in self.operands]
        pairs.append(("type(cvl_status), intent(out), optional", "status"))
        return [
            *self._said(),
            *_folded(f"subroutine {self.name}({', '.join(self.words)})", "    "),
            *_declared(pairs, "        "),
            "",
            *_folded(self._calls(), "        "),
            f"    end subroutine {self.name}",
            "",
        ]


def _forms(row):
    """The procedures of a call or a family."""
    places = [None] + [o for o in row.operands if row.family.in_place and (o.name,) == row.family.in_place[0]]
    for place in places:
        procedure = Procedure(row, place)
        yield procedure
        if procedure.has_wide:
            yield Procedure(row, place, narrow=True)


def procedures():
    """All procedures, calls first. What makes lengths segments is of scripts alone."""
    found = [*rows.CALLS, *(row for row in rows.FAMILIES.values())]
    return [procedure for row in found for procedure in _forms(row)]


def _generics():
    """The public names that several procedures share, with these."""
    found = {}
    for procedure in procedures():
        found.setdefault(procedure.public, []).append(procedure.name)
    return {name: names for name, names in found.items() if names != [name]}


def _constant(name, value, kind="integer(c_int32_t)"):
    return f"    {kind}, parameter, public :: CVL_{name} = {value}"


def _constants():
    yield "    ! The version of this module; cvl_version() tells that of the library."
    for part, number in zip(("MAJOR", "MINOR", "PATCH"), table.VERSION.split(".")):
        yield _constant(f"VERSION_{part}", number, "integer")
    yield from ("", "    ! The most elements of a vector, and the greatest total of lengths.")
    yield _constant("MOST_ELEMENTS", table.MOST_ELEMENTS)
    yield from ("", "    ! The numbers of a status.")
    yield from (_constant(in_c.constant(name), number) for number, name in table.STATUSES)
    yield from ("", "    ! The numbers of operators.")
    yield from (f"{_constant(found.name, found.number)} ! {found.sentence}" for found in table.OPERATORS)


def _publics():
    yield "    public :: cvl_build, cvl_fault_name, cvl_set_threads, cvl_threads, cvl_version"
    for procedure in dict.fromkeys(procedure.public for procedure in procedures()):
        yield f"    public :: {procedure}"
    for name, names in _generics().items():
        yield ""
        yield f"    interface {name}"
        yield from _folded(f"module procedure {', '.join(names)}", "        ")
        yield f"    end interface {name}"


def _text(parts):
    """Several parts, each of which is some lines and an empty one."""
    return "\n".join(line for part in parts for line in part).rstrip("\n")


def module(template, both):
    """`bindings/fortran/cvl.f90`."""
    parts = {
        "note": f"! {rows.NOTE}",
        "constants": "\n".join(_constants()),
        "publics": "\n".join(_publics()),
        "families": _text([*_interface(row.family), ""] for row in rows.FAMILIES.values()),
        "procedures": _text(procedure.lines() for procedure in procedures()),
        "in_both": both.rstrip(),
    }
    return in_c.filled(template, parts)


# ---- the calls as the program has them that tries each on its example ----

TRIED_HEAD = f"""! Each subroutine on the operands of an example, by the name of the call or the family, and `in` where an operand is the room.
! The elements of arrays are `step` places apart.
!
! {rows.NOTE}
"""


def _held(operand):
    """Which part of an operand holds it."""
    if operand.kind in ("text", "flag"):
        return operand.kind
    if rows.is_array(operand) or operand.role == "lengths":
        return f"{operand.kind if operand.kind in ('flags', 'bytes', 'sums') else 'ints'}(::step)"
    return {"integer(c_int32_t)": "int", "integer(c_int64_t)": "number", "integer(c_size_t)": "count"}[_type(operand)]


def _tried(procedure):
    """The lines that make one call."""
    row, place = procedure.row, procedure.place
    key = f"{row.name}{' in' if place else ''}"
    operator = ["op"] if "op" in procedure.words else []
    held = [f"o({row.operands.index(operand) + 1})%{_held(operand)}" for operand in procedure.operands]
    yield f'        case ("{key}")'
    if place:
        yield f"            place = {row.operands.index(place) + 1}"
    yield from _folded(f"call {procedure.public}({', '.join([*operator, *held, 'status'])})", "            ")


def tried_calls():
    """`bindings/fortran/tests/calls.inc`."""
    found = [procedure for row in in_examples.with_family() for procedure in _forms(row) if not procedure.narrow]
    return TRIED_HEAD + "\n".join([*(line for procedure in found for line in _tried(procedure)), ""])
