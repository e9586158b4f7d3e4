"""What is written in C++: `include/cvl.hpp`, a function for each call, and for each function that no script calls. The parts that have no row
are in `bindings/cpp`."""

import itertools
import pathlib
import re
import textwrap

import in_c
import packages
import rows
import table
from packages import name_of

WIDTH = 128
PARTS = pathlib.Path(__file__).resolve().parent.parent / "cpp"

TAKEN = {
    "ints": "Ints ",
    "flags": "Bools ",
    "bytes": "Bytes ",
    "text": "std::string_view ",
    "int": "std::int32_t ",
    "flag": "bool ",
    "sum": "std::int64_t ",
    "size": "std::size_t ",
}
ROOMS = {
    "ints": "IntRoom ",
    "flags": "BoolRoom ",
    "bytes": "ByteRoom ",
    "text": "TextRoom ",
    "marks": "MarkRoom ",
    "sums": "SumRoom ",
}
GIVEN = {
    "ints": "std::vector<std::int32_t>",
    "flags": "Flags",
    "bytes": "std::vector<std::uint8_t>",
    "text": "std::string",
    "sums": "std::vector<std::int64_t>",
    "int": "std::int32_t",
    "flag": "bool",
    "sum": "std::int64_t",
}

NAMES = dict(table.STATUSES)
NUMBERS = {name: number for number, name in table.STATUSES}

# words that no function and no parameter may have as its name
KEYWORDS = set(
    "alignas alignof and and_eq asm auto bitand bitor bool break case catch char class compl concept const consteval constexpr constinit continue "
    "co_await co_return co_yield decltype default delete do double dynamic_cast else enum explicit export extern false float for friend goto if inline "
    "int long mutable namespace new noexcept not not_eq nullptr operator or or_eq private protected public register reinterpret_cast requires return "
    "short signed sizeof static static_assert static_cast struct switch template this thread_local throw true try typedef typeid typename union "
    "unsigned using virtual void volatile wchar_t while xor xor_eq call found op status told".split()
)


class Function(packages.Call):
    """A call, or a function that no script calls."""

    @property
    def rooms(self):
        return self.row.rooms

    @property
    def told(self):
        return [operand for operand in self.row.operands if operand.role == "told"]

    @property
    def is_counted(self):
        """Whether only the call tells how long its result is."""
        return bool(self.told) and any(room.extent == "room" for room in self.rooms)

    @property
    def is_written_over(self):
        """Whether a caller always has the room: what stands in it is a part of the result, or the room is a range of another one."""
        return any(room.over or room.extent == "range" for room in self.rooms)

    @property
    def is_by_hand(self):
        """Whether it has two results, each of a length that only the call tells."""
        return self.is_counted and len(self.told) > 1


FUNCTIONS = [*(Function(row) for row in rows.CALLS), *(Function(row) for row in packages.BESIDE)]
WRITTEN = [function for function in FUNCTIONS if not function.is_by_hand]


# ---- the parts of a function ----


def _type(operand):
    if operand.role == "room":
        return ROOMS[operand.kind]
    if operand.role == "lengths":
        return "const Segments &"
    return "std::int64_t " if operand.role in ("place", "count") else TAKEN[operand.kind]


def _parameters(operands):
    return [in_c.kept(f"{_type(operand)}{name_of(operand)}") for operand in operands]


def _beside_room(function):
    """The operands that stand beside a room, which says how long the result is."""
    return [operand for operand in function.operands if not (function.is_sized and operand == packages.COUNT)]


def _passed(function):
    """What the library is given."""

    def word(argument):
        operand = argument.operand
        if operand is None:
            return "op"
        name = name_of(operand)
        if argument.size:
            return f"{name}.size()"
        at = {
            "reads": f"{name}.data()",
            "room": f"{name}.data()",
            "single": f"&{name}",
            "told": f"&{name}",
            "lengths": f"given({name})",
        }
        return at.get(operand.role, name)

    return [word(argument) for argument in rows.FAMILIES[function.family.name].arguments]


def _faults_about(function):
    """The faults that are about an operand of a family, those of its operators too."""
    of_operators = [found.fault for found in table.OPERATORS if found.name in function.family.operators and found.fault]
    return [
        fault
        for fault in (*function.family.faults, *of_operators, *(table.BAD_COUNT if function.is_sized else ()))
        if fault.about
    ]


def _about(function, operand):
    """The names of faults that are about an operand, and where its indices lead."""
    faults = [fault for fault in _faults_about(function) if fault.about == operand.name]
    numbers = {number for fault in faults for number in fault.numbers if number != NUMBERS["LengthMismatch"]}
    if operand is function.limited:
        numbers.add(NUMBERS["TooLong"])
    return [NAMES[number] for number in sorted(numbers)], next((fault.into for fault in faults if fault.into), None)


def _argument(function, operand):
    """An operand as messages name it."""
    names, into = _about(function, operand)
    words = [f'"{name_of(operand)}"']
    if operand.role in ("reads", "room", "lengths"):
        words.append(f"Extent::{operand.extent}")
    words.append(name_of(operand))
    if names:
        words.append(f"about({', '.join(f'CVL_{in_c.constant(name)}' for name in names)})")
    return in_c.kept("{" + ", ".join([*words, *([f'"{into}"'] if into else [])]) + "}")


def _arguments(function, operands):
    return (
        "{"
        + ", ".join(_argument(function, operand) for operand in operands if operand.role not in ("value", "single", "told"))
        + "}"
    )


def _block(head, lines):
    """A function, on one line if there is room."""
    line = f"{head} {{ {' '.join(lines)} }}".replace(in_c.KEPT, " ")
    if len(line) <= WIDTH:
        return line
    return "\n".join(
        [
            in_c.wrapped(f"{head}{in_c.kept(' {')}", width=WIDTH),
            *(textwrap.indent(in_c.wrapped(text, width=WIDTH - 4), "    ") for text in lines),
            "}",
        ]
    )


# ---- families ----


def _head(given, function, parameters):
    operator = ["std::uint32_t op"] if function.family.operators else []
    words = ["const char *call", *operator, *parameters, "Status &status"]
    return f"inline {given} {function.family.name}({', '.join(map(in_c.kept, words))}) noexcept"


def _called(function):
    """The call of the library."""
    name = f"cvl_{function.family.name}"
    run = f"run({name}" if function.family.cut is None else f"run_in_parts({name}, {name}_on"
    return f"const CvlStatus found = {run}, {', '.join(_passed(function))});"


def _single(function):
    """A family that gives one value."""
    out = function.result.name
    return _block(_head(GIVEN[function.result.kind], function, _parameters(function.operands)), [
        f"{GIVEN[function.result.kind]} {out} = {{}};", f"if (!status.ok()) return {out};", _called(function),
        f"if (found.number != CVL_DONE){in_c.KEPT}tell(status, found, call, {_arguments(function, function.operands)});", f"return {out};",
    ])  # fmt: skip


def _into(function):
    """A family into its rooms."""
    operands = [*_beside_room(function), *function.rooms]
    told = function.told[0].name if function.told else ""
    needed = f", {told}" if function.is_counted else ""
    return _block(_head("std::size_t" if told else "void", function, _parameters(operands)), [
        f"if (!status.ok()) return{' 0' if told else ''};", *([f"std::size_t {told} = {'not_told' if function.is_counted else '0'};"] if told else []),
        _called(function), f"if (found.number != CVL_DONE){in_c.KEPT}tell(status, found, call, {_arguments(function, operands)}{needed});",
        *([f"return found.number == CVL_DONE ? {told} : 0;"] if told else []),
    ])  # fmt: skip


def _alike(function, extent):
    """The lengths that have to be as one another."""
    found = [f"{operand.name}.size()" for operand in function.alike(extent)]
    cuts = [f"{name_of(cut)}.size()" for cut in function.cuts] if extent == "segments" else []
    return [*found, *cuts, *(f"{name_of(cut)}.total()" for cut in function.cuts if cut.extent == extent)]


def _agree(function):
    """Whether the lengths of arguments agree, and none is too long."""
    if function.alike("offsets"):
        return []  # the library reports the faults of offsets first
    extents = [*function.extents, *(["segments"] if function.cuts else [])]
    groups = [_alike(function, extent) for extent in dict.fromkeys(extents)]
    most = [f"{function.limited.name}.size() <= CVL_MOST_ELEMENTS"] if function.limited else []
    return [*most, *(f"{group[0]} == {other}" for group in groups for other in group[1:])]


def _size(function):
    """How long the result is."""
    extent = function.result.extent
    if function.alike("offsets"):
        return f"one_less({function.alike('offsets')[0].name}.size())"
    by = function.measure()
    if by:
        return f"{name_of(by)}.total()" if by.role == "lengths" else f"true_flags({by.name})"
    if extent == "both":
        return " + ".join(f"{operand.name}.size()" for operand in function.alike("n") + function.alike("m"))
    return "places(count)" if function.is_sized or extent == "count" else _alike(function, extent)[0]


def _new(function):
    """A family with a new result."""
    given, room = GIVEN[function.result.kind], _type(function.result).strip()
    operator = ["op"] if function.family.operators else []
    words = [*operator, *(name_of(operand) for operand in _beside_room(function)), "out"]
    name = f"detail::{function.family.name}"
    head = _head(given, function, _parameters(function.operands))
    if function.is_counted:
        made = f"[&](const char *said, {room} out, Status &told) {{ return {name}({', '.join(['said', *words, 'told'])}); }}"
        return _block(head, [f"return counted<{given}>(call, status, {in_c.kept(made)});"])
    agree = " && ".join(_agree(function))
    size = f"size_if({agree}, {_size(function)})" if agree else _size(function)
    count = "may_be_count(count, call, status) && " if function.is_sized else ""
    called = f"{name}({', '.join(['call', *words, 'status'])});"
    fits = f"const bool fits = {count}fit(out, {size}, call, status);"
    return _block(
        head, [f"{given} out;", fits, f"if (fits){in_c.KEPT}{called}", f"if (!status.ok()) out = {given}();", "return out;"]
    )


def _family(function):
    if function.result.role == "single":
        return _single(function)
    return "\n".join([_into(function), *([] if function.is_written_over else [_new(function)])])


def families():
    """The functions of families, of which each call is one with an operator."""
    found = {function.family.name: function for function in WRITTEN if not function.makes_segments}
    return "\n\n".join(map(_family, found.values()))


# ---- calls ----


def _of_family(function, operands, end="status"):
    """The call of a function's family."""
    operator = (
        [f"CVL_{function.row.operator}"]
        if function.row.operator
        else ["static_cast<std::uint32_t>(op)"]
        if function.family.operators
        else []
    )
    words = [f'"{function.name}"', *operator, *map(name_of, operands), end]
    return f"detail::{function.family.name}({', '.join(words)})"


def _forms(function):
    """The forms of a function: what each gives, its operands, and how it is made."""
    if function.makes_segments:
        yield "Segments", function.operands, f"return Segments({function.operands[0].name}, status);"
    elif function.gives_segments:
        yield "Segments", function.operands, f"return Segments({_of_family(function, function.operands)}, status);"
    elif function.result.role == "single" or not function.is_written_over:
        yield GIVEN[function.result.kind], function.operands, f"return {_of_family(function, function.operands)};"
    if function.rooms and not function.gives_segments:
        operands = [*_beside_room(function), *function.rooms]
        yield "std::size_t" if function.told else "void", operands, f"{'return ' if function.told else ''}{_of_family(function, operands)};"


def _has_operator(function):
    """Whether a caller names the operator."""
    return function.row.call is None and bool(function.family.operators)


def _taken(function, operands):
    """The parameters of a form."""
    return [*(["Operator op"] if _has_operator(function) else []), *_parameters(operands)]


def _both(function, given, operands, made):
    """A form without exceptions, and the one that throws."""
    parameters = _taken(function, operands)
    words = ", ".join([*(["op"] if _has_operator(function) else []), *map(name_of, operands), "status"])
    mark = "[[nodiscard]] " if operands == function.operands and given != "void" else ""
    called = f"cvl::{function.name}({words})"
    checked = [f"{called};", "detail::check(status);"] if given == "void" else [f"return detail::checked({called}, status);"]
    head = f"{mark}inline {given} {function.name}"
    yield _block(f"{head}({', '.join(map(in_c.kept, [*parameters, 'Status &status']))}) noexcept", [made])
    yield _block(f"{head}({', '.join(parameters)})", ["Status status;", *checked])


def _by_hand():
    """The text in C++ of the function that is written by hand."""
    return (PARTS / "nested.hpp.in").read_text().rstrip("\n")


def declaration(function):
    """The form that throws, with a new result if it has such a form."""
    if function.is_by_hand:
        *_, (given, parameters) = re.findall(rf"^\[\[nodiscard\]\] inline (.*) {function.name}\((.*)\) {{$", _by_hand(), re.M)
    else:
        given, operands, _ = next(_forms(function))
        parameters = ", ".join(_taken(function, operands)).replace(in_c.KEPT, " ")
    return f"{given} cvl::{function.name}({parameters})"


def _in_cpp(text):
    """A sentence of the table as C++ has it."""
    named = {found.name for found in table.OPERATORS}
    text = re.sub(r"CVL_([A-Z]+)\b", lambda found: f"Operator::{found[1].title()}" if found[1] in named else found[0], text)
    return re.sub(r"\b(?:cvl_(\w+))", r"\1", text)


def _comment(function):
    """What a function does, its faults beside those of lengths, and what may be the room."""
    of_count = table.BAD_COUNT if function.is_sized else ()
    faults = "; ".join(fault.said for fault in (*of_count, *function.row.faults) if fault not in table.OF_LENGTHS)
    said = [
        function.sentences,
        f"Faults: {faults}." if faults else "",
        f"In place: {function.in_place_words}" if function.in_place_words else "",
    ]
    return "\n".join(textwrap.wrap(_in_cpp(" ".join(filter(None, said))), WIDTH, initial_indent="/// ", subsequent_indent="/// "))


def _function(function):
    return "\n".join(line for form in _forms(function) for line in _both(function, *form))


def calls():
    """All functions, those of a section under its title."""
    blocks = []
    for section, group in itertools.groupby(FUNCTIONS, key=lambda function: function.row.section):
        blocks.append(f"// -- {section} --")
        for function in group:
            if function.is_by_hand:
                blocks.append(_by_hand())
            else:
                blocks.append(f"{_comment(function)}\n{_function(function)}")
    return "\n\n".join(blocks)


# ---- the header ----


def _faults():
    lines = [
        f"inline constexpr std::uint32_t {in_c.constant(name).lower()} = CVL_{in_c.constant(name)};"
        for _, name in table.STATUSES[1:]
    ]
    return "\n".join(["/// The numbers of faults.", "namespace faults {", *lines, "} // namespace faults", ""])


def _operators():
    used = {name for function in WRITTEN if function.row.call is None for name in function.family.operators}
    lines = [
        f"    {found.name.title()} = CVL_{found.name}, // {found.sentence}" for found in table.OPERATORS if found.name in used
    ]
    return "\n".join(["enum class Operator : std::uint32_t {", *lines, "};"])


def _extents():
    extents = dict.fromkeys(operand.extent for row in rows.FAMILIES.values() for operand in row.operands if operand.extent)
    return in_c.wrapped(f"enum class Extent : unsigned char {{ alone, {', '.join(extents)} }};", width=WIDTH)


def header():
    """`include/cvl.hpp`."""
    parts = {
        name: (PARTS / f"{name}.hpp.in").read_text()
        for name in ("spans", "flags", "status", "pools", "messages", "segments", "results")
    }
    parts |= {"note": f" * {rows.NOTE}", "faults": _faults(), "operators": _operators(), "families": families(), "calls": calls()}
    parts["messages"] = in_c.filled(parts["messages"], {"extents": _extents()})
    return in_c.filled((PARTS / "cvl.hpp.in").read_text(), parts)


def differences():
    """Names that no function or parameter may have in C++; and faults about operands that are not there."""
    for function in FUNCTIONS:
        for name in (function.name, *(name_of(operand) for operand in function.row.operands)):
            if name in KEYWORDS:
                yield f"{function.name}: {name} may be no name in C++"
        operands = {operand.name for operand in (*function.operands, *function.row.operands)}
        for fault in _faults_about(function):
            for name in filter(None, (fault.about, fault.into)):
                if name not in operands:
                    yield f"{function.name} has no {name}, which {fault.said} is about"
