"""What is written of `cvl.Ragged`: its methods in Python, with annotations and descriptions, the functions with numpy's names on
flat arrays, and the tables of `docs/user/ragged.md`."""

import re
import textwrap

import ragged_table as table
import rows

WIDTH = 118
EXAMPLE = "r = cvl.Ragged([[3, 1], [], [4, 1, 5]])"
# operators of Python that change their left side where it is, and those that numpy has not swapped
SWAPPED = ("add", "sub", "mul", "floordiv", "mod", "lshift", "rshift", "and", "or", "xor")
JOINED = {"add": "ADD", "multiply": "MUL", "minimum": "MIN", "maximum": "MAX", "and": "AND", "or": "IOR", "xor": "XOR"}

HEAD = f'''"""The methods and operators of `cvl.Ragged`. {rows.NOTE}"""

from __future__ import annotations

from typing import TYPE_CHECKING, Any, NoReturn, Optional, Sequence, SupportsIndex, Tuple, Union

import numpy

from cvl import _elementwise, _rows, _whole
from cvl._elementwise import Operation, flags, ints
from cvl.calls import (
{{calls}}
)

if TYPE_CHECKING:
    from cvl._kinds import FlagArray, IntArray, SumArray
    from cvl.ragged import Ragged

    Numbers = Union[IntArray, SumArray, Ragged]
    Truths = Union[FlagArray, Ragged]
    Values = Union[IntArray, FlagArray, Ragged]
'''


def _wrapped(text, indent):
    return [f"{indent}{line}" for line in textwrap.wrap(text, WIDTH - len(indent))]


def _description(row, indent, example=EXAMPLE):
    """The lines of a docstring: what it gives, what numpy says, the calls, and an example."""
    says, *more = [*_wrapped(f'"""{row.says}', indent)]
    beside = [f"numpy: {row.numpy}." if row.numpy else "", row.differs, f"Calls: {row.calls}."]
    lines = [says, *more, "", *_wrapped(" ".join(filter(None, beside)), indent), ""]
    lines += [f"{indent}>>> {line}" for line in ("import cvl", *filter(None, [example]))]
    if row.shown:
        lines += [f"{indent}>>> {row.example}.tolist()", f"{indent}{row.shown}"]
    else:
        lines = lines[: -1 - bool(example)][:-1]
    return [*lines, f'{indent}"""']


def _names(takes):
    return [part.split(":")[0].strip() for part in takes]


def _tuple(names):
    return f"({', '.join(names)}{',' if len(names) == 1 else ''})"


# ---- operators ----


def _operation(row):
    return f"{row.name.upper()} = Operation({row.name!r}, {row.ints}, {row.flags}, {row.only!r})".replace("'", '"')


def _dunder(word, body, more=""):
    return [f"    def __{word}__(self: Any, other: Any) -> Ragged:{more}", f"        return {body}", ""]


def _operators(row):
    """The methods of an operator: between a `Ragged` and another value, swapped, and where it is."""
    name = row.name.upper()
    yield from _dunder(
        row.word, f"self._applied({name}, other)", "  # type: ignore[override]" if row.word in ("eq", "ne") else ""
    )
    if row.word in SWAPPED:
        yield from _dunder(f"r{row.word}", f"self._applied({name}, other, True)")
        yield from _dunder(f"i{row.word}", f"self._changed({name}, other)")


def _refused(sign, word, said):
    for name in (word, f"r{word}"):
        yield f"    def __{name}__(self, other: Any) -> NoReturn:"
        yield from [f'        raise TypeError("a Ragged has no {sign}: {said}")', ""]


def _absent(name, said):
    head = f"    def {name}(self, *given: Any, **named: Any) -> NoReturn:"
    return [head, f'        """Raises what to write: {said}."""', f'        raise TypeError("{said}")', ""]


def _unary(word):
    lines = [f"    def __{word[2]}__(self: Any) -> Ragged:", f"        return self._on_rows(_elementwise.{word[0]})", ""]
    return lines if word[2] else []


# ---- methods ----


def _one_call(row):
    """The function that makes the one call of a method."""
    call, kind = row.call.split()
    made = f"{call}({kind}(rows._values), rows._segments)"
    made = made if row.section == table.ROW else f"rows._with({made})"
    return [f"def _{row.name}(rows: Any) -> Any:", f"    return {made}", "", ""]


def _method(row):
    takes = [f"{name}: Any" for name in row.beside] + list(row.fixed)
    gives = "Ragged" if row.gives == "self" else row.gives
    lines = [f"    def {row.name}({', '.join(['self: Any', *takes])}) -> {gives}:", *_description(row, " " * 8)]
    if row.gives == "self":
        joined = JOINED[row.name[: -len("_at")]]
        return [*lines, f'        self._on_rows(_rows.at, (index, values), ("{joined}",))', "        return self", ""]
    function = f"_{row.name}" if row.call else f"_rows.{row.name}"
    given = [_tuple(row.beside), _tuple(_names(row.fixed))] if row.fixed else [_tuple(row.beside)] if row.beside else []
    return [*lines, f"        return self._on_rows({', '.join([function, *given])})", ""]


def _whole(row):
    is_static = row.gives.startswith("static ")
    takes = ([] if is_static else ["self: Any"]) + list(row.fixed)
    names = ([] if is_static else ["self"]) + _names(row.fixed)
    lines = ["    @staticmethod"] if is_static else []
    lines += [f"    def {row.name}({', '.join(takes)}) -> {row.gives.replace('static ', '')}:", *_description(row, " " * 8)]
    return [*lines, f"        return _whole.{row.name}({', '.join(names)})", ""]


def _imported():
    """The calls that the rows name."""
    named = {row.call.split()[0] for row in table.METHODS if row.call}
    named |= {call for row in table.OPERATIONS for call in (row.ints, row.flags) if call and "." not in call}
    return textwrap.fill(", ".join(sorted(named)) + ",", WIDTH, initial_indent="    ", subsequent_indent="    ")


def methods():
    """`bindings/python/cvl/_methods.py`."""
    one_call = [line for row in table.METHODS if row.call for line in _one_call(row)]
    class_lines = [line for row in table.METHODS for line in _method(row)] + [line for row in table.WHOLE for line in _whole(row)]
    class_lines += [line for row in table.OPERATIONS if row.word for line in _operators(row)]
    class_lines += [line for row in table.UNARY for line in _unary(row)]
    class_lines += [line for row in table.REFUSED for line in _refused(*row)]
    class_lines += [line for row in table.ABSENT for line in _absent(*row)]
    joined = {row.numpy.split("(")[0][: -len(".at")]: row.name for row in table.METHODS if row.gives == "self"}
    return "\n".join([
        HEAD.format(calls=_imported()),
        *map(_operation, table.OPERATIONS),
        "",
        "OPERATIONS = {",
        *(f"    numpy.{row.name}: {row.name.upper()}," for row in table.OPERATIONS),
        "}",
        "UNARY = {",
        *(f"    numpy.{row[0]}: _elementwise.{row[0]}," for row in table.UNARY),
        "}",
        "joined_at = {",
        *(f'    {ufunc}: "{name}",' for ufunc, name in joined.items()),
        "}",
        "",
        "",
        *one_call,
        "class Methods:",
        '    """What `cvl.Ragged` does to its rows."""',
        "",
        "    __slots__ = ()",
        "",
        *class_lines[:-1],
        "",
    ])  # fmt: skip


def flat():
    """`bindings/python/cvl/named.py`."""
    functions = []
    for row in table.FLAT:
        functions += ["", "", f"def {row.name}({row.takes}) -> {row.gives}:", *_description(row, "    ", "")]
        functions += [f"    return _flat.{row.name}({', '.join(_names(row.takes.split(', ')))})"]
    return "\n".join([
        f'"""Functions with numpy\'s names on flat arrays; lists and other numbers are taken if they fit 32 bits. {rows.NOTE}"""',
        "",
        "from __future__ import annotations",
        "",
        "from typing import TYPE_CHECKING, Any, Tuple, Union",
        "",
        "from cvl import _flat",
        "",
        "if TYPE_CHECKING:",
        "    from cvl._kinds import FlagArray, IntArray",
        "    from cvl.ragged import Ragged",
        "",
        "    Values = Union[IntArray, FlagArray, Ragged]",
        "",
        f"__all__ = {[row.name for row in table.FLAT]}".replace("'", '"'),
        *functions,
        "",
    ])  # fmt: skip


# ---- the page ----


def _taken(part):
    """A parameter without its kind."""
    name, _, default = part.partition(" = ")
    return name.split(":")[0] + (f"={default}" if default else "")


def _of_methods(section):
    """A row for each method; those that change rows at indices share one, with the first one's arguments."""
    yield from ["| Method | What it gives |", "|---|---|"]
    found = [row for row in (*table.METHODS, *table.WHOLE) if row.section == section]
    changing = [row for row in found if row.gives == "self"]
    for row in found:
        takes = ", ".join([*row.beside, *map(_taken, row.fixed)])
        name = f"Ragged.{row.name}" if row.gives.startswith("static ") else row.name
        if row in changing[:1]:
            others = " ".join(f"`{other.name}`" for other in changing[1:])
            yield f"| `{name}({takes})` {others} | {table.AT_ON_PAGE} In numpy `{row.numpy}`. |"
        elif row not in changing:
            # the page says this once, above its table
            differs = "" if row.differs.startswith(table.NO_EMPTY) else row.differs
            elsewhere = f"In numpy `{row.numpy}`." if row.numpy and not re.search(rf"\.{row.name}\b", row.numpy) else ""
            says = " ".join(filter(None, [row.says, elsewhere, differs])).replace("|", "\\|")
            yield f"| `{name}({takes})` | {says} |"


def _of_operators():
    """A row for each line of operators, which have each one once."""
    signs = {row.name: row.sign for row in table.OPERATIONS} | {row[0]: row[1] for row in table.UNARY}
    if sorted(name for names, _ in table.ON_PAGE for name in names.split()) != sorted(signs):
        raise ValueError("bindings/ragged_table.py: ON_PAGE has other operators than OPERATIONS and UNARY")
    yield from ["| Signs | In numpy | What they give |", "|---|---|---|"]
    for names, says in table.ON_PAGE:
        shown = " ".join(f"`{signs[name]}`".replace("|", "\\|") for name in names.split() if signs[name])
        yield f"| {shown} | {' '.join(f'`{name}`' for name in names.split())} | {says} |"


def page(text):
    """`docs/user/ragged.md` with its tables."""
    tables = {"operators": _of_operators()}
    tables.update({section: _of_methods(section) for section in (table.ROW, table.ALONG, table.BETWEEN)})
    for name, lines in tables.items():
        written = "\n".join([f"<!-- written: {name} -->", "", *lines, "", "<!-- end -->"])
        text = re.sub(rf"<!-- written: {name} -->\n.*?<!-- end -->", lambda _: written, text, flags=re.S)
    return text
