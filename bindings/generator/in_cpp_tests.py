"""What is written for the tests in C++: each function on the operands of its example, in all its forms, and with lengths that do not agree."""

import in_cpp
import packages
import rows
import table
from packages import name_of

HEAD = f"""// Each function on the operands of its example. `more` are a room, a status, both or nothing.
// {rows.NOTE}
"""

MADE = {"ints": "ints", "flags": "flags", "bytes": "bytes", "sums": "sums", "marks": "marks"}


def _literal(operand, words, less=0):
    """An operand of an example, with so many elements less."""
    if operand.kind == "text":
        return words
    found = [{"-2147483648": "INT32_MIN"}.get(word, word) for word in words.split()]
    if operand.role == "lengths":
        return f"cvl::Segments(ints({{{', '.join(found)}}}))"
    if operand.role in ("reads", "room"):
        return f"{MADE[operand.kind]}({{{', '.join(found[: len(found) - less])}}})"
    return found[0]


def _operator(function):
    if function.row.call or not function.family.operators:
        return []
    name = (function.example or {}).get("op") or next(name for name in ("ADD", "IOR") if name in function.family.operators)
    return [f"cvl::Operator::{name.title()}"]


def _called(function, operands, end, less=None):
    words = [_literal(operand, function.example[operand.name], operand is less) for operand in operands]
    return f"[](auto &&...{end}) {{ return cvl::{function.name}({', '.join([*_operator(function), *words, f'{end}...'])}); }}"


def _differing(function):
    """The second of two arrays that have to be as long as each other, with one element less."""
    for extent in function.extents:
        alike = [operand for operand in function.alike(extent) if operand.kind != "text"]
        if len(alike) > 1 or alike and any(cut.extent == extent for cut in function.cuts):
            return alike[-1]
    return None


def _tried(function):
    """A line for a function with an example."""
    name, result = function.name, function.result
    if function.makes_segments or function.gives_segments:
        words = function.example["lengths" if function.makes_segments else "out"].split()
        wanted = f"ints({{{', '.join(words)}}})"
        operands = function.operands
        form = "segments"
    elif function.is_written_over:
        rooms = [room for room in function.rooms]
        wanted = ", ".join(_literal(room, function.example[room.name]) for room in rooms)
        before = ", ".join(
            _literal(room, function.example[table.before(room.name)])
            if room.over
            else "another(" + _literal(room, function.example[room.name]) + ")"
            for room in rooms
        )
        told = f", {function.example[function.told[0].name]}" if function.told else ""
        yield f'over("{name}", std::tuple({before}), std::tuple({wanted}){told or ", 0"}, {_called(function, function.operands, "more")});'
        return
    elif result.role == "single":
        words = function.example["out"]
        wanted, operands, form = f"{in_cpp.GIVEN[result.kind]}({words})", function.operands, "single"
    else:
        wanted = f"std::string({function.example['out']})" if result.kind == "text" else _literal(result, function.example["out"])
        operands, form = function.operands, "fresh"
    differing = _differing(function)
    wrong = f', {_called(function, operands, "more", differing)}, "{name_of(differing)}"' if differing else ""
    yield f'{form}("{name}", {wanted}, {_called(function, operands, "more")}{wrong});'
    if form == "fresh":
        beside = in_cpp._beside_room(function)
        yield f'room("{name}", {wanted}, {"COUNTED" if function.is_counted else "ANY" if function.is_sized else "EXACT"}, {_called(function, beside, "more")});'
        for names in function.family.in_place:
            if len(names) == 1:
                yield _in_place(function, beside, names[0], wanted)


def _in_place(function, operands, name, wanted):
    """A function whose room is one of its operands."""
    words = [operand.name if operand.name == name else _literal(operand, function.example[operand.name]) for operand in operands]
    before = _literal(next(operand for operand in operands if operand.name == name), function.example[name])
    called = f"[](auto &{name}) {{ cvl::{function.name}({', '.join([*_operator(function), *words, name])}); }}"
    return f'in_place("{function.name}", {before}, {wanted}, {called});'


def tried():
    """`tests/cpp/tried_calls.hpp`."""
    functions = [function for function in in_cpp.WRITTEN if function.example]
    return "\n".join([HEAD, *(line for function in functions for line in _tried(function)), ""])
