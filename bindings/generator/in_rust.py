"""What is written in Rust over slices: a safe function for each call, and for texts and what a part of a call needs; one that
writes into a room; one in place, over an argument; and their examples as tests."""

import re
import textwrap

import in_c
import packages
import rows
import table
from in_rust_sys import documented, shown
from packages import name_of

HEAD = """//! {about}
//!
//! {note}

{uses}
"""

TAKEN = {
    "ints": "&[i32]",
    "flags": "&[bool]",
    "bytes": "&[u8]",
    "text": "impl AsRef<[u8]>",
    "int": "i32",
    "flag": "bool",
    "sum": "i64",
    "size": "usize",
}
GIVEN = {
    "ints": "Vec<i32>",
    "flags": "Vec<bool>",
    "bytes": "Vec<u8>",
    "text": "String",
    "sums": "Vec<i64>",
    "int": "i32",
    "flag": "bool",
    "sum": "i64",
}
ROOMS = {
    "ints": "&mut [i32]",
    "flags": "&mut [bool]",
    "bytes": "&mut [u8]",
    "text": "&mut [u8]",
    "marks": "&mut [u32]",
    "sums": "&mut [i64]",
}

# The most bytes of an element in a text that is written: an integer has up to 11 and a blank, a boolean one and a blank.
BYTES = {"ints": 12, "flags": 2}

# The functions that are no call; what gives two vectors is written by hand.
FAMILIES = [call for call in map(packages.Call, packages.BESIDE) if not call.gives_two]


def _enough(function):
    """How many places are enough for a result of which nobody knows the length before, or nothing. In a text that is written a list has two
    brackets and a blank, and all together two brackets."""
    first, result = function.row.takes[0], function.result
    if function.counts and any(operand.kind == "text" for operand in function.row.takes):
        return "most_words(text)"
    if result is None or result.kind != "text":
        is_measured = not function.counts or any(operand.use == "mask" for operand in function.row.takes)
        return None if is_measured else f"{first.name}.len()"
    of_lists = "".join(f" + 3 * {packages.name_of(cut)}.len()" for cut in function.cuts)
    return f"{BYTES[first.kind]} * {first.name}.len(){of_lists} + 2"


def _has_ranges(function):
    """Whether its rooms are a range of the result, which may hold something already."""
    return any(operand.extent == "range" for operand in function.row.operands)


def _words(operand, words):
    """An operand of an example in Rust."""
    if operand.kind == "text":
        return words
    return f"&[{', '.join(words.split())}]" if operand.role in ("reads", "lengths") else words


def _literal(function, operand):
    return _words(operand, function.example[operand.name])


def _operator_of_example(function):
    if function.example and "op" in function.example:
        return function.example["op"].title()
    return "Add" if any("int" in operand.kind for operand in function.operands) else "Ior"


def _cuts(function):
    """The lines of an example that make the segments."""
    return [f"let {name_of(cut)} = cvl::Segments::new({_literal(function, cut)})?;" for cut in function.cuts]


def _operator(function, text):
    """A function of a family takes its operator."""
    return [text] if function.row.call is None and function.family.operators else []


def _beside_room(function):
    """The operands that stand beside a room, which says how long the result is."""
    return [operand for operand in function.operands if not (function.is_sized and operand == packages.COUNT)]


def _example_arguments(function, place=None, operands=None):
    found = _operator(function, f"cvl::Operator::{_operator_of_example(function)}")
    for operand in function.operands if operands is None else operands:
        if operand == place:
            found.append(f"&mut {operand.name}")
        else:
            found.append(f"&{name_of(operand)}" if operand.role == "lengths" else _literal(function, operand))
    return found


def _result(function):
    """The result of the example in Rust."""
    if function.result is not None and function.result.kind == "text":
        return function.row.example["out"]
    return f"[{', '.join(function.given)}]" if function.fills or function.gives_segments else function.given[0]


def _asserted(left, right):
    """A comparison, on several lines where one is too short."""
    line = f"assert_eq!({left}, {right});"
    return [line] if len(line) <= 118 else ["assert_eq!(", f"    {left},", f"    {right}", ");"]


def _example(function):
    yield from _cuts(function)
    if _has_ranges(function):
        yield from _example_of_range(function)
        return
    if function.over:
        yield from _example_over(function)
        return
    call = f"cvl::{function.name}({', '.join(_example_arguments(function))})?"
    yield from _asserted(f"{call}{'.lengths()' if function.gives_segments else ''}", _result(function))


def _example_of_range(function):
    example, rooms = function.row.example, function.row.rooms
    zeros = ["false" if room.kind == "flags" else "0" for room in rooms]
    held = [", ".join(example[table.before(room.name)].split()) if room.over else None for room in rooms]
    arrays = [f"[{before or f'{zero}; {len(example[room.name].split())}'}]" for room, zero, before in zip(rooms, zeros, held)]
    found = [f"[{', '.join(example[room.name].split())}]" for room in rooms]
    several = len(rooms) > 1
    yield f"let {_tuple([f'mut {room.name}' for room in rooms], several)} = {_tuple(arrays, several)};"
    arguments = ", ".join([*_example_arguments(function), *(f"&mut {room.name}" for room in rooms)])
    yield from _asserted(f"cvl::{function.name}({arguments})?", example[_told(function).name])
    yield f"assert_eq!({_tuple([room.name for room in rooms], several)}, {_tuple(found, several)});"


def _example_over(function):
    rooms = [room.name for room in function.over]
    for room in rooms:
        yield f"let mut {room} = [{', '.join(function.example[table.before(room)].split())}];"
    yield f"cvl::{function.name}({', '.join([*_example_arguments(function), *(f'&mut {room}' for room in rooms)])})?;"
    for room in rooms:
        yield f"assert_eq!({room}, [{', '.join(function.example[room].split())}]);"


def _tuple(words, several):
    return f"({', '.join(words)})" if several else words[0]


def _told(function):
    """What a range tells beside its rooms."""
    return next(operand for operand in function.row.operands if operand.role == "told")


def _has_example(function):
    return function.row.example is not None


def _in_rust(text):
    """A sentence of the table as Rust has it: a function of a family without its prefix."""
    return re.sub(r"CVL_(\w+)", lambda found: f"`{found[1].title()}`", text).replace("cvl_", "")


def _comment(function):
    faults = function.faults
    lines = documented(_in_rust(function.sentences), faults and f"Faults: {_in_rust(faults)}", indent="")
    if _has_example(function):
        lines += _in_comment(_example(function))
    return lines


def _in_comment(lines):
    """An example in a comment."""
    return ["///", "/// ```", *(f"/// {line}" for line in lines), "/// # Ok::<(), cvl::Fault>(())", "/// ```"]


def _type_taken(operand):
    if operand.role == "lengths":
        return "&Segments"
    return "i64" if operand.role in ("place", "count") else TAKEN[operand.kind]


def _taken(function, place=None, operands=None):
    """The parameters of a function in Rust. In the form that works in place, the operand `place` is the room."""
    operands = function.operands if operands is None else operands
    return _operator(function, "operator: Operator") + [
        f"{name_of(o)}: {ROOMS[o.kind] if o == place else _type_taken(o)}" for o in operands
    ]


def _passed(function):
    """The parameters as a function passes them on to the one with a room."""
    return _operator(function, "operator") + [name_of(operand) for operand in _beside_room(function)]


def _text(function):
    """A text that is taken as any bytes."""
    return ["let text = text.as_ref();"] if any(operand.kind == "text" for operand in function.operands) else []


def _alike(function, extent):
    """The lengths that have to be as one another, the arrays' first."""
    found = [f"{operand.name}.len()" for operand in function.alike(extent)]
    if extent == "segments":
        return [*found, *(f"{name_of(cut)}.len()" for cut in function.cuts)]
    return [*found, *(f"{name_of(cut)}.total()" for cut in function.cuts if cut.extent == extent)]


def _checks(function):
    """The lines that tell a length that is too great, and then those that do not agree, before memory is asked for."""
    if function.alike("offsets"):
        # the library tells the faults of offsets first
        return
    if function.limited:
        yield f"limit({function.limited.name}.len())?;"
    for extent in dict.fromkeys([*function.extents, *(["segments"] if function.cuts else [])]):
        if len(_alike(function, extent)) > 1:
            yield f"same(&[{', '.join(_alike(function, extent))}])?;"


def _result_length(function):
    """How long the result is."""
    if function.alike("offsets"):
        return f"{function.alike('offsets')[0].name}.len().saturating_sub(1)"
    by = function.measure()
    if by:
        return f"{name_of(by)}.total()" if by.role == "lengths" else f"true_flags({by.name})"
    if function.result.extent == "both":
        return " + ".join(f"{operand.name}.len()" for operand in function.alike("n") + function.alike("m"))
    return (
        "places(count)?"
        if function.is_sized or function.result.extent == "count"
        else _alike(function, function.result.extent)[0]
    )


def _argument(function, argument):
    """What the library is given: each array with its length, whatever the others have."""
    operand = argument.operand
    if operand is None:
        return f"cvl_sys::CVL_{function.row.operator}" if function.row.operator else "operator as u32"
    if argument.size:
        return f"{operand.name}.len()"
    return {
        "reads": f"{operand.name}.as_ptr()",
        "room": f"{operand.name}.as_mut_ptr()",
        "single": "&mut out",
        "told": f"&mut {operand.name}",
        "lengths": f"{name_of(operand)}.given()",
    }.get(operand.role, operand.name)


def _called(function, place=None):
    """The call of the library, where an operand may be the room."""
    given = []
    for argument in rows._of_family(function.family):
        if place is not None and argument.operand in (place, function.result):
            given.append(f"{place.name}.len()" if argument.size else "out")
        else:
            given.append(_argument(function, argument))
    name = f"cvl_{function.family.name}"
    names = f"{name}" if function.family.cut is None else f"{name} | {name}_on"
    return f"call!({names}: {', '.join(given)})"


def _function(name, taken, answer, body):
    head = shown(f"pub fn {name}", taken, f" -> Result<{answer}, Fault> {{", indent="")
    return [*head, *(f"    {line}" for line in _wrapped(body)), "}"]


def _wrapped(body):
    for line in body:
        yield from textwrap.wrap(line, 118, subsequent_indent="    ", break_long_words=False, break_on_hyphens=False)


def _single(function):
    """A function that gives one value."""
    zero = "false" if function.result.kind == "flag" else "0"
    body = [f"let mut out = {zero};", f"{_called(function)}?;", "Ok(out)"]
    return _function(function.name, _taken(function), GIVEN[function.result.kind], body)


def _range(function):
    """A range of a result, into rooms of the caller's."""
    taken = [*_taken(function), *(f"{room.name}: {ROOMS[room.kind]}" for room in function.row.rooms)]
    told = _told(function).name
    return _function(function.name, taken, "usize", [f"let mut {told} = 0;", f"{_called(function)}?;", f"Ok({told})"])


def _over(function):
    """A function over a room that holds what stands before."""
    taken = [*_taken(function), *(f"{room.name}: {ROOMS[room.kind]}" for room in function.over)]
    return _function(function.name, taken, "()", [_called(function)])


def _into(function):
    """The function into a room."""
    body, answer, room = [*_text(function)], "()", "as long as the result"
    if function.counts:
        body += ["let mut count = NOT_TOLD;", f"{_called(function)}.map_err(|fault| fault.needing(count))?;", "Ok(count)"]
        answer, room = "usize", "as long as the result or longer, and how long that is"
    else:
        body.append(_called(function))
    said = f"into a room that is {room}" if not function.is_sized else "into a room, which says how many places the result has"
    said = documented(f"[`{function.name}`] {said}; a fault leaves the room as it was.", indent="")
    taken = [*_taken(function, operands=_beside_room(function)), f"out: {ROOMS[function.result.kind]}"]
    return [*said, *_function(f"{function.name}_into", taken, answer, body)]


def _several(function):
    """A function that gives a vector or a text, and the same into a room."""
    given = "Segments" if function.gives_segments else GIVEN[function.result.kind]
    body = [*_text(function), *_checks(function), *(_counted(function) if function.counts else _filled(function))]
    return [*_function(function.name, _taken(function), given, body), "", *_into(function)]


def _filled(function):
    """The body of a function whose result has a length that is known before the call."""
    yield f"let mut out = zeros({_result_length(function)})?;"
    yield f"{function.name}_into({', '.join([*_passed(function), '&mut out'])})?;"
    yield "Segments::new(&out)" if function.gives_segments else "Ok(out)"


def _counted(function):
    """The body of a function whose call reports the length of its result; the room is as long as the result can be."""
    places = _enough(function) or _result_length(function)
    filled = f"counted({places}, |out| {function.name}_into({', '.join([*_passed(function), 'out'])}))"
    yield f"{filled}.map(text_of)" if function.result.kind == "text" else filled


def _within(function, place):
    """The function in place, over an operand."""
    yield f"/// [`{function.name}`] in place, over `{place.name}`; a fault leaves it as it was."
    if _has_example(function):
        yield from _in_comment([*_cuts(function), *_example_within(function, place)])
    body = [f"let out = {place.name}.as_mut_ptr();", _called(function, place)]
    yield from _function(f"{function.name}_in", _taken(function, place), "()", body)


def _example_within(function, place):
    yield f"let mut {place.name} = [{', '.join(function.words(place))}];"
    yield f"cvl::{function.name}_in({', '.join(_example_arguments(function, place))})?;"
    yield f"assert_eq!({place.name}, {_result(function)});"


def _written(function):
    if function.makes_segments:
        code = _function(function.name, ["lengths: &[i32]"], "Segments", ["Segments::new(lengths)"])
    elif _has_ranges(function):
        code = _range(function)
    elif function.over:
        code = _over(function)
    else:
        code = _several(function) if function.result.role == "room" else _single(function)
    if function.in_place:
        code += ["", *_within(function, function.in_place[0])]
    return "\n".join(["", *_comment(function), *code, ""])


def calls():
    """`bindings/rust/src/calls.rs`."""
    about = (
        "Each call of the table, by its name: over slices, with a new vector for its result; under a name that ends in `_into`,\n"
        "//! into a room; and under one that ends in `_in`, in place, over an argument, if a call may."
    )
    uses = (
        "use alloc::vec::Vec;\n\n"
        "use crate::fault::{Fault, NOT_TOLD};\nuse crate::lengths::{counted, limit, places, same, true_flags, zeros};\n"
        "use crate::pool::call;\nuse crate::segments::Segments;"
    )
    return HEAD.format(about=about, note=rows.NOTE, uses=uses) + "".join(map(_written, packages.CALLS))


def families():
    """`bindings/rust/src/families.rs`."""
    about = "The functions that are no call of a script: texts, and what a part of a call needs that the whole does not, among others."
    uses = (
        "use alloc::string::String;\nuse alloc::vec::Vec;\n\n"
        "use crate::fault::{Fault, NOT_TOLD};\nuse crate::lengths::{counted, limit, most_words, places, same, text_of, zeros};\n"
        "use crate::numbers::Operator;\nuse crate::pool::call;\nuse crate::segments::Segments;"
    )
    return HEAD.format(about=about, note=rows.NOTE, uses=uses) + "".join(map(_written, FAMILIES))


def _operators():
    """The operators that a function of a family takes here."""
    numbers = {name for function in FAMILIES for name in function.family.operators}
    return [found for found in table.OPERATORS if found.name in numbers]


def numbers():
    """`bindings/rust/src/numbers.rs`."""
    lines = ["//! The numbers of faults and of operators.", "//!", f"//! {rows.NOTE}", ""]
    lines += ["/// The numbers of faults, as [`Fault::number`](crate::Fault::number) tells them.", "pub mod faults {"]
    for number, name in table.STATUSES[1:]:
        lines += [f"    /// {name}.", f"    pub const {in_c.constant(name)}: u32 = cvl_sys::CVL_{in_c.constant(name)};"]
    lines += ["}", "", "/// An operator of a function that goes on from a part."]
    lines += ["#[derive(Clone, Copy, Debug, PartialEq, Eq, Hash)]", "#[non_exhaustive]", "#[repr(u32)]", "pub enum Operator {"]
    for found in _operators():
        said = found.sentence[0].upper() + found.sentence[1:]
        lines += [f"    /// {said}.", f"    {found.name.title()} = cvl_sys::CVL_{found.name},"]
    return "\n".join([*lines, "}", ""])


# ---- the calls as a test has them that tries each on its example ----

TRIED_HEAD = f"""//! Each function on the operands of its example: what it gives; the same into a room; and in place, over an operand.
//!
//! {rows.NOTE}

use super::{{numbers, told, Call}};

pub const CALLS: &[Call] = &[
"""

OF_EXAMPLE = {"int": "{} as i32", "flag": "{} != 0", "sum": "{}", "size": "{} as usize"}


def _of_given(operand):
    """An operand of what a test is given."""
    if operand == packages.COUNT:
        return 'given.len("out") as i64'
    if operand.role == "lengths":
        return f'&given.segments("{operand.name}")'
    if operand.role == "reads":
        return f'given.{operand.kind}("{operand.name}")'
    number = f'given.number("{operand.name}")'
    return OF_EXAMPLE[operand.kind].format(number) if operand.role == "value" else number


def _rooms_of_test(rooms):
    """The rooms of a test: each of its kind, and the second one of integers."""
    kinds = [room.kind for room in rooms]
    return [f"&mut room.{'seconds' if kind in kinds[:k] else kind}" for k, kind in enumerate(kinds)]


def _tried(function):
    """A function with its forms, as one line."""
    operator = _operator(function, f"cvl::Operator::{_operator_of_example(function)}")

    def called(end, operands, rooms, place=None):
        words = [f"&mut room.{o.kind}" if o == place else _of_given(o) for o in operands]
        return f"cvl::{function.name}{end}({', '.join([*operator, *words, *_rooms_of_test(rooms)])})"

    gives = fills = within = "None"
    if _has_ranges(function) or function.over:
        made = called("", function.operands, function.row.rooms)
        fills = f"Some(|{'given' if 'given.' in made else '_'}, room| told({made}))"
    else:
        gives = f"Some(|given| numbers({called('', function.operands, [])}))"
    if gives != "None" and function.fills:
        fills = f"Some(|given, room| told({called('_into', _beside_room(function), [function.result])}))"
        for place in function.in_place[:1]:
            words = called("_in", function.operands, [], place)
            within = f'Some(("{place.name}", |{"given" if "given." in words else "_"}, room| {words}))'
    return f'    Call {{ name: "{function.name}", gives: {gives}, fills: {fills}, within: {within} }},'


def tried_calls():
    """`bindings/rust/tests/examples/calls.rs`."""
    tried = [*packages.CALLS, *filter(_has_example, FAMILIES)]
    return TRIED_HEAD + "\n".join([*map(_tried, tried), "];", ""])
