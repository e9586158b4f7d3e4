"""What is written in Rust of the functions of C as they are: the crate `cvl-sys`."""

import pathlib
import re
import textwrap

import in_c
import in_examples
import rows
import table

WIDTH = 126
BY_HAND = pathlib.Path(__file__).resolve().parents[1] / "rust/cvl-sys/src/by_hand.rs"

OF_ONE = {"int32_t": "i32", "bool": "bool", "size_t": "usize", "int64_t": "i64", "uint32_t": "u32", "uint8_t": "u8", "char": "u8"}


def type_of(argument):
    """The type in Rust of an argument in C."""
    kind = argument.type.replace("const ", "").strip(" *")
    kind = OF_ONE.get(kind, kind)
    if "*" not in argument.type:
        return kind
    return f"*const {kind}" if argument.type.startswith("const ") else f"*mut {kind}"


def documented(*paragraphs, indent="    "):
    """Paragraphs as a comment of what follows."""
    lines = []
    for paragraph in filter(None, paragraphs):
        lines += [""] if lines else []
        lines += textwrap.wrap(paragraph, WIDTH - len(indent) - 4, break_long_words=False, break_on_hyphens=False)
    return [f"{indent}/// {line}".rstrip() for line in lines]


def shown(head, taken, tail, indent="    "):
    """A function's head, on several lines where one is too short."""
    line = f"{indent}{head}({', '.join(taken)}){tail}"
    if len(line) <= WIDTH:
        return [line]
    inner = textwrap.wrap(", ".join(taken) + ",", WIDTH - len(indent) - 4, break_long_words=False, break_on_hyphens=False)
    return [f"{indent}{head}(", *(f"{indent}    {part}" for part in inner), f"{indent}){tail}"]


def declared(name, arguments, pool=False):
    taken = ["pool: *const CvlPool"] if pool else []
    taken += [f"{argument.name}: {type_of(argument)}" for argument in arguments]
    return shown(f"pub fn cvl_{name}", taken, " -> CvlStatus;")


def _plain(row):
    faults = rows.fault_text(row)
    return [*documented(row.sentences, row.family.told, faults and f"Faults: {faults}"), *declared(row.name, row.arguments)]


def _in_parts(row):
    said = documented(f"[`cvl_{row.name}`] in parts: {table.CUTS[row.family.cut[0]].said}.")
    return [*said, *declared(f"{row.name}_on", row.arguments, True)]


def _on_segments(row):
    said = documented(f"[`cvl_{row.name}`] with a descriptor for the lengths.")
    return [*said, *declared(in_c.segments_name(row), in_c.held(row.arguments))]


def functions():
    """`cvl-sys/src/functions.rs`."""
    every = [*rows.FAMILIES.values(), *rows.CALLS]
    blocks = [_plain(row) for row in every]
    blocks += [_in_parts(row) for row in every if row.family.cut is not None]
    blocks += [_on_segments(row) for row in in_c.on_segments()]
    lines = [
        "//! The functions of the families and of the calls, plain, in parts and with a descriptor.",
        "//!",
        f"//! {rows.NOTE}",
        "",
        "use crate::by_hand::{CvlLengths, CvlPool, CvlSegments, CvlStatus};",
        "",
        'extern "C" {',
    ]
    return "\n".join([*lines, "\n\n".join("\n".join(block) for block in blocks), "}", ""])


def _constant(name, kind, value, said):
    return [*documented(said, indent=""), f"pub const CVL_{name}: {kind} = {value};", ""]


def constants():
    """`cvl-sys/src/constants.rs`."""
    lines = ["//! The constants of the headers.", "//!", f"//! {rows.NOTE}", ""]
    lines += _constant("VERSION", "&str", f'"{table.VERSION}"', "The version of the headers.")
    for name, number in zip(("MAJOR", "MINOR", "PATCH"), table.VERSION.split(".")):
        lines += _constant(f"VERSION_{name}", "u32", number, f"The {name.lower()} number of the version.")
    said = "The most elements of a vector, and the greatest total of segments."
    lines += _constant("MOST_ELEMENTS", "usize", f"{table.MOST_ELEMENTS:_}", said)
    said = "The most elements of a nested text that is read at once, and the most of its lists."
    lines += _constant("MOST_OF_TEXT", "usize", f"{table.MOST_OF_TEXT:_}", said)
    said = "The most bytes of its stack that a thread needs for a call."
    lines += _constant("MOST_STACK", "usize", f"{table.MOST_STACK:_}", said)
    for number, name in table.STATUSES:
        said = "All is done." if number == 0 else f"The number of the fault {name}."
        lines += _constant(in_c.constant(name), "u32", number, said)
    for found in table.OPERATORS:
        lines += _constant(found.name, "u32", found.number, f"The operator: {found.sentence}.")
    return "\n".join(lines).rstrip() + "\n"


def differences():
    """The public names of the library that the crate has not, or the crate alone."""
    texts = [functions(), BY_HAND.read_text()]
    declared_here = sorted(name for text in texts for name in re.findall(r"\bpub fn (cvl_\w+)\(", text))
    public = in_c.public().split()
    for name in sorted(set(public) - set(declared_here)):
        yield f"{name} is a name of the library that cvl-sys does not declare"
    for name in sorted(set(declared_here) - set(public)):
        yield f"{name} is declared by cvl-sys, and is no name of the library"


# ---- the functions as a test has them that tries each on its example ----

FUNCTIONS_HEAD = f"""//! Each function that has the operands of an example: of which call or family, its name, and the call on what a test holds.
//!
//! {rows.NOTE}

use cvl_sys::*;

use super::Held;

pub type Function = fn(&Held) -> CvlStatus;

pub const FUNCTIONS: &[(&str, &str, Function)] = &[
"""

VALUES = {"int": "{} as i32", "flag": "{} != 0", "sum": "{}", "size": "{} as usize"}


def _held(argument):
    """An argument of a call, of what a test holds."""
    operand = argument.operand
    if operand is None:
        return "held.operator()"
    if argument.size:
        return f'held.len("{operand.name}")'
    if operand.role == "lengths":
        return (
            f'&held.descriptor("{operand.name}")' if argument.type == "const CvlSegments *" else f'held.lengths("{operand.name}")'
        )
    if operand.role in ("place", "count"):
        return f'held.number("{operand.name}")'
    return (
        VALUES[operand.kind].format(f'held.number("{operand.name}")') if operand.role == "value" else f'held.at("{operand.name}")'
    )


def _tried(row, name, arguments, pool=False):
    """A function as one line."""
    operator = f"CVL_{row.operator}" if row.operator else None
    words = [operator if argument.operand is None and operator else _held(argument) for argument in arguments]
    given = ", ".join((["&cvl_pool_alone(3)"] if pool else []) + words)
    return f'    ("{row.name}", "{name}", |held| unsafe {{ {name}({given}) }}),'


def _functions_of(row):
    yield _tried(row, f"cvl_{row.name}", row.arguments)
    if row.family.cut is not None:
        yield _tried(row, f"cvl_{row.name}_on", row.arguments, pool=True)
    if not row.call and row in in_c.on_segments():
        name = f"cvl_{in_c.segments_name(row)}"
        yield _tried(row, name, in_c.held(row.arguments))


def tried_functions():
    """`cvl-sys/tests/examples/functions.rs`."""
    return FUNCTIONS_HEAD + "\n".join([*(line for row in in_examples.with_family() for line in _functions_of(row)), "];", ""])
