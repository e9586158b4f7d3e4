"""The code of a program: lists of vector calls, each of which binds a new name, and blocks of them that run for iterations.

A value of n iterations is made of vectors. An integer of each iteration is one vector of n elements; a list of each is the n
lengths and all elements one behind another, which may be lists again. So a list of lists of each iteration is two vectors of
lengths and one of elements, whatever the lists are.
"""

import re
from dataclasses import dataclass, field
from typing import Optional, Union

# each call that the compiler uses, by what it gives: a vector of integers or of booleans, a single integer or a single boolean.
# All are functions of `cvl`. script.py makes those without three letters at their end out of others.
CALLS = {
    "z": """add_wuz sub_wuz mul_wuz div_wuz mod_wuz rsh_wuz min_wuz max_wuz and_wuz xor_wuz sel_wuz int_wub
        add_suz add_rez tot_rez min_rez max_rez bck_puz ext_vez pck_luz dis_vuz dis_vez ind_luz ind_lez
        gather_segments_int append_segments_int merge_by_flags_int seg_sort""",
    "b": """les_wuz leq_wuz grt_wuz geq_wuz eql_wuz neq_wuz and_wub ior_wub not_wub sel_wub boo_wuz and_reb ior_reb
        bck_pub ext_veb pck_lub dis_vub dis_veb gather_segments_bool append_segments_bool merge_by_flags_bool""",
    "n": "add_ruz cnt_lub ext_vuz",
    "t": "ext_vub",
}
# a new name for what has one
SAME = "is"
GIVES = {name: kind for kind, names in CALLS.items() for name in names.split()}


def of_kind(call, kind):
    """The call of a family for integers, `z`, or for booleans, `b`."""
    if kind == "z":
        return call
    return call.replace("_int", "_bool") if call.endswith("_int") else call[:-1] + "b"


# ---- values ----


@dataclass(frozen=True)
class Same:
    """One integer or boolean, the same in all iterations: written in the program, or a single value by its name."""

    value: Union[int, bool, str]
    kind: str

    @property
    def is_written(self):
        return not isinstance(self.value, str)


@dataclass(frozen=True)
class Vector:
    """An integer or a boolean of each iteration."""

    name: str
    kind: str
    is_written = False


@dataclass(frozen=True)
class Lists:
    """A list of each iteration. Its elements lie one behind another, or else begin at `starts`, so that lists may be left out,
    taken twice or cut without a copy of their elements."""

    lengths: Vector
    inner: "Value"
    starts: Optional[Vector] = None


@dataclass(frozen=True)
class Whole:
    """One list, the same in all iterations."""

    length: Same
    inner: "Value"


@dataclass(frozen=True)
class Tuple:
    parts: tuple


Value = Union[Same, Vector, Lists, Whole, Tuple]


def leaves(value):
    """The names of all vectors and single values of a value, in one order for all values of its form."""
    if isinstance(value, Same):
        return [] if value.is_written else [value.value]
    if isinstance(value, Vector):
        return [value.name]
    if isinstance(value, Tuple):
        return [name for part in value.parts for name in leaves(part)]
    if isinstance(value, Whole):
        return leaves(value.length) + leaves(value.inner)
    return [value.lengths.name, *([value.starts.name] if value.starts else []), *leaves(value.inner)]


def stays(value):
    """The names of the vectors that are the same, whichever iterations of a value are left out: the elements of lists with
    starts."""
    if isinstance(value, Tuple):
        return [name for part in value.parts for name in stays(part)]
    if isinstance(value, Lists):
        return leaves(value.inner) if value.starts else stays(value.inner)
    return leaves(value.inner) if isinstance(value, Whole) else []


def renamed(value, names):
    """A value of the same form, with new names from an iterator."""
    if isinstance(value, Same):
        return value if value.is_written else Same(next(names), value.kind)
    if isinstance(value, Vector):
        return Vector(next(names), value.kind)
    if isinstance(value, Tuple):
        return Tuple(tuple(renamed(part, names) for part in value.parts))
    if isinstance(value, Whole):
        return Whole(renamed(value.length, names), renamed(value.inner, names))
    lengths, starts = renamed(value.lengths, names), value.starts and renamed(value.starts, names)
    return Lists(lengths, renamed(value.inner, names), starts)


def form(value):
    """What two values have in common that the same code may take: all but their names."""
    if isinstance(value, Same):
        return ("same", value.kind, value.value if value.is_written else None)
    if isinstance(value, Vector):
        return value.kind
    if isinstance(value, Tuple):
        return tuple(map(form, value.parts))
    if isinstance(value, Whole):
        return ("whole", form(value.length), form(value.inner))
    return ("lists", value.starts is not None, form(value.inner))


# ---- steps ----


@dataclass(frozen=True)
class Error:
    """What Python would raise, and where."""

    kind: type
    said: str
    line: int
    function: object


@dataclass
class Call:
    """Binds a name to what a call gives. If the call has a fault at a place, the iteration with that number has the error."""

    name: str
    call: str
    given: list
    error: Optional[Error] = None


@dataclass
class Check:
    """The first iteration whose flag is true has the error."""

    flags: str
    error: Error


@dataclass
class Block:
    """Steps that run for iterations: the name of how many there are, what the steps take from outside, and what they give."""

    count: str
    inputs: list = field(default_factory=list)
    steps: list = field(default_factory=list)
    result: Optional[Value] = None


@dataclass
class Inside:
    """Runs a block for iterations within those of the code around it: for each element of its lists, which have these lengths,
    or for those whose flag is true. Without iterations the block does not run, and gives empty vectors."""

    block: Block
    result: Value
    lengths: Optional[str] = None
    flags: Optional[str] = None


@dataclass
class Apply:
    """Runs a function once, for all iterations."""

    function: "Function"
    given: list
    result: Value
    count: str


@dataclass
class Function:
    """A function for arguments of some form. The name of its text stands in errors."""

    name: str
    block: Block


def reads(step):
    """The names that a step reads."""
    if isinstance(step, Call):
        return [name for name in step.given if isinstance(name, str)]
    if isinstance(step, Check):
        return [step.flags]
    if isinstance(step, Apply):
        return [step.count, *(name for value in step.given for name in leaves(value))]
    return [step.lengths or step.flags, step.block.count, *(name for value in step.block.inputs for name in leaves(value))]


def gives(step):
    """The names that a step binds."""
    if isinstance(step, Check):
        return []
    return [step.name] if isinstance(step, Call) else leaves(step.result)


def _read_of(value, names):
    """The parts of a value that are read, by the names that are."""
    if isinstance(value, Tuple):
        return [part for whole in value.parts for part in _read_of(whole, names)]
    if isinstance(value, Lists) and not names & {*leaves(value.starts or value.inner)}:
        return _read_of(value.lengths, names)
    return [value] if names & {*leaves(value)} else []


def tidied(block):
    """A block without the calls that nothing needs, and with what each step is the last to read, so that it can be let go."""
    needed, steps = set(leaves(block.result)), []
    for step in reversed(block.steps):
        if isinstance(step, Call) and not step.error and step.name not in needed:
            continue
        if isinstance(step, Inside):
            inside = tidied(step.block)
            inside.inputs = [part for value in inside.inputs for part in _read_of(value, inside.reads)]
            step = Inside(inside, step.result, step.lengths, step.flags)
        step.last = {*reads(step), *gives(step)} - needed
        needed |= {*reads(step)}
        steps.append(step)
    tidy = Block(block.count, block.inputs, steps[::-1], block.result)
    tidy.reads = needed
    return tidy


def listing(function):
    """The code of a function and of those that it calls as text, a step a line. Names count from v1; one that is another is
    that."""
    found, text, names, others = [function], [], {}, {}
    for one in found:
        parameters = [name for value in one.block.inputs for name in leaves(value)]
        text.append(f"{one.name}({', '.join(parameters)}), {one.block.count} iterations:")
        text += [*_lines(one.block.steps, "    ", found, others), f"    return {', '.join(leaves(one.block.result))}"]

    def number(word):
        name = others.get(word[0], word[0])
        return names.setdefault(name, f"v{len(names) + 1}")

    return re.sub(r"\bv\d+\b", number, "\n".join(text))


def _lines(steps, blanks, found, others):
    for step in steps:
        if isinstance(step, Call) and step.call == SAME:
            others[step.name] = others.get(step.given[0], step.given[0])
        elif isinstance(step, Call):
            yield f"{blanks}{step.name} = {step.call} {' '.join(map(str, step.given))}"
        elif isinstance(step, Check):
            yield f"{blanks}{step.error.kind.__name__} at the first of {step.flags}"
        elif isinstance(step, Apply):
            found += [] if any(one is step.function for one in found) else [step.function]
            yield f"{blanks}{', '.join(gives(step))} = {step.function.name}({', '.join(reads(step)[1:])})"
        else:
            of = f"the elements of {step.lengths}" if step.lengths else f"the true of {step.flags}"
            yield f"{blanks}{step.block.count} iterations, {of}:"
            yield from _lines(step.block.steps, blanks + "    ", found, others)
            yield f"{blanks}    give {', '.join(leaves(step.block.result))} as {', '.join(gives(step))}"
