"""What is written in Python of calls over the ranks of MPI: the table of `cvl.mpi`."""

import in_mpi
import in_python
import rows
import table
from packages import name_of

# The plain calls, which have the names of operands, and say where a number may stand for an array.
PLAIN = {call.name: call for call in in_python.FUNCTIONS}


def _operand(row, operand):
    """An operand: its name, what it is to the call, its kind as `cvl._calls` takes it, and how long it is."""
    if operand.role == "lengths":
        if in_mpi.is_held(row):
            return (name_of(operand), "takes", "segments", operand.extent)
        return (operand.name, "lengths", "ints", operand.extent)
    if operand.over:
        return (operand.name, "over", operand.kind, operand.extent)
    if operand.role in ("room", "single", "told"):
        return (operand.name, "room" if operand.role == "room" else "one", operand.kind, operand.extent)
    return (operand.name, "takes", in_python.kind_of(operand).lower(), operand.extent)


def _gives(row):
    """What a call gives, as `cvl._calls` has it: one value or an array, which may be the caller's or stand at the front of it."""
    room = next(iter(row.rooms), None)
    if room is None:
        return "one"
    is_front = any(operand.role == "told" for operand in row.operands)
    return f"{'over_' if room.over else 'front_' if is_front else ''}{room.kind}"


def _row(row):
    operands = tuple(_operand(row, operand) for operand in row.operands)
    if in_mpi.takes_operator(row):
        operands = (("op", "takes", "operator", None), *operands)
    number = table.NUMBERS[row.operator] if row.operator else None
    found = (row.family.name, number, _gives(row), in_python._spreads(PLAIN[row.name]), operands)
    return f'    "{row.name}": {found!r},'.replace("'", '"')


def calls():
    """`bindings/python/cvl/over_ranks.py`."""
    names = "".join(f'    {number}: "{name}",\n' for number, name in table.STATUSES)
    return "\n".join([
        '"""The calls over ranks: of each its family, the number of its operator or None, what it gives, whether a number may',
        "stand for an array, and its operands, each with what it is to the call, its kind and its extent; and the names of what",
        "calls answer.",
        "",
        rows.NOTE,
        '"""',
        "",
        "NAMES = {",
        f"{names}}}",
        "",
        "CALLS = {",
        *map(_row, in_mpi.of_python()),
        "}",
        "",
    ])  # fmt: skip
