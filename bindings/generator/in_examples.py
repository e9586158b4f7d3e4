"""The examples of the table as one file of data, which the tests in Rust and in Fortran read."""

import rows
import table

HEAD = f"""# The example of each call, and of each function that is no call: its name, its family and the number of its operator, or -1. Then a line for
# each operand: what the call does with it, its name, its kind, how long it is, how many numbers it has, and these: 1 for true, and the
# bytes of a text. Behind a room over which a call is made stands, as `before`, what it holds before.
#
# {rows.NOTE}
"""


def _numbers(operand, words):
    """The numbers of an operand in an example."""
    if operand.kind == "text":
        return [*words[1:-1].replace("\\n", "\n").encode()]
    return [{"true": 1, "false": 0}.get(word, word) for word in words.split()]


def _operand(operand, words, role=None):
    numbers = _numbers(operand, words)
    return " ".join(
        map(str, [role or operand.role, operand.name, operand.kind, operand.extent or "alone", len(numbers), *numbers])
    )


def _lines(row):
    for operand in row.operands:
        if operand.name in row.example:
            yield _operand(operand, row.example[operand.name])
        if operand.over:
            yield _operand(operand, row.example[table.before(operand.name)], "before")


def _example(row):
    operator = row.operator or row.example.get("op")
    operator = next((found.number for found in table.OPERATORS if found.name == operator), -1)
    lines = _lines(row)
    return "\n".join([f"= {row.name} {row.family.name} {operator}", *lines, ""])


def tested():
    """The calls, and the functions that are no call, with their examples."""
    return [*rows.CALLS, *(row for row in rows.FAMILIES.values() if row.example)]


def with_family():
    """These, and the families of the calls, which the examples of their calls try."""
    families = dict.fromkeys(row.family.name for row in rows.CALLS)
    return [*tested(), *(rows.FAMILIES[name] for name in families)]


def text():
    """`tests/languages/examples.txt`, and the same in the crate."""
    return "\n".join([HEAD, *map(_example, tested())])
