"""How a `cvl.Ragged` is shown, and what it says of functions of numpy that it has not."""

from __future__ import annotations

from typing import Any, List

import numpy


def _is_long(ragged: Any) -> bool:
    return max(ragged.size, len(ragged)) > numpy.get_printoptions()["threshold"]


def _shown_rows(ragged: Any, is_long: bool) -> List[Any]:
    """The rows, and nothing for those that are left out."""
    edge = numpy.get_printoptions()["edgeitems"]
    if not is_long or len(ragged) <= 2 * edge:
        return list(ragged)
    return [*ragged[:edge], None, *ragged[len(ragged) - edge :]]


def _of_row(row: Any, is_long: bool, indent: str) -> str:
    if row is None:
        return "..."
    if not isinstance(row, numpy.ndarray):
        return _of_rows(row, is_long, f"{indent} ")
    edge = numpy.get_printoptions()["edgeitems"]
    return numpy.array2string(row, separator=", ", threshold=2 * edge if is_long else max(row.size, 1), prefix=indent)


def _of_rows(ragged: Any, is_long: bool, indent: str) -> str:
    return "[" + f",\n{indent}".join(_of_row(row, is_long, indent) for row in _shown_rows(ragged, is_long)) + "]"


def text(ragged: Any) -> str:
    """As numpy shows an array: all rows, or if they are many the first and the last."""
    kind = ", dtype=bool" if ragged.dtype == bool and ragged.size == 0 else ""
    return f"Ragged({_of_rows(ragged, _is_long(ragged), ' ' * len('Ragged(['))}{kind})"


def table(ragged: Any) -> str:
    """The same in HTML, with the number of each row."""
    is_long = _is_long(ragged)
    rows = _shown_rows(ragged, is_long)
    lines, behind = [], False
    for k, row in enumerate(rows):
        behind = behind or row is None
        number = "" if row is None else k + len(ragged) - len(rows) if behind else k
        lines.append(f"<tr><th>{number}</th><td>{_of_row(row, is_long, '')}</td></tr>")
    return f"<table>{''.join(lines)}</table><p>{len(ragged)} rows, {ragged.size} elements of {ragged.dtype}</p>"


def refused(ufunc: Any, method: str, more: Any) -> str:
    """What to write instead of a ufunc, or a form of one, that has no call."""
    name = f"numpy.{ufunc.__name__}"
    if more:
        return f"{name} of a Ragged takes no {', '.join(more)}; write {name}(r, s), or r += s to change r where it is"
    if method != "__call__":
        return f"{name}.{method} takes no Ragged; write a method of it, such as r.sum(), r.cumsum() or r.add_at(index, values)"
    return f"{name} has no call; write {name}(r.flatten()), or [{name}(row) for row in r]"


# what functions of numpy are called here
OTHER_NAMES = {"concatenate": "cvl.Ragged.concat([r, s])", "where": "cvl.Ragged.where(mask, r, s)", "array_equal": "r.equals(s)"}


def refused_function(of: Any, function: Any) -> str:
    name = function.__name__
    own = OTHER_NAMES.get(name) or (f"r.{name}(..)" if hasattr(of, name) else f"[numpy.{name}(row) for row in r]")
    return f"numpy.{name} takes no Ragged; write {own}, or numpy.{name}(r.flatten(), ..) for all numbers"
