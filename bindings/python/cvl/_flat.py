"""Functions with numpy's names on flat arrays, which are one or two calls."""

from __future__ import annotations

from typing import Any, Tuple

import numpy

from cvl import _building, operators
from cvl._elementwise import flags, ints, is_bool
from cvl._rows import from_end, refuse_below_0
from cvl._whole import grouped, taken
from cvl.calls import (
    add_suz,
    add_wuz,
    combine_permute_bool,
    combine_permute_int,
    counts,
    max_ruz,
    min_ruz,
    order,
    pck_lub,
    pck_luz,
)
from cvl.fault import Fault
from cvl.ragged import Ragged, is_number


def cumsum(a: Any) -> Any:
    given = ints(_building.numbers(a, "a"))
    found = add_suz(given)
    return add_wuz(found, given, out=found)


def argsort(a: Any) -> Any:
    return order(ints(_building.numbers(a, "a")))


def bincount(a: Any, minlength: int = 0) -> Any:
    refuse_below_0(minlength)
    given = ints(_building.numbers(a, "a"))
    return counts(given, max(max_ruz(given) + 1, minlength) if len(given) else minlength)


def _at(a: Any, places: Any) -> Any:
    return taken(a, from_end(places, len(a)) if len(places) and min_ruz(places) < 0 else places)


def _at_rows(rows: Any, a: Any) -> Any:
    """The elements at places that are rows."""
    try:
        return rows._with(_at(a, rows._values))
    except Fault as fault:
        raise rows._told(fault, lambda path, flat: _outside(a, path, rows._values[flat])) from None


def _outside(a: Any, path: Tuple[int, ...], value: Any) -> str:
    return f"a has {len(a)} elements, and index{''.join(f'[{place}]' for place in path)} is {value}"


def take(a: Any, index: Any) -> Any:
    given = _building.numbers(a, "a")
    places = index if isinstance(index, Ragged) else _building.numbers(index, "index")
    if places.dtype == bool:
        raise TypeError("an index is no boolean; write cvl.compress(mask, a)")
    if isinstance(places, Ragged):
        return places._on_rows(_at_rows, (), (given,))
    try:
        return _at(given, places)
    except Fault as fault:
        if fault.place is None:
            raise
        raise Fault(fault.number, fault.name, fault.place, _outside(given, (fault.place,), places[fault.place])) from None


def compress(mask: Any, a: Any) -> Any:
    given, chosen = _building.numbers(a, "a"), flags(_building.numbers(mask, "mask"))
    return (pck_lub if is_bool(given) else pck_luz)(given, chosen)


def add_at(a: Any, index: Any, values: Any) -> Any:
    places = _building.numbers(index, "index")
    if is_number(values):
        values = numpy.full(len(places), values)
    sent = _building.numbers(values, "values")
    if len(places) and min_ruz(places) < 0:
        places = from_end(places, len(a))
    if isinstance(a, numpy.ndarray) and a.dtype == bool:
        return combine_permute_bool(operators.IOR, flags(sent), places, a)
    return combine_permute_int(operators.ADD, ints(sent), places, a)


groupby = grouped
